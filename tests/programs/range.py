#!/usr/bin/env python3
"""Tries that a range of a book file is found by bisection: a fold of one writes exactly the rows of the range, and
reads but a few of the file's lines, whatever these are like. No clause of a contract says how much is read.

usage: range.py PROGRAM [FOLDER]   PROGRAM is aprsbook-fold; with a FOLDER a book of more than 4 GiB is made there too
"""
from __future__ import annotations

import os
import subprocess
import sys
import tempfile
from typing import Iterable, List, NamedTuple, Tuple

HEADER, MOMENT = "APRSBOOK 3 30\n", "2024-05-01T12:00:00.000Z"
LARGE = 9 << 29
KIB, MIB = 1 << 10, 1 << 20


class Shape(NamedTuple):
    """A book: how many rows it has, and what these are like."""
    name: str
    rows: int
    receivers: str
    info: bytes


def names(count: int) -> str:
    return ",".join(f"RX{number:06}" for number in range(count))


SHAPES = [
    Shape("short rows", 20_000, "RX1", b">Hi"),
    Shape("frames of 256 bytes of information", 8_000, "RX1", b">" + 255 * b"x"),
    Shape("two receivers", 8_000, "RX1,RX2", b":N0CALL   :Hi{1"),
    Shape("lines of 5 KiB", 2_000, names(550), b">Hi"),
    Shape("lines of 100 KiB", 200, names(11_000), b">Hi"),
    Shape("one row", 1, "RX1", b">Hi"),
]


def source(number: int) -> str:
    return f"S{number:05}"


def address(call: str, last: int) -> bytes:
    return bytes(2 * byte for byte in call.ljust(6).encode()) + bytes([last])


def line(shape: Shape, number: int) -> str:
    frame = address("APRS", 0xE0) + address(source(number), 0x61) + b"\x03\xf0" + shape.info
    receiver = shape.receivers.rpartition(",")[2]
    return f"T {MOMENT} {MOMENT} {shape.receivers} {receiver} {frame.hex()}\n"


def book(shape: Shape, numbers: Iterable[int]) -> str:
    rows = [line(shape, number) for number in numbers]
    return HEADER + "".join(rows) + f"END {len(rows)}\n"


def folded(program: str, path: str, words: List[str]) -> Tuple[str, int]:
    """What a fold of this book file writes with these words, and how many bytes it reads in all."""
    with tempfile.TemporaryFile() as out:
        process = subprocess.Popen([program, *words, path], stdout=out)
        os.waitid(os.P_PID, process.pid, os.WEXITED | os.WNOWAIT)
        with open(f"/proc/{process.pid}/io", encoding="ascii") as io:
            read = int(io.readline().split()[1])
        if process.wait():
            sys.exit(f"range.py: {words} of {path}: status {process.returncode}")
        out.seek(0)
        return out.read().decode("ascii"), read


def ranges(rows: int) -> Iterable[Tuple[int, int]]:
    """From which source until which: the first and the last, those between, one and none, and past both ends."""
    middle = rows // 3
    yield from {(0, 1), (0, rows), (middle, middle + 1), (middle, middle), (middle, rows)}
    yield from ((rows - 1, rows), (rows, rows + 5))


def words_of(start: int, end: int, rows: int) -> List[str]:
    return (["--from", source(start)] if start else []) + (["--until", source(end)] if end != rows else [])


def most(shape: Shape, size: int, given: int) -> int:
    """How many bytes may be read: of two bisections two lines for each halving, the program, and what is given."""
    row = len(line(shape, 0))
    return 2 * size.bit_length() * max(2 * row, 8 * KIB) + 64 * KIB + 2 * given


def try_shape(program: str, shape: Shape, folder: str) -> None:
    path = os.path.join(folder, "it.book")
    with open(path, "w", encoding="ascii") as file:
        file.write(book(shape, range(shape.rows)))
    size = os.path.getsize(path)
    for start, end in ranges(shape.rows):
        words = words_of(start, end, shape.rows)
        if not words:
            continue
        wanted = book(shape, range(start, min(end, shape.rows)))
        given, read = folded(program, path, words)
        if given != wanted:
            sys.exit(f"range.py: {shape.name}: {words} writes {given[:200]!r}, and not {wanted[:200]!r}")
        if read > most(shape, size, len(wanted)):
            sys.exit(f"range.py: {shape.name}: {words} reads {read} of {size} bytes")


def try_large(program: str, folder: str) -> None:
    """A book of more than 4 GiB, whose lines have 8 MiB, so that it is soon made."""
    shape = Shape("more than 4 GiB", 0, names(8 * MIB // 9), b">Hi")
    rows = LARGE // len(line(shape, 0)) + 1
    path = os.path.join(folder, "large.book")
    try:
        with open(path, "w", encoding="ascii") as file:
            file.write(HEADER)
            for number in range(rows):
                file.write(line(shape, number))
            file.write(f"END {rows}\n")
        for start in (1, rows // 2, rows - 2):
            words = ["--from", source(start), "--until", source(start + 1)]
            given, read = folded(program, path, words)
            if given != book(shape, [start]):
                sys.exit(f"range.py: {words} of a large book writes {given[:200]!r}")
            if read > os.path.getsize(path) // 4:
                sys.exit(f"range.py: {words} of a large book reads {read} bytes")
    finally:
        os.unlink(path)


def main() -> None:
    program = os.path.abspath(sys.argv[1])
    with tempfile.TemporaryDirectory() as folder:
        for shape in SHAPES:
            try_shape(program, shape, folder)
    if len(sys.argv) > 2:
        try_large(program, sys.argv[2])
    print("the rows of a range are found by bisection")


if __name__ == "__main__":
    main()
