#!/usr/bin/env python3
"""Tries that a line of a book file which can be no row isn't held: 1 GiB without a line feed takes no more memory than
a short line, and is refused as a short line is. A row of a million receivers is a row. No clause counts memory.

usage: endless_lines.py PROGRAM   PROGRAM is aprsbook; aprsbook-fold is tried too, if it lies beside it
"""
from __future__ import annotations

import pathlib
import resource
import subprocess
import sys
from typing import List, NamedTuple, NoReturn, Sequence

from arguments import beside

HEADER, MOMENT = "APRSBOOK 3 30\n", "2024-05-01T12:00:00.000Z"
START = f"T {MOMENT} {MOMENT} "
FRAME = "82a0a4a64040e09c60868298986f03f03e4869"
GIB, MIB = 1 << 30, 1 << 20
LONG = 96 * MIB  # of a line; the longest have 1 GiB
LEFT = 64 * MIB  # addresses that a program has for such a line
RECEIVERS = 1_000_000
LEFT_FOR_ROW = 192 * MIB  # addresses for a row of so many receivers, whose line has 9 MB


class Endless(NamedTuple):
    """What begins so and goes on with the same bytes, and what is said of it: unfinished, and with a line feed."""
    name: str
    start: str
    more: bytes
    line: int
    cause: str
    size: int = LONG


ENDLESS = [
    Endless("zeros as a first line", "", b"\0", 1, "Header"),
    Endless("a header that goes on", "APRSBOOK 3 3000", b"0", 1, "Header"),
    Endless("a row as a first line", START, b"RX,", 1, "Header"),
    Endless("zeros as a row", HEADER, b"\0", 2, "RowSyntax", GIB - MIB),
    Endless("digits as a row", HEADER, b"0123456789", 2, "RowSyntax", GIB - MIB),
    Endless("a last line that goes on", HEADER + "END 1", b"0", 2, "Ending"),
    Endless("a moment that goes on", HEADER + "T 2024-05-01T12:00:00.", b"0", 2, "RowSyntax"),
    Endless("an endless name", HEADER + START, b"RX", 2, "RowSyntax", GIB - MIB),
    Endless("names that are empty", HEADER + START + "RX", b",", 2, "RowSyntax"),
    Endless("zeros among names", HEADER + START + "RX,", b"\0", 2, "RowSyntax"),
    Endless("an endless receiver", HEADER + START + "RX ", b"RX", 2, "RowSyntax"),
    Endless("two names of a receiver", HEADER + START + "RX ", b"RX,", 2, "RowSyntax"),
    Endless("endless digits of a frame", HEADER + START + "RX RX ", b"82a", 2, "RowSyntax"),
    Endless("capitals as digits", HEADER + START + "RX RX ", b"A0", 2, "RowSyntax"),
    Endless("fields without an end", HEADER + START + "RX RX 82a0", b" 82a0", 2, "RowSyntax"),
]


def fail(said: str) -> NoReturn:
    """Ends with what is wrong."""
    sys.exit(f"tests/programs/endless_lines.py: {said}")


def leave(addresses: int) -> None:
    """Leaves the program so few addresses."""
    resource.setrlimit(resource.RLIMIT_AS, (addresses, addresses))


def said_of(command: Sequence[str], endless: Endless, size: int, end: str) -> str:
    """Status and complaint of a command with such an input of this size on standard input."""
    piece = (endless.more * MIB)[:MIB]
    ran = subprocess.Popen(command, preexec_fn=lambda: leave(LEFT), stdin=subprocess.PIPE,
                           stdout=subprocess.DEVNULL, stderr=subprocess.PIPE)
    assert ran.stdin and ran.stderr
    try:
        ran.stdin.write(endless.start.encode() + endless.more)
        for _ in range(size // MIB):
            ran.stdin.write(piece)
        ran.stdin.write(end.encode())
        ran.stdin.close()
    except BrokenPipeError:  # it ended before its input did
        pass
    said = ran.stderr.read().decode()
    return f"{ran.wait()} {said}"


def try_endless(commands: Sequence[List[str]]) -> None:
    """Each input without an end is refused as it is where it is short. A merge takes it for a log, unless it begins
    as a book file."""
    for endless in ENDLESS:
        for command in commands if endless.start.startswith("APRSBOOK") else commands[-1:]:
            for size in (0, MIB, endless.size):
                for end, cause in (("", "Ending"), ("\n", endless.cause)):
                    said = said_of(command, endless, size, end)
                    name = pathlib.Path(command[0]).name.replace("_", "-")
                    wanted = f"1 {name}: standard input: line {endless.line}: {cause}\n"
                    if said != wanted:
                        fail(f"{endless.name}, {size} bytes, {' '.join(command)}: {said}")


def try_long_row(commands: Sequence[List[str]]) -> None:
    """A row of a million receivers is written as it is."""
    names = ",".join(f"RX{number:06}" for number in range(RECEIVERS))
    book = f"{HEADER}{START}{names} RX{RECEIVERS - 1:06} {FRAME}\nEND 1\n".encode()
    for command in commands:
        ran = subprocess.run(command, preexec_fn=lambda: leave(LEFT_FOR_ROW), input=book, stdout=subprocess.PIPE,
                             check=False)
        if ran.returncode or ran.stdout != book:
            fail(f"a row of {RECEIVERS} receivers: {' '.join(command)}: {ran.returncode}")


def main() -> None:
    """Tries the merge and the fold."""
    program = pathlib.Path(sys.argv[1]).absolute()
    fold = beside(program, "aprsbook-fold")
    if not fold:
        print("tests/programs/endless_lines.py: left out, there is no program of folds")
        return
    commands = [[str(program), "merge"], [str(fold)]]
    try_endless(commands)
    try_long_row(commands)


if __name__ == "__main__":
    main()
