"""Lines that are read and written as they come, however many there are."""
from __future__ import annotations

import contextlib
import sys

from aprsbook_tools import TYPE_CHECKING, stderr, stdout
from aprsbook_tools.books import inputs
from aprsbook_tools.errors import Fault

if TYPE_CHECKING:
    from typing import IO, Iterator, Optional, Sequence

BLOCK = 1 << 16  # bytes that are written at a time


def name_of(path: Optional[str]) -> str:
    """What a fault calls a file, or standard input."""
    return path if path is not None else "standard input"


def say_what_is_awaited() -> None:
    """Says that standard input is read, to whoever sits at its terminal."""
    if sys.stdin is not None and sys.stdin.isatty():
        stderr.note("reads what is typed: Ctrl-D ends it (aprs-net help has the commands)")


@contextlib.contextmanager
def opened(path: Optional[str]) -> Iterator[IO[bytes]]:
    """A file to read, which may be compressed, or standard input."""
    if path is None:
        if sys.stdin is None:
            raise OSError("standard input is closed")
        say_what_is_awaited()
        yield sys.stdin.buffer
    else:
        with inputs.unpacking(path) as file:
            yield file


def read_of(lines: Iterator[bytes], name: str) -> Iterator[bytes]:
    """What is made of an input, whose faults aren't those of the output."""
    try:
        yield from lines
    except OSError as fault:
        if fault.errno is None:
            raise  # of a compressed input
        raise Fault(f"{name}: {fault.strerror}") from fault


def put(output: Optional[str], lines: Iterator[bytes], given: Sequence[str],
        at_once: bool = False) -> None:
    """Writes lines into a file, whole or not at all; or to standard output, each at once where the
    input goes on."""
    if output is not None and output != "-":
        from aprsbook_tools.system import atomic  # where a file is written alone

        with atomic.writing(output, given) as new:
            new.file.writelines(lines)
        return
    block = bytearray()
    for line in lines:
        block += line
        if at_once or len(block) > BLOCK:
            stdout.write(bytes(block))
            block.clear()
    stdout.write(bytes(block))
