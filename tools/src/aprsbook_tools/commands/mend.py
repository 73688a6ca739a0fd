"""aprs-net mend: the lines of a log that are whole."""
import argparse
from typing import Iterator

from aprsbook_tools import arguments, stderr
from aprsbook_tools.books.mending import Left, mended
from aprsbook_tools.errors import ExitStatus, Fault
from aprsbook_tools.system import atomic, streams

DESCRIPTION = """\
Writes the lines of a log that are whole, of one that was cut short in the midst of one or that a
power failure left with holes; carriage returns at the ends of lines, a byte order mark and UTF-16
go. What it writes, aprsbook reads to the end. How many lines were left out is said; without a whole
one nothing is written. Of a compressed log that was cut short it writes what comes before that, and
the status is 1."""


EXAMPLES = [
    ("take a torn line out of a log", "aprs-net mend cut.log -o mended.log"),
]


def add_arguments(parser: argparse.ArgumentParser) -> None:
    arguments.add_output(parser)
    arguments.add_log(parser)


def checked(lines: Iterator[bytes], left: Left, name: str) -> Iterator[bytes]:
    """The lines; a Fault where there are none, and something was left out."""
    yield from lines
    if left.why and not left.taken:
        raise Fault(f"{name}: {left.why}")
    if left.out and not left.taken:
        raise Fault(f"{name} has no whole line of a log")


def run(args: argparse.Namespace) -> int:
    left = Left()
    with streams.opened(args.log) as file:
        name = streams.name_of(args.log)
        lines = streams.read_of(checked(mended(file, left), left, name), name)
        streams.put(args.output, lines, atomic.all_of(args.log))
    if left.out:
        stderr.warn(f"lines left out: {left.out}")
    if left.why:
        stderr.warn(f"{name}: {left.why}: whole lines before that are written: {left.taken}")
    return ExitStatus.INPUT if left.why else ExitStatus.DONE
