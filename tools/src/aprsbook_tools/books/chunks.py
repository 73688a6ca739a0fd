"""Logs cut into pieces of whole lines, each of what several logs have of about the same time, so
that copies of a transmission meet at once. Where clocks don't fit, that costs time alone."""
import contextlib
import os
import threading
from typing import IO, Iterator, List, NamedTuple, Optional, Sequence, Tuple

from aprsbook_tools.errors import ExitStatus, Fault, said
from aprsbook_tools.formats import book_file
from aprsbook_tools.system import programs

MEGABYTE = 1 << 20
LEAST = MEGABYTE  # bytes: nothing smaller is cut off a log
BLOCK = 1 << 18  # bytes that are read at a time
MOMENT = 20  # bytes of a line that tell about when it was heard


class Range(NamedTuple):
    """The lines of a log from one byte to another."""
    path: str
    start: int
    end: int


class FaultyLog(Fault):
    """A log or a book has a line that is none, which nothing but a change of it mends."""


def begins(path: str, octets: bytes) -> bool:
    """Whether a file begins so."""
    try:
        with open(path, "rb") as file:
            return file.read(len(octets)) == octets
    except OSError as fault:
        raise Fault(said(fault)) from fault


def line_start(file: IO[bytes], at: int) -> int:
    """Where the first line begins that begins at a byte or after it; or the end of the file."""
    if at <= 0:
        return 0
    at = file.seek(at - 1)
    while True:
        block = file.read(1 << 13)
        feed = block.find(b"\n")
        if feed >= 0 or not block:
            return at + feed + 1 if block else at
        at += len(block)


def cut(path: str, step: int) -> Iterator[Tuple[bytes, Range]]:
    """The ranges of a log, of about so many bytes, each with what its first line begins with."""
    with open(path, "rb") as file:
        size, start = os.fstat(file.fileno()).st_size, 0
        while start < size:
            end = line_start(file, start + step) if start + step < size else size
            file.seek(end)
            # what would be taken for a book stays a line of the log
            while end < size and file.read(len(book_file.BEGIN)) == book_file.BEGIN:
                end = line_start(file, end + 1)
                file.seek(end)
            file.seek(start)
            yield file.read(MOMENT), Range(path, start, end)
            start = end


def of(paths: Sequence[str], size: int) -> List[List[Range]]:
    """Pieces of about so many bytes of logs."""
    step = max(LEAST, size // max(1, len(paths)))
    found: List[Tuple[bytes, Range]] = []
    for path in paths:
        try:
            found.extend(cut(path, step))
        except OSError as fault:
            raise Fault(said(fault)) from fault
    result: List[List[Range]] = []
    held = 0
    for _, it in sorted(found, key=lambda one: (one[0], one[1].start, one[1].path)):
        if not result or held + it.end - it.start > size + size // 8:
            result.append([])
            held = 0
        result[-1].append(it)
        held += it.end - it.start
    return result


class Feeder(threading.Thread):
    """Writes the lines of ranges into a pipe, up to a line that was cut short. A range that can't
    be read must not look like one that ended: `fault` says so."""

    def __init__(self, ranges: Sequence[Range], into: int) -> None:
        super().__init__()
        self.ranges = ranges
        self.into = into
        self.fault: Optional[Fault] = None

    def run(self) -> None:
        try:
            with open(self.into, "wb", buffering=0, closefd=False) as into:
                all(self.feed(it, into) for it in self.ranges)
        except BrokenPipeError:
            pass  # the program has ended, and says why
        except OSError as fault:
            self.fault = Fault(said(fault))
        except Fault as fault:
            self.fault = fault
        except MemoryError:
            self.fault = Fault("no memory is left", ExitStatus.MEMORY)
        except BaseException as fault:  # whatever it is, the pipe's end is none of the log
            self.fault = Fault(f"{type(fault).__name__}: {fault}", ExitStatus.OUTPUT)
        finally:
            with contextlib.suppress(OSError):
                os.close(self.into)

    def feed(self, it: Range, into: IO[bytes]) -> bool:
        """Writes a range; whether it ends with a whole line."""
        block = b"\n"
        for block in blocks(it):
            rest = memoryview(block)
            while rest:
                rest = rest[into.write(rest):]
        return block.endswith(b"\n")


def blocks(it: Range) -> Iterator[bytes]:
    """The bytes of a range, and behind them the rest of a line that was being written."""
    with open(it.path, "rb", buffering=0) as file:
        at, block = file.seek(it.start), b"\n"
        while at < it.end:
            block = file.read(min(BLOCK, it.end - at))
            if not block:
                raise Fault(f"{it.path} has become shorter while it was read")
            at += len(block)
            yield block
        while not block.endswith(b"\n"):
            block = file.read(1 << 13)
            if not block:
                break
            block = block[:block.find(b"\n") + 1 or len(block)]
            yield block


def place(ranges: Sequence[Range], line: int) -> Tuple[str, int]:
    """The log of a line of ranges one after another, and its number there."""
    for it in ranges:
        here = lines_of(it)
        if line <= here:
            break
        line -= here
    return it.path, line + lines_of(Range(it.path, 0, it.start))


def lines_of(it: Range) -> int:
    """How many lines begin in a range."""
    feeds, last = 0, b"\n"
    if it.start < it.end:
        for last in blocks(it):
            feeds += last.count(b"\n")
    return feeds + (not last.endswith(b"\n"))


def merge(gap: int, ranges: Sequence[Range], into: IO[bytes]) -> None:
    """Writes the book of the lines of ranges, by aprsbook, which reads them as one log. A fault is
    that of the log, with its line there."""
    reads, writes = os.pipe()
    feeder = Feeder(ranges, writes)
    fault: Optional[Fault] = None
    with open(reads, "rb") as given:
        try:
            feeder.start()
        except RuntimeError:  # no thread can be had
            os.close(writes)
            raise
        try:
            programs.write_book(into, "aprsbook", "merge", "--gap", str(gap), given=given)
        except Fault as it:
            fault = it
        finally:
            given.close()  # so that a feeder ends whose lines nobody reads
            feeder.join()
    if feeder.fault:
        raise feeder.fault
    if fault:
        raise of_log(fault, ranges) from fault


def of_log(fault: Fault, ranges: Sequence[Range]) -> Fault:
    """A fault of standard input as one of the log of which the line is."""
    found = programs.fault_line(fault, "standard input")
    if fault.status != ExitStatus.INPUT or found is None:
        return fault
    path, line = place(ranges, found[0])
    return FaultyLog(f"{path}: line {line}: {found[1]}", ExitStatus.INPUT, fault.by)
