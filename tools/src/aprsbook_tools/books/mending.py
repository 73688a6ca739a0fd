"""The whole lines of a log that was cut short, has holes, or was saved by an editor as UTF-16."""
import codecs
import contextlib
import io
from typing import IO, Any, Iterator, Optional, cast

from aprsbook_tools.books import inputs
from aprsbook_tools.errors import Fault
from aprsbook_tools.formats import log_file
from aprsbook_tools.system import packing

# how a text in UTF-16 begins, with a byte order mark or with the first digits of a moment
UTF_16 = {codecs.BOM_UTF16_LE: "utf-16", codecs.BOM_UTF16_BE: "utf-16", b"2\0": "utf-16-le",
          b"1\0": "utf-16-le", b"\0002": "utf-16-be", b"\0001": "utf-16-be"}


class Left:
    """How many lines were left out, and how many taken; `why` says what is wrong where a packed log
    can't be unpacked to its end."""
    out = 0
    taken = 0
    why = ""


class Again(io.RawIOBase):
    """A file of which the first bytes have been read already."""

    def __init__(self, begin: bytes, file: IO[bytes]) -> None:
        self.begin, self.file = begin, file

    def readable(self) -> bool:
        return True

    def readinto(self, buffer: Any) -> int:
        # of a file that ends in the midst of one that is packed, what comes before that
        read = getattr(self.file, "read1", self.file.read)
        octets: bytes = self.begin[:len(buffer)] or read(len(buffer))
        self.begin = self.begin[len(octets):]
        buffer[:len(octets)] = octets
        return len(octets)


def lines_in(file: IO[bytes]) -> Iterator[bytes]:
    """The lines of a text, without a byte order mark and in ASCII; of one that is too long no more
    than its parts is held."""
    begin = file.read(len(codecs.BOM_UTF8))
    coding = UTF_16.get(begin[:2])
    again = io.BufferedReader(Again(b"" if begin == codecs.BOM_UTF8 else begin, file))
    if coding is None:
        yield from iter(lambda: again.readline(2 * log_file.LINE), b"")
        return
    text = io.TextIOWrapper(cast(IO[bytes], again), coding, "replace", "\n")
    for line in iter(lambda: text.readline(2 * log_file.LINE), ""):
        yield line.encode("ascii", "replace")


def whole_lines(file: IO[bytes], left: Left) -> Iterator[bytes]:
    """The lines that are whole; carriage returns at their ends go."""
    torn = False
    for line in lines_in(file):
        ends = line.endswith(b"\n")
        if not torn and log_file.read_whole(line) is not None:
            left.taken += 1
            yield line.rstrip(b"\r\n") + b"\n"
        elif ends or not torn:
            left.out += not torn
        torn = not ends


def mended(file: IO[bytes], left: Left) -> Iterator[bytes]:
    """The whole lines of a log, also of a packed one as far as it can be unpacked."""
    try:
        yield from whole_lines(file, left)
    except packing.faults(OSError) as fault:
        if isinstance(fault, OSError) and fault.errno is not None:
            raise
        left.why = f"can't be unpacked to its end: {fault}"


def mend_into(path: str, into: str) -> Optional[Left]:
    """Writes the whole lines of a log into a file; None where it has none."""
    left = Left()
    with open(into, "wb") as new, contextlib.suppress(Fault), inputs.unpacking(path) as file:
        new.writelines(mended(file, left))
    return left if left.taken else None
