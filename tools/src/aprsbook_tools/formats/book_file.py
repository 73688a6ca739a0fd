"""Book files: how they begin, their gap, and the receptions that their rows have."""
from __future__ import annotations

from aprsbook_tools import TYPE_CHECKING
from aprsbook_tools.errors import Fault
from aprsbook_tools.formats import forms, limits, moments
from aprsbook_tools.formats.forms import form
from aprsbook_tools.records import NamedTuple

if TYPE_CHECKING:
    from typing import IO, Iterator, Optional

BEGIN = b"APRSBOOK"  # so a book begins, and no line of a log
# seconds, where nothing says another gap, as in books of an older program
GAP = limits.STANDARD_GAP
HEAD = 20  # bytes: no first line is longer
FIRST = form(rb"APRSBOOK (?:[12]|3 ([0-9]{1,4}))\n")
ROW = form(rb"T [^ ]+ (?P<moment>[^ ]+) [^ ]+ (?P<receiver>%s) (?P<frame>(?:[0-9a-f]{2})+)\n"
           % forms.RECEIVER.encode())


class Greatest(NamedTuple):
    """The greatest reception of a transmission: a frame without framing."""
    moment: int
    receiver: str
    frame: bytes


def gap_of(octets: bytes) -> Optional[int]:
    """The gap in seconds that a first line says; None of what is no book."""
    found = FIRST.match(octets) if octets.startswith(BEGIN) else None
    return int(found[1] or GAP) if found else None


def greatest_of(line: bytes) -> Optional[Greatest]:
    """The reception that a row has; None of another line."""
    row = ROW.fullmatch(line)
    if row is None:
        return None
    try:
        moment = moments.milliseconds(row["moment"].decode("ascii", "replace"))
    except ValueError:
        return None
    return Greatest(moment, row["receiver"].decode(), bytes.fromhex(row["frame"].decode()))


def read(file: IO[bytes]) -> Iterator[Greatest]:
    """The receptions of a book's rows, in its order; a Fault where it isn't whole."""
    if gap_of(file.readline(HEAD)) is None:
        raise Fault("no book: line 1")
    count = 0
    for line in file:
        found = greatest_of(line)
        if found is None:
            if line != b"END %d\n" % count or file.read(1):
                raise Fault(f"no book: line {count + 2}")
            return
        count += 1
        yield found
    raise Fault("the book was cut short")
