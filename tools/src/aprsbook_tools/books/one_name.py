"""Receivers of two machines that have one name: a book takes them for one receiver."""
import os
from typing import Callable, Dict, Iterable, List, NamedTuple, Optional, Tuple

from aprsbook_tools.books.inputs import Input
from aprsbook_tools.formats import log_file
from aprsbook_tools.formats.log_file import BLOCK, LINE, Line

Ends = Tuple[Line, Line]  # the first and the last whole line of a log


class Log(NamedTuple):
    """A log: its path, and what it begins and ends with."""

    path: str
    ends: Ends

    def overlaps(self, other: "Log") -> bool:
        """Whether both logs go on at one time, and neither is a copy of the other."""
        (one, last), (other_one, other_last) = self.ends, other.ends
        return one.moment <= other_last.moment and other_one.moment <= last.moment \
            and not is_copy(self.path, other.path)


def is_copy(path: str, other: str) -> bool:
    """Whether two files begin alike, as far as both go, or a good way."""
    try:
        with open(path, "rb") as one, open(other, "rb") as another:
            begin, other_begin = one.read(BLOCK), another.read(BLOCK)
    except OSError:
        return True  # one is gone meanwhile
    size = min(len(begin), len(other_begin))
    return begin[:size] == other_begin[:size]


def ends_of(path: str) -> Optional[Ends]:
    """The first and the last whole line of a log; None of what isn't one."""
    try:
        with open(path, "rb") as file:
            first = log_file.read_whole(file.readline(LINE + 2))
            file.seek(max(0, os.path.getsize(path) - 2 * LINE - 4))
            last = [it for it in map(log_file.read_whole, file.readlines()) if it]
    except OSError:
        return None
    return (first, last[-1]) if first and last else None


def say_where_two_are(items: Iterable[Input], say: Callable[[str], None]) -> None:
    """Names logs in different folders that one receiver would have written at one time."""
    logs: Dict[str, List[Log]] = {}
    for it in items:
        ends = None if it.is_book or it.packing or it.fault else ends_of(it.path)
        if ends is not None:
            logs.setdefault(ends[0].receiver, []).append(Log(it.path, ends))
    for name, own in logs.items():
        for log in own[1:]:
            other = own[0]
            if os.path.dirname(log.path) != os.path.dirname(other.path) and log.overlaps(other):
                say(f"{log.path} and {other.path} are of one time, and both of a receiver {name}: "
                    "if these are two, a book takes them for one (aprs-net log gives them names)")
                break
