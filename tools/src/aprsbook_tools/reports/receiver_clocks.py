"""Whose clock is wrong, of the rows of a book, in which receivers' own moments no longer stand.

What stands in several rows of one text, no receiver in two of them, was one transmission where
clocks are wrong. The page says the same of a book (`net/clock-offsets.js`); `clock_offsets` has
more to go by, since it reads logs.
"""
from __future__ import annotations

import collections
import itertools
import operator

from aprsbook_tools import TYPE_CHECKING, stderr
from aprsbook_tools.formats import book_file, moments
from aprsbook_tools.records import NamedTuple
from aprsbook_tools.reports import table
from aprsbook_tools.reports.table import REST, Row

if TYPE_CHECKING:
    from typing import (
        Counter, DefaultDict, Dict, Iterable, Iterator, List, Optional, Sequence, Tuple)

    from aprsbook_tools.reports.table import Columns

# what is read of each row: when and by whom it was heard, and its text, but for its digipeaters
COLUMNS = ("first", "receivers", "source", "destination", "gate", REST)
MOST = 8  # rows of one text: what is sent more often has no partner that would be sure
FEWEST = 2  # transmissions that both heard: fewer say nothing of a clock


class Pair(NamedTuple):
    """Two receivers, and by how many seconds the clock of the first is ahead, in the median."""

    one: str
    other: str
    ahead: float


def alike_in(columns: Columns) -> bytes:
    """Of each row but the last whether all columns are as in the next: 1, or 0. The last column
    tells the most, and mostly the others are alike in all rows."""
    *others, last = columns
    alike = bytes(map(operator.eq, last, last[1:]))
    for it in others:
        if b"\1" in alike and it.count(it[0]) < len(it):
            alike = bytes(map(operator.and_, alike, map(operator.eq, it, it[1:])))
    return alike


def runs_in(alike: bytes, last: int) -> Iterator[slice]:
    """The rows of each run before the last one, each but its last as the next."""
    begin = alike.find(b"\1", 0, last)
    while begin >= 0:
        end = alike.find(b"\0", begin)
        yield slice(begin, end + 1)
        begin = alike.find(b"\1", end, last)


class Pairs:
    """What each two receivers heard, of rows in the order of a book. `together`, which whoever
    reads the rows counts, is the rows of each list of receivers."""

    def __init__(self) -> None:
        self.apart: DefaultDict[Tuple[str, str], List[int]] = collections.defaultdict(list)
        self.together: Counter[str] = collections.Counter()
        # COLUMNS of the last rows of one text, which may go on
        self.open: Columns = [()] * len(COLUMNS)

    def noted(self, tables: Iterable[Columns], names: Sequence[str]) -> Iterator[Columns]:
        """The columns of rows as they come, which have these names."""
        places = [*map(names.index, COLUMNS)]
        for columns in tables:
            self.note([columns[at] for at in places])
            yield columns
        self.compare(*self.open[:2])

    def note(self, columns: Columns) -> None:
        """Takes COLUMNS of the next rows."""
        columns = [[*before, *it] for before, it in zip(self.open, columns)]
        first, receivers, *texts = columns
        alike = alike_in(texts)
        last = alike.rfind(b"\0") + 1
        for own in runs_in(alike, last):
            self.compare(first[own], receivers[own])
        self.open = [it[last:last + MOST + 1] for it in columns]

    def compare(self, first: Sequence[str], receivers: Sequence[str]) -> None:
        """Takes rows of one text: when each was heard first, and by whom."""
        if not 1 < len(first) <= MOST or len({*receivers}) < len(receivers):
            return
        lists = [it.split(",") for it in receivers]
        names = [it for of in lists for it in of]
        if len({*names}) < len(names):
            return
        times = [*map(moments.shown, first)]
        for (at, of), (other_at, others) in itertools.combinations(zip(times, lists), 2):
            for one, other in itertools.product(of, others):
                key, ahead = ((one, other), at - other_at) if one < other else \
                    ((other, one), other_at - at)
                self.apart[key].append(ahead)

    def found(self) -> List[Pair]:
        """The pairs that heard enough, each with the median of their differences: 0 in a row that
        both heard."""
        zeros: Counter[Tuple[str, str]] = collections.Counter()
        for receivers, count in self.together.items():
            for one, other in itertools.combinations(sorted(receivers.split(",")), 2):
                zeros[one, other] += count
        result = []
        for one, other in sorted({*zeros, *self.apart}):
            apart = self.apart.get((one, other), [])
            if len(apart) + zeros[one, other] >= FEWEST:
                ahead = median_of(apart, zeros[one, other])
                result.append(Pair(one, other, ahead / 1000))
        return result

    def wrong(self, gap: float) -> Dict[str, float]:
        """The receivers whose clocks are wrong, each with the seconds by which its own is ahead of
        those that agree; none where no more agree than in another group."""
        found = self.found()
        if all(abs(it.ahead) <= gap for it in found):
            return {}  # those whose clocks don't agree aren't apart
        from aprsbook_tools.reports import clock_offsets  # most nets need none

        right = clock_offsets.most_agreeing(found, gap)
        ahead: DefaultDict[str, List[float]] = collections.defaultdict(list)
        for it in found:
            if it.other in right and it.one not in right:
                ahead[it.one].append(it.ahead)
            elif it.one in right and it.other not in right:
                ahead[it.other].append(-it.ahead)
        return {name: sorted(of)[len(of) // 2] for name, of in sorted(ahead.items())}


def median_of(values: Sequence[int], zeros: int) -> float:
    """The median of values, and of so many zeros, which need no room."""
    below = sum(it < 0 for it in values)
    middle = (len(values) + zeros) // 2
    if below <= middle < below + zeros:
        return 0
    return sorted(values)[middle if middle < below else middle - zeros]


def moment_of(moment_: str, receivers: str, ahead: Dict[str, float]) -> str:
    """A moment of a row by clocks that are right: where wrong ones alone heard it, it is so much
    earlier or later as the least wrong of them is."""
    if not ahead:
        return moment_
    seconds = min((ahead.get(it, 0) for it in receivers.split(",")), key=abs)
    if not seconds:
        return moment_
    moment = moments.milliseconds(moment_) - round(1000 * seconds)
    return moments.text_of(min(max(0, moment), moments.END - 1))


def of_book(book: str, gap: Optional[int]) -> Dict[str, float]:
    """The receivers of a book whose clocks are wrong, and by how much, which is said."""
    pairs = Pairs()
    tables = table.columns(Row, table.lines_of(Row, [book], gap), names=COLUMNS)
    for columns in pairs.noted(tables, COLUMNS):
        pairs.together.update(columns[COLUMNS.index("receivers")])
    return told(pairs.wrong(gap or book_file.GAP))


def told(ahead: Dict[str, float]) -> Dict[str, float]:
    """Says once of each clock that it is wrong."""
    for name, seconds in ahead.items():
        way = "ahead of" if seconds > 0 else "behind"
        about = round(abs(seconds), -1)  # the median moves a little while a net runs
        stderr.warn_once(f"the clock of {name} is about {about:.0f} seconds {way} the others, and "
                         "that is allowed for (aprs-net clocks says it exactly)")
    return ahead
