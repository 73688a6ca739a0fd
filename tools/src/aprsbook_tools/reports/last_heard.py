"""Who was heard, of the rows of a book: also who never sent a position or a status.

The table `stations`, which is shorter, doesn't say by whom each was heard last, who was heard
through a gate alone, and of which rows it is known that a receiver's clock is wrong.
"""
from __future__ import annotations

import argparse
import collections

from aprsbook_tools import TYPE_CHECKING, arguments, progress, table_output
from aprsbook_tools.books import merged_inputs
from aprsbook_tools.formats import book_file
from aprsbook_tools.records import NamedTuple
from aprsbook_tools.reports import receiver_clocks, table
from aprsbook_tools.reports.table import REST, Row, Time, text_of

if TYPE_CHECKING:
    from typing import DefaultDict, Dict, Iterable, Iterator, List, Optional, Sequence, Tuple

    from aprsbook_tools.reports.table import Columns

# those that are read
COLUMNS = ("first", "last", "receivers", "receiver", "source", "destination", "gate", REST)


def is_word(text: str, most: int) -> bool:
    """Whether a text has 1 to so many letters and digits, and nothing else."""
    return 0 < len(text) <= most and text.isascii() and text.isalnum()


def is_call(text: str) -> bool:
    """Whether a text is a callsign, also one of APRS-IS."""
    call, dash, number = text.partition("-")
    return is_word(call, 9) and (not dash or is_word(number, 2))


class Heard(NamedTuple):
    """A station: how many transmissions it sent, when and by whom it was heard last, and how many
    frames of others it passed on. `moment` is that of the last one by clocks that are right."""

    call: str
    transmissions: int
    last: str
    receiver: str
    passed: int = 0
    moment: str = ""

    @property
    def order(self) -> Tuple[str, str, str]:
        """By which the most silent stands first."""
        return self.moment or self.last, self.receiver, self.call


class Entry:
    """What a list of receivers heard of a station: how many transmissions of its own and of others
    that it passed on, and when and by whom the last of all was heard."""

    __slots__ = "counts", "last", "receiver"

    def __init__(self) -> None:
        self.counts, self.last, self.receiver = [0, 0], "", ""


SENT, PASSED = 0, 1  # places in the counts of an entry


class Counts:
    """The entries of each station, by lists of receivers."""

    def __init__(self) -> None:
        self.of: DefaultDict[str, DefaultDict[str, Entry]] = collections.defaultdict(
            lambda: collections.defaultdict(Entry))

    def note(self, columns: Columns) -> None:
        """Takes rows. A frame that a gate passed on is its sender's, and the gate was heard too."""
        _, last, receivers, receiver, source, _, gate, _ = columns
        self.count(SENT, source, receivers, last, receiver)
        if not table.is_empty(gate):
            self.count(PASSED, *table.kept([gate, receivers, last, receiver], gate))

    def count(self, what: int, calls: Sequence[str], receivers: Sequence[str],
              last: Sequence[str], receiver: Sequence[str]) -> None:
        """Counts stations, each with who heard it, and when and by whom it was heard last. Mostly
        rows are of the station before."""
        now: Optional[str] = None
        for call, names, moment, by in zip(calls, receivers, last, receiver):
            if call != now:
                now, own = call, self.of[call]
            entry = own[names]
            entry.counts[what] += 1
            if moment >= entry.last and (moment, by) > (entry.last, entry.receiver):
                entry.last, entry.receiver = moment, by

    def of_lists(self) -> Iterator[Tuple[str, int]]:
        """The lists of receivers, each with how many transmissions of a station it heard."""
        return ((names, it.counts[SENT]) for own in self.of.values() for names, it in own.items())

    def stations(self, ahead: Dict[str, float]) -> List[Heard]:
        """The stations by callsign, where some receivers' clocks are so wrong."""
        heard: DefaultDict[str, List[Heard]] = collections.defaultdict(list)
        for shown, own in self.of.items():
            call = text_of(shown)
            for names, it in own.items():
                moment = receiver_clocks.moment_of(it.last, names, ahead)
                heard[call].append(
                    Heard(call, it.counts[SENT], it.last, it.receiver, it.counts[PASSED], moment))
        # within a frame that is passed on may stand anything
        return [joined(heard[call]) for call in sorted(heard) if is_call(call)]


def joined(own: Sequence[Heard]) -> Heard:
    """A station, of what each list of receivers heard of it."""
    last = max(own, key=lambda it: it.order)
    return last._replace(transmissions=sum(it.transmissions for it in own),
                         passed=sum(it.passed for it in own))


def heard_of(tables: Iterable[Columns], gap: int = book_file.GAP) -> List[Heard]:
    """The stations of rows, by callsign. The rows have COLUMNS as they are shown, and stand in the
    order of their book. Wrong clocks are said."""
    pairs, counts = receiver_clocks.Pairs(), Counts()
    for columns in pairs.noted(tables, COLUMNS):
        counts.note(columns)
    for receivers, count in counts.of_lists():
        pairs.together[receivers] += count
    return counts.stations(receiver_clocks.told(pairs.wrong(gap)))


def tables_of(files: Sequence[str], gap: Optional[int]) -> Iterator[Columns]:
    """What is read of the table of files, or of standard input where there are none."""
    columns = table.columns(Row, table.lines_of(Row, files, gap), names=COLUMNS)
    return progress.counted(columns, table.WORDS[Row], size=lambda it: len(it[0]))


def of_time(book: str, gap: Optional[int], time: Time) -> List[Heard]:
    """The stations of those rows of a book that are of a time by clocks that are right."""
    ahead, counts = receiver_clocks.of_book(book, gap), Counts()

    def is_within(first: str, receivers: str) -> bool:
        return time.since <= receiver_clocks.moment_of(first, receivers, ahead) < time.until
    for columns in tables_of([book], gap):
        first, _, receivers, *_ = columns
        counts.note(table.kept(columns, [*map(is_within, first, receivers)]))
    return counts.stations(ahead)


def of_inputs(args: argparse.Namespace) -> List[Heard]:
    """The stations of a command's inputs, of the time that is asked for."""
    arguments.check_range(args)
    gap, time = table_output.gap_of(args), table_output.time_of(args)
    if time != table.ALWAYS:
        with merged_inputs.book(args.inputs, gap) as book:
            return of_time(book, gap, time)
    with merged_inputs.plain(args.inputs) as files:
        return heard_of(tables_of(files, gap), gap or book_file.GAP)
