"""Who repeated whom, as the page of an event has it and `aprs-net keeper` counts it: by all
receptions of logs, since a book has one copy of each transmission."""
import collections
import os
from typing import Iterable, Optional, Sequence, Tuple

from aprsbook_tools.books import inputs
from aprsbook_tools.books.receptions import lines_in, lines_of, table_of
from aprsbook_tools.formats.log_file import Line
from aprsbook_tools.reports import digipeater_stats, table
from aprsbook_tools.reports.table import Row

COLUMNS = ("source", "via", "gate", "receiver")  # that are read
MOST = 1 << 26  # bytes of logs: the page that reads logs counts of no more either


def text_of(rows: Iterable[Tuple[Row, int]]) -> str:
    """A line for each digipeater and whom it repeated: both, and how many frames; of rows, each
    with how many receptions it stands for."""
    return "".join("\t".join(map(str, it)) + "\n" for it in digipeater_stats.repeats_of(rows))


def of_lines(lines: Iterable[Line]) -> str:
    """The same of the lines of logs, in which each counts once."""
    counts = collections.Counter(table.tuples(Row, table_of(dict.fromkeys(lines)), COLUMNS))
    rows = table.read(Row, ["\t".join(COLUMNS), *map("\t".join, counts)], COLUMNS)
    return text_of(zip(rows, counts.values()))


def of_log(octets: bytes) -> Optional[str]:
    """The same of a log whose lines are whole; None where it is too large for that."""
    return of_lines(lines_in(octets, "the log")) if len(octets) <= MOST else None


def are_small(paths: Sequence[str]) -> bool:
    return sum(map(os.path.getsize, paths)) <= MOST


def of_files(paths: Sequence[str]) -> Optional[str]:
    """The same of files that were merged; None where one of them is no log, or they are too
    large."""
    if not are_small(paths) or any(map(inputs.begins_as_book, paths)):
        return None
    return of_lines(line for path in paths for line in lines_of(path))
