"""Each reception of logs as a row of the table, where a book has one row for all copies.

Who was heard direct is known of each copy alone. So the n-th line of a log is given to
`aprsbook-table` with a moment of its own, two seconds after that of the line before, under a gap of
one second: no two are copies of one transmission then. The row's moment says which line it was.
"""
import io
from typing import Iterable, Iterator, List, NamedTuple, Sequence

from aprsbook_tools import stderr
from aprsbook_tools.books import inputs, one_name
from aprsbook_tools.books.net_logs import octets_of
from aprsbook_tools.errors import Fault
from aprsbook_tools.formats import book_file, log_file, moments
from aprsbook_tools.formats.log_file import Line
from aprsbook_tools.reports import table
from aprsbook_tools.reports.table import Row

APART = 2000  # milliseconds between two lines


class Reception(NamedTuple):
    """What a receiver heard at a moment in milliseconds."""

    moment: int
    row: Row


def logs_of(paths: Sequence[str]) -> List[str]:
    """The logs that are named, and those below folders that are named."""
    found = inputs.of(paths)
    for it in found:
        if it.is_book:
            raise Fault(f"{it.path} is a book, which has one copy of each transmission: name logs")
        if it.fault:
            raise Fault(f"{it.path}: {it.fault}")
    if not found:
        raise Fault(f"no logs are in {' '.join(paths)}")
    one_name.say_where_two_are(found, stderr.warn_once)
    return [it.path for it in found]


def lines_in(octets: bytes, path: str) -> List[Line]:
    """The lines of a log; of the last there may be a beginning alone."""
    if octets.startswith(book_file.BEGIN):
        raise Fault(f"{path} is a book, which has one copy of each transmission: name logs")
    found = []
    for number, text in enumerate(io.BytesIO(octets), 1):
        line = log_file.read_whole(text)
        if line is not None:
            found.append(line)
        elif text.endswith(b"\n") or not log_file.is_torn(text):
            raise Fault(f"{path}: line {number} is no whole line of a log "
                        "(aprs-net mend takes it out)")
    return found


def lines_of(path: str) -> List[Line]:
    """The same of a file, also of a compressed one."""
    octets, fault = octets_of(path)
    if fault:
        raise Fault(f"{path}: {fault}")
    return lines_in(octets, path)


def table_of(lines: Iterable[Line]) -> Iterator[str]:
    """The table of rows that has one of each line that holds a frame. Its moment says which line
    that is."""
    log = b"".join(Line(APART * number, it.receiver, it.digits).write()
                   for number, it in enumerate(lines))
    return table.lines_of(Row, [], 1, log)


def receptions_of(paths: Sequence[str]) -> List[Reception]:
    """The receptions of logs, by moment. What two files have, as a log and its compressed copy, is
    one reception."""
    lines = sorted({line for path in logs_of(paths) for line in lines_of(path)})
    rows = {moments.milliseconds(row.first) // APART: row
            for row in table.read(Row, table_of(lines))}
    return [Reception(lines[number].moment, rows[number]) for number in sorted(rows)]
