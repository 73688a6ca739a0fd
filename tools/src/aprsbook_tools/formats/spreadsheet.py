"""CSV for a spreadsheet, in which no text off the air is a formula.

A text that begins like a formula gets an apostrophe before it, unless it is a number: with =, +, -
or @ after blanks and apostrophes, of any kind, or with a tab or an end of a line. Reading takes
it away again.
"""
from __future__ import annotations


from aprsbook_tools import TYPE_CHECKING
from aprsbook_tools.formats.forms import form

if TYPE_CHECKING:
    from typing import Iterable, List, Sequence, Union

    Cell = Union[str, int, float, None]

# blanks of all kinds, also those without a width
BLANKS = r" \u00a0\u00ad\u061c\u115f\u1160\u1680\u180e\u2000-\u200f\u2028-\u202f\u205f-\u206f" \
    r"\u3000\u3164\ufeff\uffa0"
FORMULA = form(rf"'*[{BLANKS}]*[=+\-@\t\r\n\uff1d\uff0b\uff0d\uff20]")
QUOTED = form(r'[",\r\n]')
NUMBER = form(r"-?[0-9]+(\.[0-9]+)?")


def looks_like_formula(text: str) -> bool:
    if text[:1].isalnum():
        return False  # as most do
    return FORMULA.match(text) is not None and NUMBER.fullmatch(text) is None


def guarded(text: str) -> str:
    """A text that no spreadsheet takes for a formula."""
    return "'" + text if looks_like_formula(text) else text


def unguarded(text: str) -> str:
    """The text that was guarded so."""
    rest = text[1:]
    return rest if text.startswith("'") and looks_like_formula(rest) else text


def cell_text(cell: Cell) -> str:
    if cell is None:
        return ""
    if isinstance(cell, float) and cell.is_integer():
        return str(int(cell))
    return guarded(cell) if isinstance(cell, str) else str(cell)


def quoted(text: str) -> str:
    """A field in quotes, where it has to be."""
    return '"' + text.replace('"', '""') + '"' if QUOTED.search(text) else text


def csv_line(row: Sequence[Cell]) -> str:
    """A row as CSV (RFC 4180, with LF as the end of a line); what is no text stands as it is."""
    # an empty line is no row
    return (",".join(quoted(cell_text(cell)) for cell in row) or '""') + "\n"


def csv_text(rows: Iterable[Sequence[Cell]]) -> str:
    """Rows as CSV."""
    return "".join(map(csv_line, rows))


def read_csv(text: str) -> List[List[str]]:
    """The rows of such a CSV, as they were before they were guarded."""
    import csv  # for what is read alone
    import io

    return [[unguarded(cell) for cell in row] for row in csv.reader(io.StringIO(text, newline=""))]
