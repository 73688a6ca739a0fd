"""Tactical names beside the calls of a book's tables."""
from __future__ import annotations


from aprsbook_tools import TYPE_CHECKING
from aprsbook_tools.reports.roster import Roster
from aprsbook_tools.reports.table import Message, Row, Station, Thing, columns_of, text_of

if TYPE_CHECKING:
    from typing import Any, Dict, Iterable, Iterator, List, Tuple, Type

    from aprsbook_tools.reports.table import Columns

# the columns of each table that have calls of stations
CALLS: Dict[Type[Any], Tuple[str, ...]] = {
    Row: ("source",),
    Message: ("source", "addressee"),
    Station: ("source",),
    Thing: ("source",),
}


def names_of(kind: Type[Any], roster: Roster) -> List[str]:
    """The columns of names that a table gets; none where the roster has no names."""
    return [f"{it}_name" for it in CALLS[kind]] if roster.has_names else []


def named(kind: Type[Any], roster: Roster, tables: Iterable[Columns]) -> Iterator[Columns]:
    """The columns of a table as they are shown, with those of names behind them."""
    calls = [columns_of(kind).index(it) for it in CALLS[kind]] if roster.has_names else []
    for columns in tables:
        yield columns + [[roster.name_of(text_of(it)) for it in columns[at]] for at in calls]
