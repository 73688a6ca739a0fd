"""Where stations, objects and items were, of the rows of a book."""
from __future__ import annotations

import itertools
import operator

from aprsbook_tools import TYPE_CHECKING
from aprsbook_tools.geo import Spot
from aprsbook_tools.records import NamedTuple
from aprsbook_tools.reports import table
from aprsbook_tools.reports.table import Row
from aprsbook_tools.system import sorting

if TYPE_CHECKING:
    from typing import Any, Callable, Iterable, Iterator, List, Tuple

KINDS = ("station", "object", "item")
OF_NAME = {"object": 1, "item": 2}  # the kinds of rows that give the place of what has a name
NO_FIX = Spot(0, 0)
# the columns that are read
COLUMNS = (
    "kind first last receivers receiver source name state latitude longitude ambiguity compressed "
    "symbol course speed_knots altitude_m text"
).split()
VALUES = operator.attrgetter(*COLUMNS)
SortedRow: Callable[..., Row] = table.maker("SortedRow", COLUMNS)


class Place(NamedTuple):
    """The place of a station, an object or an item, as one transmission gives it."""

    kind: str
    name: str
    spot: Spot
    row: Row

    @property
    def is_killed(self) -> bool:
        return self.row.state == "killed"

    @property
    def state(self) -> str:
        return "killed" if self.is_killed else "live"

    @property
    def is_exact(self) -> bool:
        """Whether no digits are left out."""
        return not self.row.ambiguity

    @property
    def ambiguity(self) -> str:
        """How many digits are left out, or `c` of a compressed position."""
        return "c" if self.row.compressed else str(self.row.ambiguity or 0)


class Thing(NamedTuple):
    """A station, an object or an item, with its places by the moment when each was first heard."""

    kind: str
    name: str
    places: Tuple[Place, ...]

    @property
    def now(self) -> Place:
        """The place that was heard last."""
        return max(reversed(self.places), key=heard)  # of those of one moment the last

    @property
    def has_moved(self) -> bool:
        return any(it.spot != self.places[0].spot for it in self.places)

    @property
    def segments(self) -> List[List[Place]]:
        """The runs of its places, each but the last ended by a kill."""
        runs: List[List[Place]] = [[]]
        for place in self.places:
            runs[-1].append(place)
            if place.is_killed:
                runs.append([])
        return [run for run in runs if run]


def heard(place: Place) -> Tuple[str, str]:
    """When a place was heard last, and by whom."""
    return place.row.last, place.row.receiver


def place_of(row: Row) -> "Place | None":
    """The place that a row gives, if it gives one: 0, 0 is what GPS without a fix says."""
    place = spoken_of(row)
    return place if place and place.spot != NO_FIX else None


def spoken_of(row: Row) -> "Place | None":
    """The place that stands in a row, 0, 0 too."""
    if row.latitude is None or row.longitude is None:
        return None
    spot = Spot(row.latitude, row.longitude)
    if row.kind in ("object", "item"):
        return Place(row.kind, row.name, spot, row)
    return Place("station", row.source, spot, row)


def things_of(rows: Iterable[Row]) -> List[Thing]:
    """Stations, then objects, then items, each kind by name, with their places."""
    return [*each_thing(SortedRow(*VALUES(it)) for it in rows)]


def each_thing(rows: Iterable[Row]) -> Iterator[Thing]:
    """The same one by one, of however many rows, which are named tuples of COLUMNS: of each thing
    the places are in memory, by the moment when each was first heard; those of one moment as they
    stand."""
    places = sorting.in_order(sortable(rows))
    for (kind, name), own in itertools.groupby(places, key=operator.itemgetter(0, 1)):
        rows = table.named(SortedRow, map(operator.itemgetter(-1), own))
        found = settled(filter(None, map(spoken_of, rows)))
        if found:
            yield Thing(KINDS[kind], name, found)


def sortable(rows: Iterable[Row]) -> Iterator[Tuple[int, str, str, int, Tuple[Any, ...]]]:
    """The rows that give a place, in the order of things, which stands before what a row has."""
    for number, row in enumerate(rows):
        north, east = row.latitude, row.longitude
        if north is None or east is None:
            continue
        if north or east or row.state == "killed":
            kind = OF_NAME.get(row.kind, 0)
            values: Tuple[Any, ...] = tuple(row)
            yield kind, row.name if kind else row.source, row.first, number, values


def settled(places: Iterable[Place]) -> Tuple[Place, ...]:
    """These places, each kill at 0, 0 where the thing was: its sender left the place out."""
    found: List[Place] = []
    for it in places:
        if it.spot != NO_FIX:
            found.append(it)
        elif found:
            found.append(it._replace(spot=found[-1].spot))
    return tuple(found)
