"""What the keeper of a digipeater asks: who is heard direct, hops, hours, who repeats whom, and who
repeats late."""
from __future__ import annotations

import re
from collections import Counter, defaultdict

from aprsbook_tools import TYPE_CHECKING
from aprsbook_tools.books.receptions import Reception
from aprsbook_tools.formats.forms import form
from aprsbook_tools.geo import Spot, bearing, metres_between
from aprsbook_tools.records import NamedTuple
from aprsbook_tools.reports.clock_offsets import median, transmission
from aprsbook_tools.reports.table import Row
from aprsbook_tools.reports.tracks import place_of

if TYPE_CHECKING:
    from typing import Dict, Iterable, List, Optional, Sequence, Tuple

# what stands for any digipeater, and names none
ALIAS = form(r"(WIDE|TRACE)[0-9]?(-[0-9]+)?|RELAY|ECHO|GATE", re.ASCII)
HOUR = 3_600_000  # milliseconds


class Heard(NamedTuple):
    """A station that a receiver heard direct."""

    receiver: str
    call: str
    direct: int
    frames: int
    last: int
    spot: Optional[Spot]


def digipeaters_of(row: Row) -> List[str]:
    """Who repeated a frame, in order; what names no digipeater only where nothing else is there."""
    used = [it[:-1] for it in row.via if it.endswith("*")]
    named = [it for it in used if not ALIAS.fullmatch(it)]
    return named or used[-1:]


def is_own(row: Row) -> bool:
    """Whether the path of the row is that of the frame, and not of one that it passes on."""
    return not row.gate


def is_direct(row: Row) -> bool:
    """Whether a receiver heard the station itself."""
    return is_own(row) and not digipeaters_of(row)


def direct_in(receptions: Sequence[Reception]) -> List[Reception]:
    """Those in which a receiver heard the station itself."""
    return [it for it in receptions if is_direct(it.row)]


def hops_of(receptions: Sequence[Reception]) -> List[Tuple[str, int, int]]:
    """Receiver, hops, frames."""
    counts = Counter((row.receiver, len(digipeaters_of(row)))
                     for row in (it.row for it in receptions) if is_own(row))
    return [(*key, n) for key, n in sorted(counts.items())]


def hours_of(receptions: Sequence[Reception]) -> List[Tuple[str, int, int, int]]:
    """Receiver, the hour's first moment, frames, frames that were heard direct."""
    frames: Dict[Tuple[str, int], List[int]] = defaultdict(lambda: [0, 0])
    for it in receptions:
        count = frames[it.row.receiver, it.moment // HOUR * HOUR]
        count[0] += 1
        count[1] += is_direct(it.row)
    return [(*key, n, direct) for key, (n, direct) in sorted(frames.items())]


def repeats_of(rows: Iterable[Tuple[Row, int]]) -> List[Tuple[str, str, int]]:
    """Digipeater, whom it repeated (a station, or the digipeater before it), frames: of rows, each
    with how many receptions it stands for, those of the receiver that heard most."""
    counts: Dict[Tuple[str, str], "Counter[str]"] = defaultdict(Counter)
    for row, count in rows:
        path = [row.source, *digipeaters_of(row)] if is_own(row) else []
        for before, digipeater in zip(path, path[1:]):
            counts[digipeater, before][row.receiver] += count
    return [(*key, max(of.values())) for key, of in sorted(counts.items())]


class Delayed(NamedTuple):
    """A digipeater whose copies a receiver heard late: how many of all, and by how many
    milliseconds in the median."""

    receiver: str
    digipeater: str
    late: int
    frames: int
    delay: float


def delays_of(receptions: Sequence[Reception], gap: int) -> List[Delayed]:
    """Who repeated frames more than the gap, in milliseconds, after another copy, and at most three
    times as long: a book has two transmissions of these, and checkpoints moments that are late."""
    copies: Dict[Tuple[object, ...], Dict[str, int]] = defaultdict(dict)  # the last by each
    frames: "Counter[Tuple[str, str]]" = Counter()
    late: Dict[Tuple[str, str], List[int]] = defaultdict(list)
    for it in (it for it in receptions if is_own(it.row)):
        by = [*digipeaters_of(it.row), ""][-1 if is_direct(it.row) else -2]
        last = copies[(it.row.receiver, *transmission(it.row))]
        before = max((moment for who, moment in last.items() if who != by), default=it.moment)
        frames[it.row.receiver, by] += 1
        # where it has repeated in between, this is a copy of what was sent again
        if by and last.get(by, -1) < before and gap < it.moment - before <= 3 * gap:
            late[it.row.receiver, by].append(it.moment - before)
        last[by] = it.moment
    return [Delayed(*key, len(of), frames[key], median(of)) for key, of in sorted(late.items())]


def last_spots(receptions: Sequence[Reception]) -> Dict[str, Spot]:
    """The last exact place of each station."""
    spots: Dict[str, Spot] = {}
    for it in receptions:
        place = place_of(it.row)
        if place and place.kind == "station" and place.is_exact:
            spots[place.name] = place.spot
    return spots


def direct_of(receptions: Sequence[Reception]) -> List[Heard]:
    """The stations that each receiver heard direct, with the last place that was heard so."""
    frames = Counter((it.row.receiver, it.row.source) for it in receptions if is_own(it.row))
    groups: Dict[Tuple[str, str], List[Reception]] = defaultdict(list)
    for it in direct_in(receptions):
        groups[it.row.receiver, it.row.source].append(it)
    return [
        Heard(*key, len(own), frames[key], own[-1].moment, last_spots(own).get(key[1]))
        for key, own in sorted(groups.items())
    ]


class Far(NamedTuple):
    """A place that was heard direct, and where it lies from the receiver."""

    receiver: str
    call: str
    moment: int
    metres: float
    degrees: float


def farthest_of(receptions: Sequence[Reception], at: Dict[str, Spot]) -> List[Far]:
    """The farthest place of each station that a receiver, whose place is known, heard direct."""
    most: Dict[Tuple[str, str], Far] = {}
    for it in direct_in(receptions):
        place, here = place_of(it.row), at.get(it.row.receiver)
        if here is None or place is None or place.kind != "station" or not place.is_exact:
            continue
        metres = metres_between(here, place.spot)
        key = it.row.receiver, place.name
        if key not in most or metres > most[key].metres:
            most[key] = Far(*key, it.moment, metres, bearing(here, place.spot))
    return sorted(most.values(), key=lambda it: (it.receiver, -it.metres, it.call))
