"""Who came by a checkpoint, and when: by the way between two places, and lap by lap.

A thing goes straight from each place to the next, unless more time lies between them than is
allowed, or it was killed. A visit begins where that way comes into a checkpoint's circle. For the
next one, another lap, it has to be twice the circle's radius away in between.
"""
from __future__ import annotations

import csv
import re

from aprsbook_tools import TYPE_CHECKING
from aprsbook_tools.errors import Fault
from aprsbook_tools.formats import moments
from aprsbook_tools.formats.forms import form
from aprsbook_tools.geo import Chord, Spot, chord, metres_between
from aprsbook_tools.records import NamedTuple
from aprsbook_tools.reports.tracks import Place, Thing

if TYPE_CHECKING:
    from typing import List, Optional, Sequence, Tuple

NUMBER = form(r"[-+]?[0-9]+([.,][0-9]*)?", re.ASCII)
METRES = form(r"([0-9]+(?:[.,][0-9]*)?) ?(m|km)?", re.ASCII)
COMMENT = form(r"(^|\s)#.*")
FORM = "`Tarn 54.5183 -3.5216 150`: a name, degrees north and east, metres"
AWAY = 2  # radii from a checkpoint, after which coming back is another lap
FASTEST = 300  # kilometres an hour, on the ground
HIGH = 3000  # metres: what flies higher may be faster
LATE = 30.0  # seconds by which a copy may be late


class Checkpoint(NamedTuple):
    """A name, a place, and the metres around it that count."""

    name: str
    spot: Spot
    metres: float


class Visit(NamedTuple):
    """Once that a thing was within a checkpoint's circle. Moments are milliseconds."""

    checkpoint: int
    thing: Thing
    lap: int
    came: int
    went: int
    metres: float  # where it was nearest
    was_heard: bool  # whether a place within the circle was heard, or only the way leads through


def fields_of(line: str) -> List[str]:
    """The fields of a line: by semicolons, tabs or commas, as a spreadsheet saves them, or by
    blanks."""
    for sign in ";", "\t", ",":
        if line.count(sign) >= 3:
            fields = next(csv.reader([line], delimiter=sign, skipinitialspace=True))
            return [it.strip() for it in fields][:4]
    line = re.sub(r"(?<=[0-9]) (?=k?m$)", "", line)
    words = line.split()
    return [" ".join(words[:-3]), *words[-3:]] if len(words) >= 4 else words


def number_of(text: str) -> float:
    """A number, perhaps with a decimal comma; ValueError of another text."""
    if not NUMBER.fullmatch(text):
        raise ValueError("no number")
    return float(text.replace(",", "."))


def metres_of(text: str) -> float:
    """Metres, also as 200m or 0.2km; ValueError of another text."""
    found = METRES.fullmatch(text)
    if not found:
        raise ValueError("no metres")
    return number_of(found[1]) * (1000 if found[2] == "km" else 1)


def read_checkpoints(path: str, text: str) -> List[Checkpoint]:
    """The checkpoints of a file: a name, degrees north and east, metres, with blanks between, or as
    CSV, perhaps below a head line."""
    found: List[Checkpoint] = []
    is_first = True
    for number, line in enumerate(text.lstrip("\ufeff").splitlines(), 1):
        said = COMMENT.sub("", line).strip()
        is_head, is_first = is_first and not re.search("[0-9]", said), is_first and not said
        if not said or is_head and len(fields_of(said)) >= 4:
            continue
        try:
            name, *rest = fields_of(said)
            north, east, metres = number_of(rest[0]), number_of(rest[1]), metres_of(rest[2])
        except (ValueError, IndexError, csv.Error) as fault:
            raise Fault(f"{path}: line {number} is no checkpoint, such as {FORM}: "
                        f"{line[:100]!r}") from fault
        if not (name and abs(north) <= 90 and abs(east) <= 180 and metres > 0):
            raise Fault(f"{path}: line {number}: no place on the earth, or no circle")
        found.append(Checkpoint(name, Spot(north, east), metres))
    return found


def when(place: Place) -> int:
    """The moment when a place was first heard."""
    return moments.milliseconds(place.row.first)


class _Open:
    """A visit that isn't over yet."""

    def __init__(self, came: int, went: int, metres: float, was_heard: bool) -> None:
        self.came, self.went, self.metres, self.was_heard = came, went, metres, was_heard

    def go_on(self, went: int, metres: float, was_heard: bool) -> None:
        self.went = went
        self.metres = min(self.metres, metres)
        self.was_heard = self.was_heard or was_heard


def is_too_fast(one: Place, other: Place, fastest: float) -> bool:
    """Whether no way leads from a place to another: it would be faster than so many kilometres an
    hour, also if one was heard late."""
    if fastest <= 0 or max(one.row.altitude_m or 0, other.row.altitude_m or 0) > HIGH:
        return False
    seconds = abs(when(other) - when(one)) / 1000 + LATE
    return metres_between(one.spot, other.spot) / seconds > fastest / 3.6


class Way:
    """The places of a run that a way leads through, and those that are too far off for any."""

    def __init__(self) -> None:
        self.places: List[Place] = []
        self.wild: List[Place] = []


def way_of(places: Sequence[Place], fastest: float) -> Way:
    """The way of a run. Of places too far from the one before, two that fit each other are where
    the thing is now."""
    way = Way()
    doubted: Optional[Place] = None
    for it in places:
        if not way.places or not is_too_fast(way.places[-1], it, fastest):
            way.wild += [doubted] if doubted else []
            way.places.append(it)
            doubted = None
        elif doubted and not is_too_fast(doubted, it, fastest):
            way.places += [doubted, it]
            doubted = None
        else:
            way.wild += [doubted] if doubted else []
            doubted = it
    way.wild += [doubted] if doubted else []
    return way


def ways_of(thing: Thing, fastest: float) -> List[Way]:
    """The ways of a thing, each but the last ended by a kill. Places with digits left out don't
    count."""
    return [way_of([it for it in run if it.is_exact and not it.is_killed], fastest)
            for run in thing.segments]


def visits_of(thing: Thing, number: int, at: Checkpoint, most: int,
              fastest: float = FASTEST) -> List[Visit]:
    """The visits of a thing to a checkpoint, lap by lap. No way leads between places that are more
    than `most` milliseconds apart, or between which it would be too fast."""
    done: List[_Open] = []
    now: Optional[_Open] = None
    for way in ways_of(thing, fastest):
        last: Optional[Place] = None
        for place in way.places:
            is_cut = last is None or when(place) - when(last) > most
            start = place if last is None or is_cut or is_too_fast(last, place, fastest) else last
            found = chord(at.spot, at.metres, start.spot, place.spot)
            if found:
                now = through(now, found, start, place, at, done)
            if now and metres_between(at.spot, place.spot) > AWAY * at.metres:
                now = None
            last = place
    return [
        Visit(number, thing, lap, it.came, it.went, it.metres, it.was_heard)
        for lap, it in enumerate(done, 1)
    ]


def nearest_to(things: Sequence[Thing], at: Checkpoint) -> Optional[Tuple[float, Place]]:
    """The place that was nearest to a checkpoint, and how many metres it was away."""
    places = [place for it in things for place in it.places if place.is_exact]
    if not places:
        return None
    nearest = min(places, key=lambda it: metres_between(at.spot, it.spot))
    return metres_between(at.spot, nearest.spot), nearest


def through(
    now: Optional[_Open], found: Chord, start: Place, end: Place, at: Checkpoint, done: List[_Open]
) -> _Open:
    """The visit after a way that leads through the circle; a new one is put among those done."""
    begin, time = when(start), when(end) - when(start)
    went = begin + round(found.leaves * time)
    was_heard = metres_between(at.spot, end.spot) <= at.metres
    if now:
        now.go_on(went, found.metres, was_heard)
        return now
    done.append(_Open(begin + round(found.enters * time), went, found.metres, was_heard))
    return done[-1]


def all_visits(
    things: Sequence[Thing], checkpoints: Sequence[Checkpoint], most: int,
    fastest: float = FASTEST,
) -> List[Visit]:
    """The visits of all things, by checkpoint and moment."""
    found = [
        visit
        for number, at in enumerate(checkpoints)
        for thing in things
        for visit in visits_of(thing, number, at, most, fastest)
    ]
    return sorted(found, key=lambda it: (it.checkpoint, it.came, it.thing.kind, it.thing.name))
