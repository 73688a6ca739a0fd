"""Places on the earth: how far apart they are, and what crosses the date line.

Degrees are north and east, metres are on a ball of 6,371 km. There is one rule of the date line:
from one longitude to another it is the shorter way, less than 180 degrees, that counts.
"""
from __future__ import annotations

import math

from aprsbook_tools import TYPE_CHECKING
from aprsbook_tools.records import NamedTuple

if TYPE_CHECKING:
    from typing import List, Sequence, Tuple

EARTH_METRES = 6_371_000.0
DEGREE_METRES = EARTH_METRES * math.pi / 180
POLAR = 85  # degrees north or south, behind which a plane is that of directions and distances


class Spot(NamedTuple):
    """A place in degrees north and east."""

    north: float
    east: float


def eastward(start: float, end: float) -> float:
    """The degrees from one longitude to another by the shorter way: above -180 and up to 180."""
    way = math.fmod(end - start, 360.0)
    if way > 180:
        return way - 360
    return way + 360 if way <= -180 else way


def metres_between(one: Spot, other: Spot) -> float:
    """How far apart two places are, along the ball."""
    north, other_north = math.radians(one.north), math.radians(other.north)
    half_north = math.sin((other_north - north) / 2)
    half_east = math.sin(math.radians(eastward(one.east, other.east)) / 2)
    part = half_north**2 + math.cos(north) * math.cos(other_north) * half_east**2
    return 2 * EARTH_METRES * math.asin(min(1.0, math.sqrt(part)))


def bearing(start: Spot, end: Spot) -> float:
    """The direction in which the end lies from the start: degrees from 0 up to 360."""
    north, other_north = math.radians(start.north), math.radians(end.north)
    way = math.radians(eastward(start.east, end.east))
    across = math.sin(way) * math.cos(other_north)
    ahead = math.cos(north) * math.sin(other_north) - math.sin(north) * math.cos(
        other_north
    ) * math.cos(way)
    degrees = math.degrees(math.atan2(across, ahead)) % 360
    return 0.0 if degrees == 360 else degrees


def flat(middle: Spot, spot: Spot) -> Tuple[float, float]:
    """Metres east and north of a middle, on a plane that touches the earth there."""
    if max(abs(middle.north), abs(spot.north)) > POLAR:  # where meridians meet
        metres, way = metres_between(middle, spot), math.radians(bearing(middle, spot))
        return metres * math.sin(way), metres * math.cos(way)
    across = eastward(middle.east, spot.east) * math.cos(math.radians(middle.north))
    return across * DEGREE_METRES, (spot.north - middle.north) * DEGREE_METRES


class Chord(NamedTuple):
    """The part of a way that lies within a circle: shares of the way from 0 to 1."""

    enters: float
    nearest: float
    leaves: float
    metres: float  # from the middle, where it is nearest


def chord(middle: Spot, radius: float, start: Spot, end: Spot) -> "Chord | None":
    """Where the straight way between two places is within so many metres of a middle."""
    x, y = flat(middle, start)
    end_x, end_y = flat(middle, end)
    x_way, y_way = end_x - x, end_y - y
    square = x_way * x_way + y_way * y_way
    at = 0.0 if square == 0 else min(1.0, max(0.0, -(x * x_way + y * y_way) / square))
    metres = math.hypot(x + at * x_way, y + at * y_way)
    if metres > radius:
        return None
    if square == 0:
        return Chord(0.0, 0.0, 1.0, metres)
    closest = -(x * x_way + y * y_way) / square
    apart = math.hypot(x + closest * x_way, y + closest * y_way)
    half = math.sqrt(max(0.0, radius * radius - apart * apart) / square)
    return Chord(max(0.0, closest - half), at, min(1.0, closest + half), metres)


def cut_at_date_line(spots: Sequence[Spot]) -> List[List[Spot]]:
    """A line in parts, none of which crosses the date line (RFC 7946, 3.1.9)."""
    lines: List[List[Spot]] = [[]]
    for number, spot in enumerate(spots):
        last = spots[number - 1] if number else spot
        if abs(spot.east - last.east) > 180:
            side = -180.0 if last.east < 0 else 180.0
            way = eastward(last.east, spot.east)
            share = (side - last.east) / way if way else 0.0
            north = last.north + (spot.north - last.north) * share
            lines[-1].append(Spot(north, side))
            lines.append([Spot(north, -side)])
        lines[-1].append(spot)
    return [line for line in lines if len(line) > 1]
