"""Rings around land, of the coasts within a box; how they are made simpler, and packed.

Coordinates are whole numbers, east and north. A place has land where an odd number of rings is
around it.
"""
import zlib
from typing import Callable, Dict, Iterable, Iterator, List, NamedTuple, Optional, Sequence, Tuple

from aprsbook_tools.errors import Fault

Point = Tuple[int, int]
Line = List[Point]
# parallels are bent on a map, so a side of a box has so many steps
STEPS = 16


class Box(NamedTuple):
    """What lies between these coordinates."""

    west: int
    south: int
    east: int
    north: int

    @property
    def corners(self) -> Line:
        """From the south-west by east."""
        west, south, east, north = self
        return [(west, south), (east, south), (east, north), (west, north)]


class Ends:
    """Lines by their ends."""

    def __init__(self, lines: Iterable[Line]) -> None:
        self.by: Dict[Point, List[Line]] = {}
        for line in lines:
            for end in (line[0], line[-1]):
                self.by.setdefault(end, []).append(line)

    def drop(self, line: Line) -> None:
        for end in (line[0], line[-1]):
            left = [it for it in self.by.pop(end, []) if it is not line]
            if left:
                self.by[end] = left

    def any(self) -> Optional[Line]:
        """A line that is left, which is taken out."""
        for lines in self.by.values():
            self.drop(lines[0])
            return lines[0]
        return None

    def after(self, end: Point) -> Optional[Line]:
        """A line that begins here, or a step beside, perhaps turned; it is taken out."""
        steps = sorted(((x, y) for x in (-1, 0, 1) for y in (-1, 0, 1)),
                       key=lambda it: abs(it[0]) + abs(it[1]))
        for x, y in steps:
            place = (end[0] + x, end[1] + y)
            for line in self.by.get(place, []):
                self.drop(line)
                return line if line[0] == place else line[::-1]
        return None


def is_closed(line: Line) -> bool:
    return len(line) > 3 and max(abs(line[0][k] - line[-1][k]) for k in (0, 1)) <= 1


def joined(lines: Iterable[Line]) -> Tuple[List[Line], List[Line]]:
    """Rings, and what stays open, of lines of which one ends where another does."""
    rings: List[Line] = []
    open_lines: List[Line] = []
    ends = Ends(lines)
    while True:
        line = ends.any()
        if line is None:
            return rings, open_lines
        for _ in range(2):
            while not is_closed(line):
                more = ends.after(line[-1])
                if more is None:
                    break
                line = line + more[1:]
            line = line[::-1]
        if is_closed(line):
            rings.append(line[:-1])
        else:
            open_lines.append(line)


class Border:
    """The border of a box as a way around it, from its south-west corner by east."""

    def __init__(self, box: Box) -> None:
        self.box = box
        self.wide, self.high = box.east - box.west, box.north - box.south
        self.long = 2 * (self.wide + self.high)
        sides = [(0, self.wide), (self.wide, self.high), (self.wide + self.high, self.wide),
                 (self.long - self.high, self.high)]
        self.stops = [start + size * step // STEPS for start, size in sides
                      for step in range(STEPS)]

    def at(self, point: Point) -> Optional[int]:
        """How far along the border a point is, or None where it isn't on it."""
        box, (east, north) = self.box, point
        right, up = east - box.west, north - box.south
        if not 0 <= right <= self.wide or not 0 <= up <= self.high:
            return None
        if up == 0:
            return right
        if right == self.wide:
            return self.wide + up
        if up == self.high:
            return self.wide + self.high + self.wide - right
        return self.long - up if right == 0 else None

    def point(self, at: int) -> Point:
        """The point so far along the border."""
        box, at = self.box, at % self.long
        if at <= self.wide:
            return box.west + at, box.south
        if at <= self.wide + self.high:
            return box.east, box.south + at - self.wide
        if at <= self.long - self.high:
            return box.east - (at - self.wide - self.high), box.north
        return box.west, box.south + self.long - at

    def way(self, start: int, end: int) -> Line:
        """The way from one place of the border to a later one."""
        turns = [it + turn for turn in (0, self.long) for it in self.stops]
        return [self.point(it) for it in [start, *[it for it in turns if start < it < end], end]]


def rings_of(lines: Iterable[Line], box: Box, is_land: Callable[[Point], bool]) -> List[Line]:
    """The rings around the land of a box, of all coasts in it, which end at its border."""
    rings, open_lines = joined(lines)
    border = Border(box)
    ends = [border.at(end) for line in open_lines for end in (line[0], line[-1])]
    cut = sorted(it for it in ends if it is not None)
    if len(cut) < len(ends) or len(set(cut)) < len(cut):
        raise Fault("a coast doesn't end at the border of its box")
    if not cut:
        around = border.way(0, border.long)[:-1]
        return [*rings, around] if is_land(border.point(0)) else rings
    # land and water take turns along the border; the widest part is asked for
    parts = list(zip(cut, [*cut[1:], cut[0] + border.long]))
    widest = max(range(len(parts)), key=lambda it: parts[it][1] - parts[it][0])
    start, end = parts[widest]
    first = widest if is_land(border.point((start + end) // 2)) else widest + 1
    land = [border.way(*it) for k, it in enumerate(parts) if (k - first) % 2 == 0]
    closed, left = joined([*open_lines, *land])
    if left:
        raise Fault("the rings of a coast don't close")
    return [*rings, *closed]


def simpler(line: Sequence[Point], off: float, level: float) -> Line:
    """A line without the points that are nearer than `off` to the way past them; a coordinate to
    the east counts `level` of one to the north (Douglas and Peucker, 1973)."""
    kept, spans = {0, len(line) - 1}, [(0, len(line) - 1)]
    while spans:
        start, end = spans.pop()
        (x, y), (end_x, end_y) = line[start], line[end]
        wide, high = (end_x - x) * level, end_y - y
        long = wide * wide + high * high
        most, at = off * off, -1
        for k in range(start + 1, end):
            right, up = (line[k][0] - x) * level, line[k][1] - y
            share = min(1.0, max(0.0, (right * wide + up * high) / long)) if long else 0.0
            apart = (right - share * wide) ** 2 + (up - share * high) ** 2
            if apart > most:
                most, at = apart, k
        if at >= 0:
            kept.add(at)
            spans += [(start, at), (at, end)]
    return [line[k] for k in sorted(kept)]


def simpler_ring(ring: Line, off: float, level: float) -> Line:
    """A ring made simpler; what is smaller than `off` vanishes."""
    far = max(range(len(ring)), key=lambda k: abs(ring[k][0] - ring[0][0]) * level +
              abs(ring[k][1] - ring[0][1]))
    halves = simpler(ring[:far + 1], off, level), simpler([*ring[far:], ring[0]], off, level)
    whole = [*halves[0][:-1], *halves[1][:-1]]
    return whole if len(whole) > 2 else []


def number(value: int) -> bytes:
    """Seven bits a byte, lower ones first; twice as large, and one less where it is negative."""
    value = 2 * value if value >= 0 else -2 * value - 1
    written = bytearray()
    while value > 127:
        written.append(value & 127 | 128)
        value >>= 7
    return bytes(written) + bytes([value])


def packed(rings: Iterable[Line], head: Sequence[int]) -> bytes:
    """Numbers, then of each ring how many points it has and the steps from one to the next."""
    written = bytearray(b"".join(map(number, head)))
    for ring in rings:
        written += number(len(ring))
        east = north = 0
        for point in ring:
            written += number(point[0] - east) + number(point[1] - north)
            east, north = point
    return zlib.compress(bytes(written), 9)


def unpacked(octets: bytes) -> Iterator[int]:
    """The numbers of `packed`."""
    value, by = 0, 1
    for octet in zlib.decompress(octets):
        value += (octet & 127) * by
        by *= 128
        if octet < 128:
            yield -((value + 1) // 2) if value % 2 else value // 2
            value, by = 0, 1
