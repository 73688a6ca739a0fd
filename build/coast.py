#!/usr/bin/env python3
"""Makes page/assets/coast.txt, the coasts of the world below the map of a page.

usage: build/coast.py [FOLDER] > page/assets/coast.txt
       FOLDER has Rdata.rdx and Rdata.rdb of Debian's
                                                   package r-cran-rnaturalearthdata, once unpacked

The data are Natural Earth's coastline at 1:50 million, which is in the public domain. Of each ring
those places are left out by which the line between the others passes within TOLERANCE. The text
is base85 (RFC 1924) of a zlib stream of rings, each of them closed: how many places it has, then
the steps from one place to the next, east and north in hundredths of a degree, as numbers of seven
bits a byte, lower ones first, twice as large and one less where they are negative.
"""
import base64
import bz2
import gzip
import lzma
import math
import struct
import sys
import zlib
from typing import Any, Iterable, Iterator, List, Tuple

FOLDER = "/usr/lib/R/site-library/rnaturalearthdata/data"
LZMA = [{"id": lzma.FILTER_LZMA2, "preset": 6}]


TOLERANCE = 1.5  # hundredths of a degree, some 1.7 km; the data aren't finer
Place = Tuple[int, int]  # hundredths of a degree, east and north
Line = List[Place]


class Values:
    """R's values as it stores them (R Internals, Serialization Formats, XDR)."""

    def __init__(self, stored: bytes) -> None:
        self.stored, self.at = stored, 2
        self.known: List[Any] = []
        if stored[:2] != b"X\n":
            raise ValueError("no values of R")
        version, _, _ = self.take("i", 3)
        if version == 3:
            self.take("B", self.number())

    def take(self, form: str, count: int = 1) -> List[Any]:
        values = struct.unpack_from(f">{count}{form}", self.stored, self.at)
        self.at += struct.calcsize(f">{count}{form}")
        return list(values)

    def number(self) -> int:
        return int(self.take("i")[0])

    def value(self) -> Any:
        flags = self.number()
        kind = flags & 255
        if kind == 254 or kind in (241, 242, 247, 250, 251, 252, 253):
            return None
        if kind == 255:
            return self.known[(flags >> 8 or self.number()) - 1]
        if kind == 1:
            self.known.append(self.value())
            return self.known[-1]
        if kind == 9:
            size = self.number()
            return None if size < 0 else bytes(self.take("B", size)).decode()
        if kind == 2:
            return self.pairs(flags)
        if kind == 25:
            values = None
        elif kind in (10, 13):
            values = self.take("i", self.number())
        elif kind == 14:
            values = self.take("d", self.number())
        elif kind in (16, 19, 20):
            values = [self.value() for _ in range(self.number())]
        else:
            raise ValueError(f"a value of R's kind {kind}")
        return (values, dict(self.value())) if flags & 512 else values

    def pairs(self, flags: int) -> List[Tuple[Any, Any]]:
        if flags & 512:
            self.value()
        tag = self.value() if flags & 1024 else None
        return [(tag, self.value()), *(self.value() or [])]


def unpacked(packed: bytes) -> bytes:
    if packed[4:5] == b"2":
        return bz2.decompress(packed[5:])
    if packed[4:5] == b"Z":
        return lzma.decompress(packed[5:], format=lzma.FORMAT_RAW, filters=LZMA)
    return zlib.decompress(packed[4:])


def plain(value: Any) -> Any:
    """A value without its attributes."""
    return value[0] if isinstance(value, tuple) else value


def read_lines(folder: str, name: str) -> Iterator[List[Tuple[float, float]]]:
    """The lines of one of the data, of degrees east and north."""
    with open(f"{folder}/Rdata.rdx", "rb") as file:
        read = file.read()
    index = gzip.decompress(read) if read[:2] == b"\x1f\x8b" else zlib.decompress(read)
    values, of = Values(index).value()
    values, of = dict(zip(plain(of["names"]), values))["variables"]
    begin, size = plain(dict(zip(plain(of["names"]), values))[name])
    with open(f"{folder}/Rdata.rdb", "rb") as data:
        data.seek(begin)
        _, shapes = Values(unpacked(data.read(size))).value()
    for shape in plain(shapes["lines"]):
        for line in plain(shape[1]["Lines"]):
            degrees, of = line[1]["coords"]
            count = plain(of["dim"])[0]
            yield list(zip(degrees[:count], degrees[count:]))


def hundredths(line: Iterable[Tuple[float, float]]) -> Line:
    """A line in hundredths of a degree, each place once; 180 degrees west are 180 east."""
    places: Line = []
    for east, north in line:
        it = round(100 * east), round(100 * north)
        it = (18000 if it[0] == -18000 else it[0]), it[1]
        if not places or places[-1] != it:
            places.append(it)
    return places


def is_near(a: Place, b: Place) -> bool:
    return abs((a[0] - b[0] + 18000) % 36000 - 18000) <= 3 and abs(a[1] - b[1]) <= 3


def rings(lines: Iterable[Iterable[Tuple[float, float]]]) -> Iterator[Line]:
    """The lines joined to rings; what doesn't end where another begins is closed as it is."""
    open_lines = []
    for line in map(hundredths, lines):
        if len(line) > 3 and line[0] == line[-1]:
            yield line[:-1]
        elif len(line) > 1:
            open_lines.append(line)
    while open_lines:
        ring = open_lines.pop()
        while not is_near(ring[0], ring[-1]):
            found = next((it for it in open_lines if is_near(ring[-1], it[0])), None)
            turned = next((it for it in open_lines if is_near(ring[-1], it[-1])), None)
            if found:
                open_lines.remove(found)
                ring += found
            elif turned:
                open_lines.remove(turned)
                ring += turned[::-1]
            else:
                break
        if len(ring) > 2:
            yield ring


def step(a: Place, b: Place) -> Place:
    """From one place to another, east and north, the shorter way round."""
    return (b[0] - a[0] + 18000) % 36000 - 18000, b[1] - a[1]


def distance(place: Place, a: Place, b: Place) -> float:
    """How far a place is from the way between two others."""
    (east, north), (x, y) = step(a, b), step(a, place)
    length = east * east + north * north
    part = max(0.0, min(1.0, (x * east + y * north) / length)) if length else 0.0
    return math.hypot(x - part * east, y - part * north)


def simplified(line: Line) -> Line:
    """A line with its ends and those places by which it would otherwise pass further away than
    TOLERANCE (Douglas and Peucker, 1973)."""
    kept, waiting = {0, len(line) - 1}, [(0, len(line) - 1)]
    while waiting:
        first, last = waiting.pop()
        between = range(first + 1, last)
        at = max(between, key=lambda it: distance(line[it], line[first], line[last]), default=first)
        if distance(line[at], line[first], line[last]) > TOLERANCE:
            kept.add(at)
            waiting += [(first, at), (at, last)]
    return [line[it] for it in sorted(kept)]


def simplified_ring(ring: Line) -> Line:
    """A ring likewise, half by half; where less than a triangle would be left it stays as it is."""
    half = max(range(len(ring)), key=lambda it: math.hypot(*step(ring[0], ring[it])))
    halves = simplified(ring[:half + 1]), simplified(ring[half:] + ring[:1])
    found = halves[0][:-1] + halves[1][:-1]
    return found if len(found) > 2 else ring


def number(value: int) -> bytes:
    value = 2 * value if value >= 0 else -2 * value - 1
    written = bytearray()
    while value > 127:
        written.append(value & 127 | 128)
        value >>= 7
    return bytes(written) + bytes([value])


def packed(all_rings: Iterable[Line]) -> bytes:
    written = bytearray()
    for ring in all_rings:
        written += number(len(ring))
        before = (0, 0)
        for place in ring:
            written += b"".join(map(number, step(before, place)))
            before = place
    return bytes(written)


def deflated(written: bytes) -> bytes:
    """The least that zlib makes of it."""
    made = []
    for strategy in range(5):
        packer = zlib.compressobj(9, zlib.DEFLATED, 15, 9, strategy)
        made.append(packer.compress(written) + packer.flush())
    return min(made, key=len)


if __name__ == "__main__":
    folder = sys.argv[1] if len(sys.argv) > 1 else FOLDER
    found = sorted(map(simplified_ring, rings(read_lines(folder, "coastline50"))))
    print(base64.b85encode(deflated(packed(found))).decode())
    print(f"{len(found)} rings of {sum(map(len, found))} places", file=sys.stderr)
