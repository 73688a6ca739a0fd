"""A fine coast around the places of an event, by GMT and its data, GSHHG (LGPL)."""
import base64
import math
import os
import subprocess
import tempfile
from typing import Counter, Iterable, Iterator, List, Optional, Sequence, Tuple

from aprsbook_tools.errors import Fault
from aprsbook_tools.geo import DEGREE_METRES, Spot, eastward, metres_between
from aprsbook_tools.page.coast_polygons import (
    Box, Line, Point, packed, rings_of, simpler_ring, unpacked)
from aprsbook_tools.system import programs

UNIT = 10_000  # so many are a degree
# the data, the finest first, by how many metres they may be off, and the packages of Debian
FINENESS = {"f": 70, "h": 200}
PACKAGES = "gmt gmt-gshhg-high"
# what spans more degrees of latitude is no event, and what is so far north no map of GMT's
MOST_DEGREES, MOST_NORTH = 6.0, 85.0
LEAST_MARGIN = 10_000 / DEGREE_METRES
# a coast takes so many bytes of a page at most
MOST_BYTES = 60_000
SECONDS = 60


def in_order(values: Iterable[Tuple[float, int]], number: int) -> float:
    """What stands at a place in the order of values, each of which is there so often."""
    for value, count in sorted(values):
        number -= count
        if number < 0:
            return value
    raise IndexError("no value stands there")


def near(spots: Counter[Spot]) -> List[Spot]:
    """Most of these places; a few that lie far from all others may be damaged."""
    count = sum(spots.values())
    if count < 4:
        return list(spots)
    middle = Spot(in_order(((it.north, of) for it, of in spots.items()), count // 2),
                  in_order(((it.east, of) for it, of in spots.items()), count // 2))
    apart = {it: metres_between(middle, it) for it in spots}
    usual = in_order(((apart[it], of) for it, of in spots.items()), (3 * count - 3) // 4)
    return [it for it in spots if apart[it] <= max(10 * usual, 20_000.0)]


def box_around(spots: Counter[Spot]) -> Optional[Box]:
    """A box around most of these places that is three times as wide and as high, for any window, or
    None where that is too wide. Its east may lie beyond 180 degrees."""
    places = near(spots)
    if not places:
        return None
    first = places[0].east
    east = [first + eastward(first, it.east) for it in places]
    north = [it.north for it in places]
    low, high, west, right = min(north), max(north), min(east), max(east)
    if max(-low, high) > MOST_NORTH:
        return None
    level = math.cos(math.radians((low + high) / 2))
    side = max(high - low, (right - west) * level, LEAST_MARGIN)
    above, beside = 1.5 * side - (high - low) / 2, 1.5 * side / level - (right - west) / 2
    box = Box(*(round(it * UNIT) for it in (west - beside, low - above, right + beside,
                                            high + above)))
    wide = max((box.east - box.west) * level, box.north - box.south) > MOST_DEGREES * UNIT
    return None if wide else box


def gmt(*words: str, given: str = "") -> str:
    """What a program of GMT writes, by no settings but its own, and without a file left behind."""
    with tempfile.TemporaryDirectory() as folder:
        own = {"HOME": folder, "GMT_USERDIR": folder, "LC_ALL": "C"}
        command = [programs.find("gmt"), *words, "--GMT_HISTORY=false",
                   "--FORMAT_FLOAT_OUT=%.6f", "--FORMAT_GEO_OUT=D"]
        try:
            done = subprocess.run(command, cwd=folder, env={**os.environ, **own}, check=True,
                                  timeout=SECONDS, input=given.encode(), stdout=subprocess.PIPE,
                                  stderr=subprocess.PIPE)
        except subprocess.TimeoutExpired as fault:
            raise Fault(f"gmt took more than {SECONDS} seconds") from fault
        except subprocess.CalledProcessError as fault:
            said = fault.stderr.decode("utf-8", "backslashreplace").strip().split("\n")
            raise Fault(f"gmt: {said[0]}") from fault
    return done.stdout.decode("ascii", "backslashreplace")


def lines_of(text: str, box: Box) -> Iterator[Line]:
    """The lines that GMT writes, each behind one that begins with >."""
    middle = (box.west + box.east) / 2 / UNIT
    line: Line = []
    for row in [*text.splitlines(), ">"]:
        if row.startswith(">"):
            if len(line) > 1:
                yield line
            line = []
            continue
        east, north = map(float, row.split()[:2])
        point = round((middle + eastward(middle, east)) * UNIT), round(north * UNIT)
        if not line or line[-1] != point:
            line.append(point)


def rings_in(box: Box, fine: str) -> List[Line]:
    """The rings around land in a box, of data of this fineness."""
    region = "-R" + "/".join(f"{it / UNIT:.4f}" for it in (box.west, box.east, box.south,
                                                           box.north))

    def is_land(point: Point) -> bool:
        given = f"{point[0] / UNIT:.4f} {point[1] / UNIT:.4f}\n"
        return gmt("select", region, f"-D{fine}", "-Ns/k/s/k/s", given=given) != ""

    text = gmt("coast", region, f"-D{fine}", "-M", "-W")
    return rings_of(lines_of(text, box), box, is_land)


def packed_within(rings: Sequence[Line], box: Box, metres: int, most: int) -> str:
    """Rings that may be off by so many metres as text, made simpler until that takes so many bytes
    at most."""
    level = math.cos(math.radians((box.south + box.north) / 2 / UNIT))
    step, off = 1.0, 0.0
    while True:
        rings = [it for it in (simpler_ring(it, step, level) for it in rings) if it]
        off += step
        may_be_off = metres + round(off / UNIT * DEGREE_METRES)
        text = base64.b64encode(packed(rings, [UNIT, *box, may_be_off])).decode()
        if len(text) <= most:
            return text
        step *= 2


def is_near_rough(box: Box, text: str) -> bool:
    """Whether the coast of the world, as page/assets/coast.txt has it, comes near a box."""
    west, south, east, north = (it / UNIT for it in box)
    middle, margin = (west + east) / 2, 0.1
    numbers = unpacked(base64.b85decode(text))
    for size in numbers:
        right = up = 0
        for _ in range(size):
            right, up = right + next(numbers), up + next(numbers)
            beside = abs(eastward(middle, right / 100)) <= (east - west) / 2 + margin
            if beside and south - margin <= up / 100 <= north + margin:
                return True
    return False


def around(spots: Counter[Spot], rough: str) -> str:
    """The fine coast around these places, as text for a page. It is empty where they are all over
    the world. A Fault says why there is none, where `rough`, that of the world, is near."""
    box = box_around(spots)
    if not box:
        return ""
    why = "no gmt is there"
    for fine, metres in FINENESS.items() if programs.is_there("gmt") else ():
        try:
            return packed_within(rings_in(box, fine), box, metres, MOST_BYTES)
        except Fault as fault:
            why = fault.words
    if not is_near_rough(box, rough):
        return ""
    raise Fault(f"the coast is rough, since {why} (Debian: apt install {PACKAGES})")
