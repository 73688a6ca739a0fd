"""What lies below the marks of a page: a fine coast, and squares of a web map."""
import argparse
import base64
import collections
import contextlib
import functools
import math
import os
import re
import sqlite3
from typing import (
    Any, Callable, Counter, Dict, Iterable, Iterator, NamedTuple, Optional, Sequence, Tuple)

from aprsbook_tools import arguments, stderr
from aprsbook_tools.errors import Fault
from aprsbook_tools.formats import pmtiles
from aprsbook_tools.geo import Spot
from aprsbook_tools.page import event_page, gshhg
from aprsbook_tools.page.coast_polygons import Box
from aprsbook_tools.reports import table, tracks
from aprsbook_tools.system.clock import CLOCK

# as the page draws them
MOST_LEVEL = 22
PICTURES = (b"\x89PNG", b"\xff\xd8\xff", b"RIFF")
FILE = re.compile(r"(\d{1,7})\.(?:png|jpe?g|webp)", re.IGNORECASE | re.ASCII)
NUMBER = re.compile(r"\d{1,7}", re.ASCII)
LONGEST = 60  # seconds that a database may take


class Square(NamedTuple):
    """A square of a web map: its level, and its column and row from the north-west."""

    z: int
    x: int
    y: int


def add_options(parser: argparse.ArgumentParser) -> None:
    parser.add_argument(
        "--coast",
        choices=("fine", "rough"),
        default="fine",
        help="the coast around the places: fine where GMT and its data are installed (Debian: "
        f"{gshhg.PACKAGES}), or else that of the world alone",
    )
    parser.add_argument(
        "--tiles",
        metavar="FOLDER",
        help="squares of a web map that the page carries, FOLDER/Z/X/Y.png, or a file .mbtiles or "
        ".pmtiles",
    )
    parser.add_argument(
        "--most-mb",
        type=arguments.whole_number(1, 1000),
        default=5,
        metavar="MB",
        help="the squares of a page have so many megabytes at most: finer levels are left out (5)",
    )


def columns_and_rows(box: Box, z: int) -> Tuple[Sequence[int], Sequence[int]]:
    """The columns and rows of a level between which a box lies."""
    wide = 1 << z

    def row(north: float) -> int:
        up = math.asinh(math.tan(math.radians(max(-85.05, min(85.05, north)))))
        return min(wide - 1, max(0, math.floor((0.5 - up / (2 * math.pi)) * wide)))

    west, south, east, north = (it / gshhg.UNIT for it in box)
    first, last = (math.floor((it + 180) / 360 * wide) for it in (west, east))
    columns = sorted({it % wide for it in range(first, min(last, first + wide) + 1)})
    return columns, range(row(north), row(south) + 1)


# a square, how many bytes it has, and what reads them
Found = Tuple[Square, int, Callable[[], bytes]]
Read = Callable[[int, Box], Iterator[Found]]


def read_file(path: str) -> bytes:
    with open(path, "rb") as file:
        return file.read()


def squares_in_folder(folder: str) -> Read:
    """What reads the squares of a level and a box from FOLDER/Z/X/Y.png."""

    def read(z: int, box: Box) -> Iterator[Found]:
        columns, rows = columns_and_rows(box, z)
        for x in columns:
            place = os.path.join(folder, str(z), str(x))
            files = sorted(os.listdir(place)) if os.path.isdir(place) else []
            for found in filter(None, map(FILE.fullmatch, files)):
                if int(found[1]) in rows:
                    file = os.path.join(place, found[0])
                    size = os.path.getsize(file)
                    yield Square(z, x, int(found[1])), size, functools.partial(read_file, file)

    return read


class Patience:
    """Ends what a database does where that takes too long, or where a signal asks for the end: its
    tables may be views that have no end."""

    def __init__(self, database: sqlite3.Connection) -> None:
        self.end = CLOCK.seconds() + LONGEST
        self.fault: Optional[BaseException] = None
        database.set_progress_handler(self.look, 100_000)

    def look(self) -> int:
        try:
            return int(CLOCK.seconds() > self.end)
        except BaseException as fault:  # what a signal raises would be lost within the database
            self.fault = fault
            return 1

    @contextlib.contextmanager
    def kept(self) -> Iterator[None]:
        try:
            yield
        except sqlite3.Error as fault:
            if self.fault is not None:
                raise self.fault
            if CLOCK.seconds() > self.end:
                raise sqlite3.DataError(f"it takes more than {LONGEST} seconds") from fault
            raise


def squares_in_database(database: sqlite3.Connection) -> Read:
    """What reads the squares of a level and a box from MBTiles, whose rows count from the south."""

    def data_of(z: int, x: int, row: int) -> bytes:
        for (data,) in database.execute(
                "SELECT tile_data FROM tiles WHERE zoom_level = ? AND tile_column = ? AND "
                "tile_row = ? AND typeof(tile_data) = 'blob' LIMIT 1", (z, x, row)):
            return bytes(data)
        return b""

    def read(z: int, box: Box) -> Iterator[Found]:
        columns, rows = columns_and_rows(box, z)
        top = (1 << z) - 1
        for x in columns:
            found = database.execute(
                "SELECT tile_row, CASE typeof(tile_data) WHEN 'blob' THEN length(tile_data) "
                "ELSE 0 END FROM tiles WHERE zoom_level = ? AND tile_column = ? AND "
                "typeof(tile_row) = 'integer' AND tile_row BETWEEN ? AND ? ORDER BY tile_row DESC",
                (z, x, top - rows[-1], top - rows[0]))
            for row, size in found.fetchmany(len(rows) + 1):
                yield Square(z, x, top - row), size, functools.partial(data_of, z, x, row)

    return read


def squares_in_archive(archive: pmtiles.Archive) -> Read:
    """What reads the squares of a level and a box from PMTiles."""

    def read(z: int, box: Box) -> Iterator[Found]:
        columns, rows = columns_and_rows(box, z)
        for x in columns:
            for y in rows:
                place = archive.place_of(z, x, y)
                if place is not None:
                    yield Square(z, x, y), place.length, functools.partial(archive.part, *place)

    return read


def within(read: Read, levels: Sequence[int], box: Box, most: int) -> Dict[str, str]:
    """The squares of these levels in a box, as long as a whole level has room in so many bytes."""
    kept: Dict[str, str] = {}
    room = most
    for z in levels:
        level = {}
        for square, size, data_of in read(z, box):
            room -= (size + 2) // 3 * 4  # as base64
            if room < 0:
                stderr.warn(f"level {z} of the tiles, and what is finer, is left out: it takes "
                            "more than --most-mb")
                return kept
            name, data = "/".join(map(str, square)), data_of()
            if not data.startswith(PICTURES):
                raise Fault(f"the square {name} is no picture (PNG, JPEG, WebP)")
            level[name] = base64.b64encode(data).decode()
        kept.update(level)
    return kept


def tiles_in(path: str, box: Box, most: int) -> Dict[str, str]:
    """The squares of a folder, of PMTiles or of MBTiles in a box."""
    if os.path.isdir(path):
        names = sorted(int(it) for it in os.listdir(path) if NUMBER.fullmatch(it))
        levels = [it for it in names if it <= MOST_LEVEL]
        return within(squares_in_folder(path), levels, box, most)
    if not os.path.exists(path):
        raise Fault(f"{path}: No such file or directory")
    if is_archive(path):
        try:
            with open(path, "rb") as file:
                archive = pmtiles.Archive(file)
                return within(squares_in_archive(archive),
                              range(archive.least, min(MOST_LEVEL, archive.most) + 1), box, most)
        except ValueError as fault:
            raise Fault(f"{path}: {fault}") from fault
    try:
        with contextlib.closing(
                sqlite3.connect(f"file:{quoted(path)}?mode=ro", uri=True)) as database:
            with Patience(database).kept():
                found = database.execute(
                    "SELECT DISTINCT zoom_level FROM tiles WHERE typeof(zoom_level) = 'integer' "
                    "AND zoom_level BETWEEN 0 AND ? ORDER BY zoom_level", (MOST_LEVEL,))
                levels = [it for (it,) in found]
                return within(squares_in_database(database), levels, box, most)
    except sqlite3.Error as fault:
        raise Fault(f"{path}: no folder Z/X/Y.png, no PMTiles and no MBTiles: {fault}") from fault


def is_archive(path: str) -> bool:
    """Whether a file begins as PMTiles."""
    with open(path, "rb") as file:
        return file.read(len(pmtiles.BEGIN)) == pmtiles.BEGIN


def quoted(path: str) -> str:
    """A path as it stands in a URI of SQLite."""
    return path.replace("%", "%25").replace("?", "%3f").replace("#", "%23")


def spots_of(rows: Iterable[str]) -> Counter[Spot]:
    """The places in the lines of a table of rows, and how many rows have each."""
    spots: Counter[Spot] = collections.Counter()
    shown = collections.Counter(table.tuples(table.Row, rows, ("latitude", "longitude")))
    try:
        for (north, east), count in shown.items():
            if north and east:
                spots[Spot(float(north), float(east))] += count
    except ValueError as fault:
        raise Fault(f"the table of rows: {fault}") from fault
    del spots[tracks.NO_FIX]
    return spots


@functools.lru_cache(maxsize=None)
def say(words: str) -> None:
    """Says something once, however often a page is made."""
    stderr.note(words)


def of(args: argparse.Namespace, rows: Iterable[str]) -> Dict[str, Any]:
    """What a page of the lines of this table has below its marks."""
    ground: Dict[str, Any] = {}
    spots = spots_of(rows) if args.coast == "fine" or args.tiles else collections.Counter()
    if args.coast == "fine":
        try:
            coast = gshhg.around(spots, event_page.world_coast())
        except Fault as fault:
            say(fault.words)
            coast = ""
        if coast:
            ground["coast"] = coast
    box: Optional[Box] = gshhg.box_around(spots) if args.tiles else None
    if args.tiles and not box:
        say("no tiles: the places are too far apart, or there are none")
    if box:
        tiles = tiles_in(args.tiles, box, args.most_mb * 1_000_000)
        if tiles:
            ground["tiles"] = tiles
        else:
            say(f"{args.tiles} has no square around the places that fits in --most-mb")
    return ground
