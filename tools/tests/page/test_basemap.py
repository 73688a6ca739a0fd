"""What lies below the marks of a page: rings around land, fine coasts, squares of a web map."""
import base64
import gzip
import itertools
import os
import pathlib
import shutil
import sqlite3
from collections import Counter
from typing import Dict, List

import pytest
from hypothesis import given
from hypothesis import strategies as st
from standing import Programs, place, row, table_text
from test_event_page import data_of

from aprsbook_tools.errors import Fault
from aprsbook_tools.formats import pmtiles
from aprsbook_tools.geo import Spot
from aprsbook_tools.page import basemap, coast_polygons, gshhg
from aprsbook_tools.page.coast_polygons import Box, Line, Point
from aprsbook_tools.reports.table import Row

BOX = Box(0, 0, 160, 160)
PNG = b"\x89PNG\r\n\x1a\n"


def is_within(all_rings: List[Line], point: Point) -> bool:
    """Whether an odd number of rings is around a point."""
    x, y = point
    crossed = 0
    for ring in all_rings:
        for (a, n), (b, m) in zip(ring, [*ring[1:], ring[0]]):
            if (a <= x) != (b <= x) and n + (m - n) * (x - a) / (b - a) > y:
                crossed += 1
    return crossed % 2 == 1


def land(lines: List[Line], *dry: Point) -> List[Line]:
    """The rings of lines; land is where `dry` says, the way north of it over no coast."""
    def is_land(point: Point) -> bool:
        return any(abs(point[0] - it[0]) <= 40 and abs(point[1] - it[1]) <= 40 for it in dry)

    return coast_polygons.rings_of(lines, BOX, is_land)


def test_a_coast_from_border_to_border_parts_land_and_water() -> None:
    coast = [(60, 0), (70, 80), (60, 160)]
    for line in (coast, coast[::-1]):
        # the widest part of the border is the east's, whose middle is asked for
        east = land([line], (160, 80))
        assert is_within(east, (100, 80)) and not is_within(east, (30, 80))
        west = land([line])
        assert is_within(west, (30, 80)) and not is_within(west, (100, 80))


def test_coasts_in_parts_are_joined_and_islands_and_lakes_stay() -> None:
    coast = [[(60, 160), (70, 80)], [(60, 0), (65, 40)], [(70, 80), (65, 40)]]
    lake = [(100, 60), (120, 60), (120, 90), (100, 90), (100, 60)]
    island = [(10, 10), (30, 10), (30, 30), (10, 30), (10, 10)]
    found = land([*coast, lake, island], (160, 80))
    dry, wet = [(90, 80), (20, 20)], [(110, 70), (40, 80)]
    assert all(is_within(found, it) for it in dry)
    assert not any(is_within(found, it) for it in wet)


def test_without_a_coast_all_is_land_or_all_is_water() -> None:
    assert land([]) == []
    [all_of_it] = land([], (0, 0))
    assert len(all_of_it) == 4 * coast_polygons.STEPS and is_within([all_of_it], (80, 80))
    bay = [(0, 40), (40, 0)]
    corner = land([bay], (160, 160), (160, 0), (160, 80), (80, 160))
    assert is_within(corner, (80, 80)) and not is_within(corner, (10, 10))


@pytest.mark.parametrize("line", [[(60, 0), (70, 80)], [(1, 0), (1, 1)], [(20, 20), (30, 30)]])
def test_a_coast_that_ends_within_its_box_is_refused(line: Line) -> None:
    with pytest.raises(Fault):
        land([line])


@given(st.lists(st.tuples(st.integers(0, 640), st.integers(0, 640))))
def test_the_border_is_one_way_around(points: List[Point]) -> None:
    border = coast_polygons.Border(BOX)
    for at, _ in points:
        assert border.at(border.point(at)) == at % border.long
    assert border.at((80, 80)) is None and border.at((161, 0)) is None


numbers = st.lists(st.integers(-2**40, 2**40), max_size=20)
points = st.tuples(st.integers(-2**21, 2**21), st.integers(-2**20, 2**20))


@given(numbers, st.lists(st.lists(points, min_size=3, max_size=9), max_size=5))
def test_rings_are_unpacked_as_they_were_packed(head: List[int], all_rings: List[Line]) -> None:
    left = coast_polygons.unpacked(coast_polygons.packed(all_rings, head))
    assert [next(left) for _ in head] == head
    read = []
    for size in left:
        east = north = 0
        ring = []
        for _ in range(size):
            east, north = east + next(left), north + next(left)
            ring.append((east, north))
        read.append(ring)
    assert read == all_rings


def test_a_line_is_made_simpler_by_no_more_than_is_said() -> None:
    line = [(0, 0), (10, 3), (20, -3), (30, 0)]
    assert coast_polygons.simpler(line, 2.9, 1.0) == line
    assert coast_polygons.simpler(line, 4, 1.0) == [(0, 0), (30, 0)]
    # where a degree east is short, what lies east counts less
    assert coast_polygons.simpler([(0, 0), (3, 10), (0, 20)], 2.9, 0.5) == [(0, 0), (0, 20)]
    assert coast_polygons.simpler_ring([(0, 0), (2, 0), (1, 1)], 5, 1.0) == []


def test_the_box_of_an_event_leaves_out_what_is_far_from_all() -> None:
    spots = [Spot(54.5 + k / 100, -3.5) for k in range(8)]
    box = gshhg.box_around(Counter(spots))
    assert box == gshhg.box_around(Counter([*spots, Spot(10, 20)])) and box is not None
    assert box.south < 544_500 and box.north > 546_200
    assert box.west < -36_500 and box.east > -33_500
    # over the date line, and too wide, too far north, nothing
    over = gshhg.box_around(Counter([Spot(-16.5, 179.9), Spot(-16.8, -179.9)]))
    assert over is not None and over.west < 1_799_000 and over.east > 1_801_000
    nothing: List[List[Spot]] = [[], [Spot(40, 0), Spot(46.1, 0)], [Spot(85.1, 0)]]
    assert [gshhg.box_around(Counter(it)) for it in nothing] == [None] * 3
    # where a degree east is short, so many of them are an event
    svalbard = gshhg.box_around(Counter([Spot(78.2, 15.6), Spot(78.6, 12.0)]))
    assert svalbard is not None and svalbard.east - svalbard.west > 10 * gshhg.UNIT


def test_a_place_counts_as_often_as_it_was_sent() -> None:
    at, away = Spot(54.5, -3.5), Spot(10, 20)
    assert gshhg.box_around(Counter({at: 8, away: 1})) == gshhg.box_around(Counter([at]))
    rows = [place("18:00", "Q1A", *at), place("18:01", "Q1B", *at), place("18:02", "Q1C", *away),
            place("18:03", "Q1D", 0, 0), row("status", "18:04", "Q1E")]
    assert basemap.spots_of(table_text(Row, rows).splitlines()) == {at: 2, away: 1}
    with pytest.raises(Fault, match="the table of rows: "):
        basemap.spots_of(["latitude\tlongitude", "x\ty"])


def test_lines_of_gmt_over_the_date_line_are_whole() -> None:
    text = "> Shore Bin # 1, Level 1\n179.9\t-16\n180\t-16\n> Shore\n-180\t-16\n-179.9\t-16.1\n"
    assert list(gshhg.lines_of(text, Box(1_790_000, -170_000, 1_810_000, -150_000))) == [
        [(1_799_000, -160_000), (1_800_000, -160_000)],
        [(1_800_000, -160_000), (1_801_000, -161_000)]]


def is_installed() -> bool:
    return shutil.which("gmt") is not None and any(
        pathlib.Path("/usr/share", folder, "binned_GSHHS_h.nc").exists()
        for folder in ("gmt-gshhg", "gmt/coast"))


@pytest.mark.skipif(not is_installed(), reason="needs gmt and gmt-gshhg-high")
def test_a_fine_coast_has_land_and_sea_where_they_are() -> None:
    """St Bees Head and Skiddaw's foot; the Solway Firth, and the sea off St Bees."""
    box = gshhg.box_around(Counter([Spot(54.45, -3.62), Spot(54.7, -3.2)]))
    assert box is not None
    found = gshhg.rings_in(box, "h")
    for spot, wanted in ((Spot(54.513, -3.62), True), (Spot(54.75, -3.71), False),
                         (Spot(54.5, -3.68), False), (Spot(54.6, -3.1), True)):
        point = round(spot.east * gshhg.UNIT), round(spot.north * gshhg.UNIT)
        assert is_within(found, point) == wanted, spot
    whole = gshhg.packed_within(found, box, 200, gshhg.MOST_BYTES)
    assert 100 < len(whole) <= gshhg.MOST_BYTES
    # a simpler one may be off by more, which it says
    simple = gshhg.packed_within(found, box, 200, 300)
    assert len(simple) <= 300
    heads = [[*itertools.islice(coast_polygons.unpacked(base64.b64decode(it)), 6)]
             for it in (whole, simple)]
    assert heads[0] == [gshhg.UNIT, *box, 211] and heads[1][5] > 300


@pytest.mark.parametrize("script", ["echo 'no data' >&2; exit 1", "echo '>'; exit 2"])
def test_a_coast_that_gmt_has_not_is_said_and_the_page_made(
    programs: Programs, tmp_path: pathlib.Path, monkeypatch: pytest.MonkeyPatch, script: str
) -> None:
    basemap.say.cache_clear()
    (tmp_path / "gmt").write_text(f"#!/bin/sh\n{script}\n")
    (tmp_path / "gmt").chmod(0o755)
    programs.say(place("18:00", "Q1A", 54.5, -3.6))
    monkeypatch.setenv("PATH", f"{tmp_path}{os.pathsep}{os.environ['PATH']}")
    data = data_of(programs.run("page", "net.log"))
    assert "coast" not in data
    assert programs.said.startswith("aprs-net: the coast is rough, since gmt: ")
    assert gshhg.PACKAGES in programs.said and programs.said.count("\n") == 1
    data = data_of(programs.run("page", "--coast", "rough", "net.log"))
    assert "coast" not in data and programs.said == ""


def squares(at: Spot, levels: int) -> Dict[str, bytes]:
    """A square for each of the first levels, by its way, and others far away."""
    box = gshhg.box_around(Counter([at]))
    assert box is not None
    made = {}
    for z in range(levels):
        columns, rows = basemap.columns_and_rows(box, z)
        for x in columns:
            for y in rows:
                made[f"{z}/{x}/{y}"] = PNG + bytes(1000)
    return made


def test_a_page_carries_the_squares_around_its_places(
    programs: Programs, tmp_path: pathlib.Path
) -> None:
    programs.say(place("18:00", "Q1A", 54.5, -3.6))
    made = squares(Spot(54.5, -3.6), 13)
    for way, data in {**made, "8/0/0": PNG, "12/0/0": PNG, "8/0/x": b"", "23/1/1": PNG}.items():
        (tmp_path / "tiles" / way).parent.mkdir(parents=True, exist_ok=True)
        (tmp_path / "tiles" / (way + ".png")).write_bytes(data)
    words = ["page", "--coast", "rough", "--tiles", "tiles"]
    tiles = data_of(programs.run(*words, "net.log"))["tiles"]
    assert {way: base64.b64decode(it) for way, it in tiles.items()} == made
    # MBTiles has the same, with rows from the south
    with sqlite3.connect(tmp_path / "map.mbtiles") as database:
        database.execute("CREATE TABLE tiles (zoom_level, tile_column, tile_row, tile_data)")
        for way, data in made.items():
            z, x, y = map(int, way.split("/"))
            database.execute("INSERT INTO tiles VALUES (?, ?, ?, ?)", (z, x, 2**z - 1 - y, data))
    words[-1] = "map.mbtiles"
    assert data_of(programs.run(*words, "net.log"))["tiles"] == tiles
    (tmp_path / "map.pmtiles").write_bytes(archive(made))
    words[-1] = "map.pmtiles"
    assert data_of(programs.run(*words, "net.log"))["tiles"] == tiles


def packed(*numbers: int) -> bytes:
    """Numbers by seven bits, lower ones first."""
    data = bytearray()
    for it in numbers:
        while it > 127:
            data.append(it % 128 + 128)
            it //= 128
        data.append(it)
    return bytes(data)


def directory(entries: List[pmtiles.Entry]) -> bytes:
    """A directory as the specification writes it; an offset that goes on is 0."""
    steps = [it.number - (entries[k - 1].number if k else 0) for k, it in enumerate(entries)]
    offsets = [0 if k and it.offset == entries[k - 1].offset + entries[k - 1].length
               else it.offset + 1 for k, it in enumerate(entries)]
    return packed(len(entries), *steps, *(it.run for it in entries),
                  *(it.length for it in entries), *offsets)


def archive(made: Dict[str, bytes]) -> bytes:
    """PMTiles of these squares, with directories of seven."""
    ways = sorted((pmtiles.number_of(*map(int, way.split("/"))), way) for way in made)
    data = b""
    entries: List[pmtiles.Entry] = []
    for number, way in ways:
        entries.append(pmtiles.Entry(number, 1, len(made[way]), len(data)))
        data += made[way]
    leaves = b""
    root: List[pmtiles.Entry] = []
    for k in range(0, len(entries), 7):
        leaf = gzip.compress(directory(entries[k:k + 7]))
        root.append(pmtiles.Entry(entries[k].number, 0, len(leaf), len(leaves)))
        leaves += leaf
    first = gzip.compress(directory(root))
    at = pmtiles.HEADER + len(first)
    spans = [pmtiles.HEADER, len(first), at, 0, at, len(leaves), at + len(leaves), len(data)]
    levels = [int(way.split("/")[0]) for way in made]
    head = b"PMTiles\x03" + b"".join(it.to_bytes(8, "little") for it in [*spans, 0, 0, 0])
    head += bytes([0, 2, 1, 2, min(levels), max(levels)])
    return head.ljust(pmtiles.HEADER, b"\0") + first + leaves + data


def test_squares_of_pmtiles_are_numbered_as_the_specification_has_them() -> None:
    for z, x, y, number in ((0, 0, 0, 0), (1, 0, 0, 1), (1, 0, 1, 2), (1, 1, 1, 3), (1, 1, 0, 4),
                            (2, 0, 0, 5), (12, 3423, 1763, 19078479)):
        assert pmtiles.number_of(z, x, y) == number


def test_pmtiles_that_are_damaged_are_refused(tmp_path: pathlib.Path) -> None:
    box = gshhg.box_around(Counter([Spot(54.5, -3.6)]))
    assert box is not None
    whole = archive(squares(Spot(54.5, -3.6), 5))
    # a head of another version, vector squares, cut within head, directory and squares, no gzip
    for damaged in (whole[:7] + b"\x02" + whole[8:], whole[:99] + b"\x01" + whole[100:], whole[:60],
                    whole[:140], whole[:-1500], whole[:130] + b"\xff" * 9 + whole[139:]):
        (tmp_path / "map.pmtiles").write_bytes(damaged)
        with pytest.raises(Fault, match="map.pmtiles: "):
            basemap.tiles_in(str(tmp_path / "map.pmtiles"), box, 10**7)


def test_a_level_that_has_no_room_is_left_out_and_said(
    tmp_path: pathlib.Path, capsys: pytest.CaptureFixture[str]
) -> None:
    made = squares(Spot(54.5, -3.6), 6)
    for way, data in made.items():
        (tmp_path / way).parent.mkdir(parents=True, exist_ok=True)
        (tmp_path / (way + ".png")).write_bytes(data)
    box = gshhg.box_around(Counter([Spot(54.5, -3.6)]))
    assert box is not None
    one = len(base64.b64encode(PNG + bytes(1000)))
    before = sum(way < "5" for way in made)
    kept = set(basemap.tiles_in(str(tmp_path), box, one * before))
    assert kept == {it for it in made if it < "5"}
    assert "level 5 of the tiles" in capsys.readouterr().err
    assert set(basemap.tiles_in(str(tmp_path), box, one * len(made))) == set(made)
    assert capsys.readouterr().err == ""


@pytest.mark.parametrize("way", ["nowhere", "torn.mbtiles", "0/0/0.png"])
def test_bad_tiles_are_refused(programs: Programs, tmp_path: pathlib.Path, way: str) -> None:
    programs.say(place("18:00", "Q1A", 54.5, -3.6))
    (tmp_path / "tiles/0/0").mkdir(parents=True)
    (tmp_path / "tiles/0/0/0.png").write_text("no picture")
    (tmp_path / "torn.mbtiles").write_text("")
    (tmp_path / "page.html").write_text("before")
    tiles = "tiles" if way[0] == "0" else way
    words = ["page", "--coast", "rough", "-o", "page.html", "--tiles", tiles]
    programs.run(*words, "net.log", status=1)
    assert programs.said.startswith("aprs-net: ") and programs.said.count("\n") == 1
    assert (tmp_path / "page.html").read_text() == "before"


def test_columns_and_rows_of_known_places() -> None:
    """London at level 10 is 511/340 (OpenStreetMap's wiki, Slippy map tilenames)."""
    london = Box(-1000, 515000, -999, 515001)
    assert [list(it) for it in basemap.columns_and_rows(london, 10)] == [[511], [340]]
    assert [list(it) for it in basemap.columns_and_rows(Box(1_790_000, 0, 1_810_000, 1), 3)] == [
        [0, 7], [3, 4]]
