"""Files with maps that others made to do harm: each ends in a sentence with its name."""
import gzip
import pathlib
import sqlite3
from collections import Counter
from typing import Any, Dict, List

import pytest

from aprsbook_tools.errors import Fault
from aprsbook_tools.formats import pmtiles
from aprsbook_tools.geo import Spot
from aprsbook_tools.page import basemap, event_page, gshhg
from aprsbook_tools.system.clock import CLOCK
from test_basemap import PNG, archive

SPOT = Spot(54.5, -3.6)


def tiles_in(path: pathlib.Path, most: int = 10**7) -> Dict[str, str]:
    box = gshhg.box_around(Counter([SPOT]))
    assert box is not None
    return basemap.tiles_in(str(path), box, most)


@pytest.mark.parametrize("text", [
    '{"type":"Point","coordinates":[1' + "0" * 400 + ",2]}",
    '<?xml version="1.0" encoding="foo"?><gpx/>', '{"type":"Point","coordinates":{}}',
    '{"type":["Point"]}', "[]", "1", '{"type":"Point","coordinates":[1e999,2]}'])
def test_a_course_that_is_none(tmp_path: pathlib.Path, text: str) -> None:
    (tmp_path / "course.gpx").write_text(text)
    with pytest.raises(Fault, match="course.gpx: "):
        event_page.read_map(str(tmp_path / "course.gpx"))


def database(path: pathlib.Path, *rows: Any) -> pathlib.Path:
    connection = sqlite3.connect(path)
    with connection:
        connection.execute("CREATE TABLE tiles (zoom_level, tile_column, tile_row, tile_data)")
        connection.executemany("INSERT INTO tiles VALUES (?, ?, ?, ?)", rows)
    connection.close()
    return path


@pytest.mark.parametrize("data", [None, "text", -1, 1.5, 10**11, b"no picture"])
def test_a_square_of_a_database_that_is_no_picture(tmp_path: pathlib.Path, data: Any) -> None:
    path = database(tmp_path / "map.mbtiles", (0, 0, 0, data))
    with pytest.raises(Fault, match="the square 0/0/0 is no picture"):
        tiles_in(path)


@pytest.mark.parametrize("level", [None, "text", 1.5, -1, 23, 2**62])
def test_levels_of_a_database_that_are_none_are_passed_over(
        tmp_path: pathlib.Path, level: Any) -> None:
    rows = (level, 0, 0, PNG), (0, 0, "row", PNG), (0, 0, 0, PNG)
    path = database(tmp_path / "map.mbtiles", *rows)
    assert list(tiles_in(path)) == ["0/0/0"]


ENDLESS = """CREATE VIEW tiles AS WITH RECURSIVE r(n) AS (SELECT 1 UNION ALL SELECT n + 1 FROM r)
SELECT n AS zoom_level, 0 AS tile_column, 0 AS tile_row, x'00' AS tile_data FROM r"""


def test_a_database_without_an_end_is_ended(
        tmp_path: pathlib.Path, monkeypatch: pytest.MonkeyPatch) -> None:
    monkeypatch.setattr(basemap, "LONGEST", 0.2)
    with sqlite3.connect(tmp_path / "map.mbtiles") as connection:
        connection.execute(ENDLESS)
    with pytest.raises(Fault, match="map.mbtiles: .* takes more than 0.2 seconds"):
        tiles_in(tmp_path / "map.mbtiles")


def test_a_signal_ends_a_database_without_an_end(
        tmp_path: pathlib.Path, monkeypatch: pytest.MonkeyPatch) -> None:
    """It comes while the database is at work, within which it would be lost."""
    with sqlite3.connect(tmp_path / "map.mbtiles") as connection:
        connection.execute(ENDLESS)

    def interrupted() -> float:
        raise KeyboardInterrupt
    times = iter([lambda: 0.0, interrupted])
    monkeypatch.setattr(CLOCK, "seconds", lambda: next(times)())
    with pytest.raises(KeyboardInterrupt):
        tiles_in(tmp_path / "map.mbtiles")


def test_a_large_square_is_not_read_where_it_has_no_room(
        tmp_path: pathlib.Path, monkeypatch: pytest.MonkeyPatch) -> None:
    large = PNG + bytes(2_000_000)
    (tmp_path / "map.pmtiles").write_bytes(archive({"0/0/0": large}))
    database(tmp_path / "map.mbtiles", (0, 0, 0, large))
    (tmp_path / "folder/0/0").mkdir(parents=True)
    (tmp_path / "folder/0/0/0.png").write_bytes(large)
    read: List[int] = []
    part = pmtiles.Archive.part

    def noted(self: pmtiles.Archive, offset: int, length: int) -> bytes:
        read.append(length)
        return part(self, offset, length)
    monkeypatch.setattr(pmtiles.Archive, "part", noted)
    monkeypatch.setattr(basemap, "read_file", lambda _: pytest.fail("it was read"))
    for name in "map.pmtiles", "map.mbtiles", "folder":
        assert tiles_in(tmp_path / name, 1_000_000) == {}
    assert max(read) < 1000


def spoiled(at: int, number: int) -> bytes:
    """An archive with another number in its head, or in its root directory."""
    whole = archive({"0/0/0": PNG})
    return whole[:at] + number.to_bytes(8, "little") + whole[at + 8:]


@pytest.mark.parametrize("at, number", [
    (16, 2**63), (16, 2**64 - 1), (8, 2**63), (56, 2**63), (16, 10**9)])
def test_lengths_that_are_none(tmp_path: pathlib.Path, at: int, number: int) -> None:
    (tmp_path / "map.pmtiles").write_bytes(spoiled(at, number))
    with pytest.raises(Fault, match="map.pmtiles: "):
        tiles_in(tmp_path / "map.pmtiles")


def test_a_directory_is_unpacked_as_far_as_one_is_long(tmp_path: pathlib.Path) -> None:
    bomb = gzip.compress(bytes(8 * pmtiles.DIRECTORY))
    whole = archive({"0/0/0": PNG})
    head = bytearray(whole[:pmtiles.HEADER])
    head[16:24] = len(bomb).to_bytes(8, "little")
    (tmp_path / "map.pmtiles").write_bytes(bytes(head) + bomb)
    with pytest.raises(Fault, match=f"more than {pmtiles.DIRECTORY} bytes"):
        tiles_in(tmp_path / "map.pmtiles")
    assert pmtiles.unpacked(gzip.compress(b"x" * pmtiles.DIRECTORY)) == b"x" * pmtiles.DIRECTORY
