"""Who came by a checkpoint: by the way between two places, and lap by lap."""
import json
import pathlib
from typing import Any, List

import pytest
from hypothesis import given
from hypothesis import strategies as st
from standing import Programs, place, put

from aprsbook_tools.errors import Fault
from aprsbook_tools.formats.moments import milliseconds, text_of
from aprsbook_tools.geo import DEGREE_METRES, Spot
from aprsbook_tools.reports.checkpoints import (
    Checkpoint, Visit, all_visits, read_checkpoints, ways_of)
from aprsbook_tools.reports.table import Row
from aprsbook_tools.reports.tracks import things_of

QUARTER = 15 * 60_000
TARN = Checkpoint("Tarn", Spot(54.5, -3.5), 60)


def clocks(visits: List[Visit]) -> List[str]:
    return [text_of(it.came)[11:19] for it in visits]


def visits(*rows: Row, most: int = QUARTER) -> List[Visit]:
    return all_visits(things_of(rows), [TARN], most)


def north(metres: float) -> float:
    """So many metres north of the tarn."""
    return 54.5 + metres / DEGREE_METRES


def test_who_crosses_the_circle_between_two_beacons_is_seen() -> None:
    """The recipe saw nobody who was heard before and behind the circle alone."""
    [visit] = visits(
        place("18:00", "Q1A", north(-600), -3.5), place("18:10", "Q1A", north(600), -3.5)
    )
    # 600 seconds for 1,200 metres: it comes in after 540 metres, and goes after 660
    assert (visit.came, visit.went) == (
        milliseconds("2024-06-21T18:04:30Z"),
        milliseconds("2024-06-21T18:05:30Z"),
    )
    assert not visit.was_heard and visit.metres < 0.01 and visit.lap == 1


def test_later_laps_are_seen() -> None:
    """The recipe took the first time alone."""
    rows = [
        place(f"18:{minute:02}", "Q1A", north(metres), -3.5)
        for minute, metres in [(0, 0), (5, 600), (10, 0), (15, 600), (20, 0)]
    ]
    found = visits(*rows)
    assert [it.lap for it in found] == [1, 2, 3] and clocks(found)[0] == "18:00:00"


def test_who_stays_near_is_there_once() -> None:
    """A place a little outside of the circle is no lap: a receiver of GPS wanders."""
    rows = [
        place(f"18:{minute:02}", "Q1A", north(metres), -3.5)
        for minute, metres in [(0, 50), (1, 70), (2, 55), (3, 100), (4, 30)]
    ]
    [visit] = visits(*rows)
    assert text_of(visit.went)[11:16] == "18:04" and visit.metres == pytest.approx(30, abs=0.1)


def test_no_way_leads_over_a_long_silence() -> None:
    rows = place("18:00", "Q1A", north(-600), -3.5), place("18:20", "Q1A", north(600), -3.5)
    assert visits(*rows) == [] and len(visits(*rows, most=2 * QUARTER)) == 1


def test_no_way_leads_over_a_kill() -> None:
    before = put("18:00", "Q1NET", "CAR", north(-600), -3.5)
    killed = put("18:01", "Q1NET", "CAR", north(-600), -3.5, state="killed")
    assert visits(before, killed, put("18:02", "Q1NET", "CAR", north(600), -3.5)) == []
    assert len(visits(before, put("18:02", "Q1NET", "CAR", north(600), -3.5))) == 1


def test_digits_left_out_don_t_count() -> None:
    assert visits(place("18:00", "Q1A", 54.5, -3.5, ambiguity=1)) == []
    assert len(visits(place("18:00", "Q1A", 54.5, -3.5, ambiguity=None, compressed=True))) == 1


def test_the_date_line() -> None:
    at = Checkpoint("Line", Spot(0, 180), 200)
    rows = [place("18:00", "Q1A", 0, 179.99), place("18:10", "Q1A", 0, -179.99)]
    [visit] = all_visits(things_of(rows), [at], QUARTER)
    assert text_of((visit.came + visit.went) // 2)[11:19] == "18:05:00"


METRES = st.integers(-400, 400)
TIMES = st.dictionaries(st.integers(0, 59), st.tuples(METRES, METRES), min_size=1, max_size=8)


@given(TIMES, st.randoms(use_true_random=False))
def test_rows_in_any_order_give_the_same(places: Any, some: Any) -> None:
    rows = [
        place(f"18:{minute:02}", "Q1A", north(y), -3.5 + x / DEGREE_METRES)
        for minute, (y, x) in places.items()
    ]
    other = list(rows)
    some.shuffle(other)
    found = visits(*rows)
    assert found == visits(*other)
    assert [it.lap for it in found] == list(range(1, len(found) + 1))
    assert all(it.came <= it.went and it.metres <= TARN.metres for it in found)
    assert all(one.went <= other.came for one, other in zip(found, found[1:]))


@pytest.mark.parametrize(
    "line",
    [
        "Tarn 54.5 west 60",
        "Tarn 54.5 -3.5",
        "54.5 -3.5 60",
        "Tarn 91 0 60",
        "Tarn 0 181 60",
        "Tarn 0 0 0",
    ],
)
def test_no_checkpoint_is_said_with_its_line(line: str) -> None:
    with pytest.raises(Fault, match="points: line 3"):
        read_checkpoints("points", f"# some\nEnd 54.5 -3.5 60\n{line}\n")


def test_what_is_no_checkpoint_is_no_order_to_a_terminal() -> None:
    with pytest.raises(Fault) as fault:
        read_checkpoints("points", "\x1b[2J" * 10_000)
    assert fault.value.words.isprintable() and len(fault.value.words) < 1000


def test_a_file_of_checkpoints() -> None:
    text = "\ufeffHalf way 54.501 -3.5 60\r\n\r\n# none\r\nEnd +1 2. 3\r\n"
    assert read_checkpoints("points", text) == [
        Checkpoint("Half way", Spot(54.501, -3.5), 60),
        Checkpoint("End", Spot(1, 2), 3),
    ]


LAPS = [
    place(f"18:{minute:02}", call, north(metres), -3.5)
    for call, minute, metres in [
        ("Q1A", 0, 0),
        ("Q1A", 5, 600),
        ("Q1A", 10, 0),
        ("Q1B", 3, 0),
        ("Q1C", 4, 600),
    ]
]


def test_the_command(programs: Programs, tmp_path: pathlib.Path) -> None:
    (tmp_path / "points").write_text("Tarn 54.5 -3.5 60\nFar away 10 10 60\n")
    programs.say(*LAPS)
    assert [it[:7] for it in programs.lines("passed", "--points", "points", "net.log")[1:]] == [
        [
            "Tarn",
            "1",
            "2024-06-21T18:00:00.000Z",
            "2024-06-21T18:00:30.000Z",
            "station",
            "Q1A",
            "1",
        ],
        [
            "Tarn",
            "2",
            "2024-06-21T18:03:00.000Z",
            "2024-06-21T18:03:00.000Z",
            "station",
            "Q1B",
            "1",
        ],
        [
            "Tarn",
            "3",
            "2024-06-21T18:09:30.000Z",
            "2024-06-21T18:10:00.000Z",
            "station",
            "Q1A",
            "2",
        ],
    ]
    programs.run("passed", "-o", "points", "--points", "points", "net.log", status=2)


def test_a_matrix_in_json_has_each_checkpoint(programs: Programs, tmp_path: pathlib.Path) -> None:
    """Of two with one name it had the last alone, and of one called `name` not who passed."""
    (tmp_path / "points").write_text("Tarn 54.5 -3.5 60\nTarn 10 10 60\nname 10 10 60\n")
    programs.say(LAPS[0])
    words = "passed", "--quiet", "--matrix", "--format", "json", "--points", "points", "net.log"
    assert json.loads(programs.run(*words)) == [
        {"bib": "", "name": "Q1A", "tactical": "",
         "Tarn": "18:00:00", "Tarn #2": "", "name #2": ""}]


def test_a_matrix_by_bib(programs: Programs, tmp_path: pathlib.Path) -> None:
    (tmp_path / "points").write_text("Tarn 54.5 -3.5 60\nEnd 54.505396 -3.5 60\n")
    (tmp_path / "names").write_text("call,bib,name\nQ1A,118,Anna\nQ1B,9,Ben\n")
    programs.say(*LAPS)
    words = "passed", "--roster", "names", "--matrix", "--points", "points"
    assert programs.lines(*words, "net.log") == [
        ["bib", "name", "tactical", "Tarn 1", "End 1", "Tarn 2"],
        ["9", "Q1B", "Ben", "18:03:00", "", ""],
        ["118", "Q1A", "Anna", "18:00:00", "18:04:30", "18:09:30"],
        ["", "Q1C", "", "", "18:04:00", ""],
    ]


def test_the_time_of_each_segment(programs: Programs, tmp_path: pathlib.Path) -> None:
    (tmp_path / "points").write_text("Tarn 54.5 -3.5 60\nEnd 54.505396 -3.5 60\n")
    programs.say(*LAPS)
    assert programs.lines("passed", "--matrix", "--segments", "--points", "points", "net.log") == [
        ["bib", "name", "tactical", "Tarn 1", "End 1", "Tarn 2"],
        ["", "Q1A", "", "0:00:00", "0:04:30", "0:05:00"],
        ["", "Q1B", "", "0:00:00", "", ""],
        ["", "Q1C", "", "", "0:00:00", ""],
    ]
    programs.run("passed", "--segments", "--points", "points", "net.log", status=2)


def test_one_wild_beacon_makes_no_times() -> None:
    """E for W in one of ten beacons led 450 km away and back, through every checkpoint between."""
    rows = [place(f"18:{minute:02}", "Q1A", north(100 * minute - 600), -3.5 if minute != 5 else 3.5)
            for minute in range(12)]
    far = Checkpoint("Far", Spot(54.5, 0), 5000)
    things = things_of(rows)
    found = all_visits(things, [TARN, far], QUARTER)
    assert [(it.checkpoint, text_of(it.came)[11:16]) for it in found] == [(0, "18:05")]
    [way] = ways_of(things[0], 300)
    assert [it.row.first[11:16] for it in way.wild] == ["18:05"]
    assert len(all_visits(things, [far], QUARTER, 0)) == 2  # where any may be


def test_who_is_somewhere_else_from_now_on_is_there() -> None:
    """As after a first beacon of a GPS without a fix."""
    rows = [place("18:00", "Q1A", 10, 10), place("18:01", "Q1A", north(-600), -3.5),
            place("18:05", "Q1A", north(600), -3.5)]
    assert clocks(visits(*rows)) != []
    [way] = ways_of(things_of(rows)[0], 300)
    assert way.wild == []


def test_what_flies_may_be_fast() -> None:
    rows = [place(f"18:0{minute}", "Q1A", 54.5, -3.5 + minute / 2, altitude_m=9000.0)
            for minute in range(3)]
    assert ways_of(things_of(rows)[0], 300)[0].wild == []


@pytest.mark.parametrize("line", [
    "Tarn top 54.5183 -3.5216 150", "Tarn top,54.5183,-3.5216,150", "Tarn top;54,5183;-3,5216;150",
    "Tarn top\t54.5183\t-3.5216\t150m", "Tarn top 54,5183 -3,5216 150 m", '"Tarn top";54.5183;'
    "-3.5216;0.15km", "Tarn top 54.5183 -3.5216 150 # a comment"])
def test_lines_of_checkpoints(line: str) -> None:
    for text in line, f"name;latitude;longitude;metres\n{line}\n", f"# some\n\n{line}":
        assert read_checkpoints("points", text) == [
            Checkpoint("Tarn top", Spot(54.5183, -3.5216), 150)]


def test_the_form_of_a_checkpoint_is_said() -> None:
    with pytest.raises(Fault, match="such as `Tarn 54.5183 -3.5216 150`"):
        read_checkpoints("points", "CP1 54.5 -3.5\n")


def test_the_way_over_a_pole() -> None:
    rows = [place("18:00", "Q1A", 89.95, 0), place("18:05", "Q1A", 89.95, 180)]
    for spot in Spot(89.99, 0), Spot(90, 0), Spot(89.99, 180):
        assert len(all_visits(things_of(rows), [Checkpoint("Pole", spot, 500)], QUARTER)) == 1
    assert all_visits(things_of(rows), [Checkpoint("Pole", Spot(89.99, 90), 500)], QUARTER) == []


def test_who_was_nearest_is_said_where_nobody_passed(programs: Programs) -> None:
    programs.say(place("18:00", "Q1A", 54.5, -3.5), place("18:05", "Q1A", 54.51, -3.5))
    (programs.folder / "points").write_text("Swapped -3.5 54.5 100\nHere 54.505 -3.5 100\n")
    table = programs.run("passed", "--matrix", "--points", "points", "net.log")
    assert "nobody passed Swapped: Q1A was nearest" in programs.said
    assert "~18:02:" in table
