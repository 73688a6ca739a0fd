"""Places and tracks in each form."""
import csv
import html
import io
import json
import pathlib
import xml.etree.ElementTree
from typing import Any, Dict, List

import pytest
from conftest import environment, tried
from hypothesis import given
from hypothesis import strategies as st
from standing import Programs, place, put, row, tracks_of

from aprsbook_tools.formats.spreadsheet import read_csv
from aprsbook_tools.reports.table import Row
from aprsbook_tools.reports.track_files import HEAD, TRACKS, markup
from aprsbook_tools.reports.tracks import things_of

GPX = "{http://www.topografix.com/GPX/1/1}"
KML = "{http://www.opengis.net/kml/2.2}"
EVENING = [
    put("18:00", "Q1NET", "LEADER", 54.5, -3.5),
    put("18:10", "Q1NET", "LEADER", 54.6, -3.5),
    put("18:20", "Q1NET", "LEADER", 54.7, -3.5, state="killed"),
    put("18:30", "Q1NET", "LEADER", 54.8, -3.5),
    place("18:05", "Q1FLY", 54.5, -3.5, altitude_m=304.8, course=90, speed_knots=12, text="up"),
    place("18:15", "Q1FLY", 54.55, -3.5, ambiguity=2),
    place("18:01", "Q1HUT", 54.4, -3.4, compressed=True, ambiguity=None),
    row("status", "18:02", "Q1HUT", text="open"),
]


def made(form: str, rows: "list[Row]") -> str:
    return "".join(tracks_of(form, things_of(rows)))


def test_csv_has_each_place(programs: Programs) -> None:
    programs.say(*EVENING)
    shown = programs.run("tracks", "--format", "csv", "net.log")
    rows = [dict(zip(HEAD, it)) for it in read_csv(shown)]
    assert [*rows[0]] == HEAD[:-1]
    assert [(it["kind"], it["name"], it["first"][11:16], it["state"]) for it in rows[1:]] == [
        ("station", "Q1FLY", "18:05", "live"),
        ("station", "Q1FLY", "18:15", "live"),
        ("station", "Q1HUT", "18:01", "live"),
        ("object", "LEADER", "18:00", "live"),
        ("object", "LEADER", "18:10", "live"),
        ("object", "LEADER", "18:20", "killed"),
        ("object", "LEADER", "18:30", "live"),
    ]
    assert [rows[1][it] for it in ("course", "speed_knots", "altitude_m")] == ["90", "12", "304.8"]
    assert [it["ambiguity"] for it in rows[1:4]] == ["0", "2", "c"]


def test_a_kill_at_no_fix_lies_where_the_thing_was() -> None:
    rows = [
        put("18:00", "Q1NET", "LEADER", 54.5, -3.5),
        put("18:20", "Q1NET", "LEADER", 0, 0, state="killed"),
        put("18:10", "Q1NET", "LEADER", 0, 0),
        put("18:00", "Q1NET", "GONE", 0, 0, state="killed"),
    ]
    (thing,) = things_of(rows)
    assert [(it.state, it.spot) for it in thing.places] == [
        ("live", (54.5, -3.5)),
        ("killed", (54.5, -3.5)),
    ]
    assert thing.now.is_killed


def test_gpx_has_no_longitude_of_180() -> None:
    text = made("gpx", [place("18:00", "Q1A", 0.5, 180.0), place("18:01", "Q1A", 0.5, -180.0)])
    assert text.count('lon="-180.0000000"') == text.count("lon=")


def test_no_text_is_a_formula(programs: Programs) -> None:
    programs.say(
        *(
            place(f"18:0{n}", "Q1F", -4.5, -3.5, text=text)
            for n, text in enumerate(["=1+1", "+1", "-1+1", "@SUM(1)"])
        )
    )
    rows = [*csv.DictReader(io.StringIO(programs.run("tracks", "--format", "csv", "net.log")))]
    assert [it["comment"][:2] for it in rows] == ["'=", "'+", "'-", "'@"]
    assert {it["lat"] + it["lon"] for it in rows} == {"-4.5-3.5"}


def test_gpx(programs: Programs) -> None:
    programs.say(*EVENING)
    root = xml.etree.ElementTree.fromstring(programs.run("tracks", "--format", "gpx", "net.log"))
    points = {it.findtext(GPX + "name"): it for it in root.findall(GPX + "wpt")}
    assert [*points] == ["Q1FLY", "Q1HUT", "LEADER"]
    assert points["LEADER"].get("lat") == "54.8000000"
    tracks = root.findall(GPX + "trk")
    assert [it.findtext(GPX + "name") for it in tracks] == ["Q1FLY", "LEADER"]
    assert [len(it) for it in tracks[1].findall(GPX + "trkseg")] == [3, 1]
    assert [it.text for it in root.iter(GPX + "ele")] == ["304.8"]
    assert next(root.iter(GPX + "time")).text == "2024-06-21T18:15:00.000Z"
    assert "digits left out: 2" in str(points["Q1FLY"].findtext(GPX + "desc"))


@pytest.mark.parametrize("form", ["gpx", "kml"])
def test_a_title_is_in_utf_8_whatever_the_locale_is(programs: Programs, form: str) -> None:
    programs.say(*EVENING)
    ascii_alone = environment(LC_ALL="C", PYTHONCOERCECLOCALE="0", PYTHONUTF8="0")
    done = tried("tracks", "--title", "B\u00e4se", "--format", form, "net.log", env=ascii_alone)
    assert "name>B\u00e4se</name>" in done.stdout.decode()


def test_geojson(programs: Programs) -> None:
    programs.say(*EVENING)
    shown = programs.run("tracks", "--format", "geojson", "net.log")
    features: List[Dict[str, Any]] = json.loads(shown)["features"]
    shapes = [it["geometry"]["type"] for it in features]
    assert shapes == ["Point"] * 7 + ["MultiLineString"] * 2
    assert features[0]["geometry"]["coordinates"] == [-3.5, 54.5]
    assert features[0]["properties"]["altitude_m"] == 304.8
    # a segment of one place is no line
    assert features[-1]["geometry"]["coordinates"] == [[[-3.5, 54.5], [-3.5, 54.6], [-3.5, 54.7]]]
    assert features[-1]["properties"] == {"kind": "object", "name": "LEADER"}


def test_kml(programs: Programs) -> None:
    programs.say(*EVENING)
    root = xml.etree.ElementTree.fromstring(programs.run("tracks", "--format", "kml", "net.log"))
    marks = root.findall(f"{KML}Document/{KML}Placemark")
    assert [it.findtext(KML + "name") for it in marks] == [
        "Q1FLY",
        "Q1HUT",
        "LEADER",
        "Q1FLY track",
        "LEADER track",
    ]
    assert [str(it.text).split()[0] for it in marks[-1].iter(KML + "coordinates")] == [
        "-3.5000000,54.5000000",
        "-3.5000000,54.8000000",
    ]


def test_a_track_over_the_date_line_is_cut_there() -> None:
    """The recipe drew it once around the earth."""
    features = json.loads(
        made("geojson", [place("18:00", "Q1SHIP", 0, 179), place("18:10", "Q1SHIP", 2, -179)])
    )["features"]
    assert features[-1]["geometry"]["coordinates"] == [[[179, 0], [180, 1]], [[-180, 1], [-179, 2]]]


@pytest.mark.parametrize("form", ["gpx", "kml"])
@given(text=st.text(max_size=40))
def test_any_text_is_text_in_xml(form: str, text: str) -> None:
    xml.etree.ElementTree.fromstring(made(form, [place("18:00", "Q1A", 1, 2, text=text)]))


def test_a_description_in_kml_is_text_of_html() -> None:
    """Or Google Earth would ask a server that a text off the air names."""
    text = '<img src="http://example.org/">&amp;'
    root = xml.etree.ElementTree.fromstring(made("kml", [place("18:00", "Q1A", 1, 2, text=text)]))
    [said] = [it.text or "" for it in root.iter(KML + "description")]
    assert "<" not in said and html.unescape(said).endswith(text)


@given(st.text())
def test_markup_is_read_back(text: str) -> None:
    root = xml.etree.ElementTree.fromstring(f"<a>{markup(text)}</a>")
    if text.isprintable():
        assert (root.text or "") == text


def first_of(it: Row) -> str:
    return it.first


TIMES = st.integers(0, 1439).map(lambda it: f"{it // 60:02}:{it % 60:02}")
SOME = st.builds(
    place,
    TIMES,
    st.sampled_from(["Q1A", "Q1B-7"]),
    st.floats(1, 80),  # 0, 0 is no place
    st.floats(-180, 180),
    text=st.text(st.characters(blacklist_categories=("Cs", "Cc")), max_size=5),
)


def test_a_place_at_0_0_is_none() -> None:
    assert things_of([place("18:00", "Q1A", 0.0, 0.0)]) == []
    assert len(things_of([place("18:00", "Q1A", 0.0, 0.1)])) == 1


@given(st.lists(SOME, max_size=8, unique_by=first_of), st.randoms(use_true_random=False))
def test_tracks_of_rows_in_any_order_are_the_same(rows: "list[Row]", some: Any) -> None:
    other = list(rows)
    some.shuffle(other)
    for form in ["csv", *TRACKS]:
        assert made(form, rows) == made(form, other)


@given(st.lists(SOME, max_size=8))
def test_each_place_is_there_once(rows: "list[Row]") -> None:
    lines = read_csv(made("csv", rows))[1:]
    assert sorted((it[1], it[3]) for it in lines) == sorted((it.source, it.first) for it in rows)
    assert sorted(float(it[7]) for it in lines) == sorted(it.latitude or 0.0 for it in rows)


def test_places_and_the_last_of_each(programs: Programs) -> None:
    programs.say(*EVENING)
    assert len(programs.lines("places", "net.log")) == 8
    lines = programs.lines("places", "--last", "net.log")
    assert [it[1] for it in lines] == ["name", "Q1FLY", "Q1HUT", "LEADER"]
    assert lines[3][7] == "54.8"
    shown = programs.run("places", "--last", "--format", "geojson", "net.log")
    features = json.loads(shown)["features"]
    assert [it["properties"]["name"] for it in features] == ["Q1FLY", "Q1HUT", "LEADER"]


def test_the_last_place_is_that_which_was_heard_last() -> None:
    """A digipeater held the first place until the second had been heard."""
    [thing] = things_of(
        [place("18:00", "Q1A", 1, 1, last="2024-06-21T18:20:00.000Z"), place("18:10", "Q1A", 2, 2)]
    )
    assert [it.spot.north for it in thing.places] == [1, 2] and thing.now.spot.north == 1


def test_tactical_names(programs: Programs, tmp_path: pathlib.Path) -> None:
    (tmp_path / "names").write_text("Q1FLY Balloon\n")
    programs.say(*EVENING)
    for form in "gpx", "kml":
        assert "<name>Balloon (Q1FLY)</name>" in programs.run(
            "tracks", "--roster", "names", "--format", form, "net.log"
        )
    shown = programs.run("tracks", "--roster", "names", "--format", "csv", "net.log")
    assert read_csv(shown)[1][-1] == "Balloon"
    assert '"tactical":"Balloon"' in programs.run(
        "tracks", "--roster", "names", "--format", "geojson", "net.log"
    )


def test_an_output_that_is_an_input_is_refused(programs: Programs, tmp_path: pathlib.Path) -> None:
    (tmp_path / "net.book").write_text("book")
    (tmp_path / "names").write_text("Q1A Start\n")
    for path in "net.log", "net.book", "names":
        before = (tmp_path / path).read_bytes()
        programs.run(
            "tracks", "--roster", "names", "-o", path, "net.log", "net.book", status=2
        )
        assert (tmp_path / path).read_bytes() == before


def test_what_a_program_refuses_is_said_in_its_words(
    programs: Programs, tmp_path: pathlib.Path
) -> None:
    (tmp_path / "bad.log").write_text("faulty\n")
    (tmp_path / "out.gpx").write_text("before")
    programs.run("tracks", "-o", "out.gpx", "--format", "gpx", "bad.log", status=1)
    assert programs.said == ("aprsbook-table: bad.log: line 1: Moment: "
                             "aprs-net mend bad.log -o NEW.log writes its whole lines\n")
    assert (tmp_path / "out.gpx").read_text() == "before"
