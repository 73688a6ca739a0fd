"""The formats of reports."""
import json
import xml.etree.ElementTree

import pytest
from standing import Programs, message, place, row, station

from aprsbook_tools import table_output

REPORTS = [["last-heard"], ["places"], ["tracks"], ["messages"], ["stations"], ["ics-309"],
           ["roster", "--roster", "names"], ["passed", "--points", "points"]]


@pytest.fixture
def said(programs: Programs) -> Programs:
    programs.say(place("18:00", "Q1A", 1.5, 2, text='=1+1, "x"'), row("status", "18:05", "Q1B"),
                 message("18:10", "Q1A", "Q1B", "caf\u00e9\ttwo"),
                 station("18:00", "Q1A")._replace(latitude=1.5, longitude=2.0))
    (programs.folder / "names").write_text("Q1A Leader\nQ1GONE\n", encoding="utf-8")
    (programs.folder / "points").write_text("CP 1.5 2 100\n", encoding="utf-8")
    return programs


@pytest.mark.parametrize("report", REPORTS)
def test_each_report_has_each_format(said: Programs, report: "list[str]") -> None:
    tabs = [it.split("\t") for it in said.run(*report, "--format", "tsv", "net.log").splitlines()]
    told = json.loads(said.run(*report, "--format", "json", "net.log"))
    assert [[*it] for it in told] == [tabs[0]] * (len(tabs) - 1) and told
    sheet = said.run(*report, "--format", "csv", "net.log")
    assert sheet.splitlines()[0].split(",") == tabs[0]
    assert len(said.run(*report, "--format", "text", "net.log").splitlines()) >= len(tabs)
    said.run(*report, "--format", "xml", "net.log", status=2)


def test_json_has_numbers_and_texts(said: Programs) -> None:
    [it] = json.loads(said.run("stations", "--format", "json", "net.log"))
    assert it["latitude"] == 1.5 and it["transmissions"] == 1 and it["text"] == ""
    assert it["ambiguity"] is None
    [it] = json.loads(said.run("messages", "--format", "json", "--roster", "names", "net.log"))
    assert it["text"] == "caf\u00e9\\x09two" and it["source_name"] == "Leader"
    assert json.loads(said.run("last-heard", "--from", "2025-01-01", "--format", "json", "net.log")
                      ) == []


@pytest.mark.parametrize("report", ["places", "tracks", "stations"])
def test_what_has_places_is_a_map(said: Programs, report: str) -> None:
    features = json.loads(said.run(report, "--format", "geojson", "net.log"))["features"]
    assert [it["geometry"]["coordinates"] for it in features] == [[2.0, 1.5]]
    for form in "gpx", "kml":
        text = said.run(report, "--format", form, "--title", "a & b", "net.log")
        xml.etree.ElementTree.fromstring(text)
        assert "a &amp; b" in text and "Q1A" in text
    empty = said.run(report, "--from", "2025-01-01", "--format", "geojson", "net.log")
    assert json.loads(empty)["features"] == []


def test_a_table_for_a_reader_has_columns() -> None:
    lines = [*table_output.lines_of("text", ["a", "long"], [["longer", 1], [None, "x\ty"]])]
    assert "".join(lines) == "a       long\nlonger  1\n        x y\n"


def test_the_keeper_has_all_parts_in_json(said: Programs) -> None:
    said.say()
    (said.folder / "rx.log").write_bytes(b"")
    told = json.loads(said.run("keeper", "--format", "json", "rx.log"))
    assert [*told] == ["direct", "hops", "hours", "repeats", "delays"]


def test_somebody_is_missing(said: Programs) -> None:
    """A script may ask whether all are there."""
    said.run("roster", "--roster", "names", "net.log")
    said.run("roster", "--fail", "--roster", "names", "net.log", status=5)
    (said.folder / "names").write_text("Q1A\n")
    said.run("roster", "--fail", "--roster", "names", "net.log")
