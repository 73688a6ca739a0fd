"""Moments, times and numbers, as they are typed."""
import argparse
import time
from typing import Callable

import pytest
from standing import Programs, at, message, place, row, station

from aprsbook_tools import arguments
from aprsbook_tools.formats import moments

EVENING = moments.milliseconds("2024-06-21T18:00:00Z")
HOUR = 3_600_000


@pytest.mark.parametrize("text, wanted", [
    ("2024-06-21T18:00:00.000Z", EVENING), ("2024-06-21T18", EVENING), ("2024-06-21T18Z", EVENING),
    ("2024-06-21T18:00", EVENING), ("2024-06-21", EVENING - 18 * HOUR),
    ("2024-06-21T20:00+02:00", EVENING), ("2024-06-21T12:30-05:30", EVENING),
    ("2024-06-21T18:00:00.001", EVENING + 1)])
def test_a_moment_is_its_beginning(text: str, wanted: int) -> None:
    assert arguments.moment(text) == wanted


def test_a_clock_is_of_today_and_a_time_ago(monkeypatch: pytest.MonkeyPatch) -> None:
    monkeypatch.setattr(arguments, "today", lambda: "2024-06-21")
    monkeypatch.setattr(time, "time_ns", lambda: (EVENING + 5) * 1_000_000)
    assert arguments.moment("18:00") == arguments.moment("18:00:00Z") == EVENING
    for text, ago in {"-2h": 2 * HOUR, "-90m": 1.5 * HOUR, "-30s": 30_000, "-1d": 24 * HOUR,
                      "-45": 45_000}.items():
        assert arguments.moment(text) == EVENING + 5 - ago


@pytest.mark.parametrize("text", [
    "", "now", "24:00", "18", "2024-06-21 18:00", "2024-02-30", "2024-06-21T18:00+25:00",
    "2024-06-21T18:00+02:60", "1969-12-31", "2100-01-01", "1970-01-01T00:00+01:00", "-2w", "--2h",
    "2h", "２０24-06-21"])
def test_what_is_no_moment_is_refused(text: str) -> None:
    with pytest.raises(argparse.ArgumentTypeError, match="is no moment in UTC, such as") as caught:
        arguments.moment(text)
    assert str(caught.value).startswith(f"{text!r} ")  # as it was typed


@pytest.mark.parametrize("unit, text, wanted", [
    ("s", "90", 90), ("s", "90s", 90), ("s", "2m", 120), ("m", "20", 20), ("m", "2h", 120),
    ("m", "120s", 2), ("m", "1d", 1440)])
def test_a_duration_has_its_unit_or_another(unit: str, text: str, wanted: int) -> None:
    assert arguments.duration(1, 100_000, unit)(text) == wanted


@pytest.mark.parametrize("text", ["", "x", "0", "-1", "1.5", "90x", "61s", "1441", "2d", "1 h"])
def test_what_is_no_duration_is_refused(text: str) -> None:
    read: Callable[[str], int] = arguments.duration(1, 1440, "m")
    with pytest.raises(argparse.ArgumentTypeError, match="not from 1m to 1440m"):
        read(text)


SAID = [
    place("18:00", "Q1A", 1, 2), row("status", "18:30", "Q1B"), place("19:00", "Q1C", 3, 4),
    message("18:00", "Q1A", "Q1B", "one"), message("18:30", "Q1A", "Q1B", "two"),
    station("18:00", "Q1A"), station("19:00", "Q1C"), station("18:10", "Q1B"),
]


@pytest.mark.parametrize("command, column, wanted", [
    (["last-heard"], 2, ["Q1B"]), (["places"], 1, []), (["tracks"], 1, []),
    (["messages"], 3, ["two"]), (["ics-309", "--format", "tsv"], 4, ["two"]),
    (["stations"], 0, [])])
def test_each_report_takes_a_time(programs: Programs, command: "list[str]", column: int,
                                  wanted: "list[str]") -> None:
    programs.say(*SAID)
    lines = programs.lines(*command, "--from", "2024-06-21T18:15", "--to", "2024-06-21T19",
                           "net.log")
    assert [it[column] for it in lines[1:]] == wanted
    programs.run(*command, "--from", "2024-06-22", "--to", "2024-06-21", "net.log", status=2)
    assert len(programs.lines(*command, "--from", at("18:00"), "net.log")) > len(wanted) + 1


@pytest.mark.parametrize("command", [["csv"], ["csv", "--table", "messages"]])
def test_csv_takes_a_time(programs: Programs, command: "list[str]") -> None:
    programs.say(*SAID)
    shown = programs.run(*command, "--from", "2024-06-21T18:15", "--to", "2024-06-21T19", "net.log")
    assert len(shown.splitlines()) == 2
