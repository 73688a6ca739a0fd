"""aprs-net clocks: pairs of receivers, by spans, with the place of each step."""
import gzip
import pathlib
import statistics
from typing import Callable, Dict, Iterator, List, Optional, Sequence, Tuple

import pytest
from hypothesis import given, strategies as st

from aprsbook_tools import cli
from aprsbook_tools.errors import ExitStatus
from aprsbook_tools.formats import log_file, moments
from aprsbook_tools.reports import clock_offsets, table
from aprsbook_tools.reports.clock_offsets import Both, Span
from aprsbook_tools.reports.table import Row
from conftest import EVENING, named, program, tried

NOON = moments.milliseconds("2024-06-21T12:00:00Z")
MINUTE = 60_000
Clock = Callable[[int], int]  # by how many milliseconds it is ahead, by the minute


def right(_: int) -> int:
    return 0


def ahead(seconds: float) -> Clock:
    return lambda _: int(seconds * 1000)


def stepped(at: int, before: float, after: float) -> Clock:
    return lambda minute: int((before if minute < at else after) * 1000)


def heard(count: int, **by: Clock) -> Dict[str, List[Row]]:
    """What receivers heard, of a frame each minute."""
    return {receiver: [row(minute, clock(minute)) for minute in range(count)]
            for receiver, clock in by.items()}


def row(minute: int, more: int) -> Row:
    first = moments.text_of(NOON + minute * MINUTE + more)
    return Row(kind="status", source="Q1NET", text=str(minute), first=first, last=first)


def pairs(found: Dict[str, List[Row]]) -> Dict[Tuple[str, str], List[clock_offsets.Both]]:
    """In logs of which each is in the order in which its frames were heard."""
    places = {receiver: {moments.milliseconds(it.first): at for at, it in enumerate(rows)}
              for receiver, rows in found.items()}
    return clock_offsets.pairs(found, places)


def told(found: Dict[str, List[Row]], step: int = 5) -> List[Tuple[str, str, float, int]]:
    """Receivers, the difference and the number of frames of each span."""
    return [(it.one, it.other, it.ahead, len(it.frames))
            for (one, other), frames in pairs(found).items()
            for it in clock_offsets.spans(one, other, frames, step * 1000)]


def test_right_clocks() -> None:
    assert told(heard(10, A=right, B=ahead(0.25))) == [("A", "B", -0.25, 10)]


def test_two_wrong_clocks_do_not_hide_each_other() -> None:
    found = heard(10, A=ahead(7200), B=ahead(7200), C=right)
    assert told(found) == [("A", "B", 0, 10), ("A", "C", 7200, 10), ("B", "C", 7200, 10)]


@pytest.mark.parametrize("by", [-3600, -31, 31, 3600, 86400])
@pytest.mark.parametrize("at", [3, 15, 27])
@pytest.mark.parametrize("who", ["A", "B"])
def test_a_clock_that_was_set_is_told_with_its_place(by: int, at: int, who: str) -> None:
    """In the median of all it may be fine."""
    sign = 1 if who == "A" else -1
    by_clocks: Dict[str, Clock] = {"A": right, "B": right}
    by_clocks[who] = stepped(at, 0, by)
    found = heard(30, **by_clocks)
    assert told(found) == [("A", "B", 0, at), ("A", "B", sign * by, 30 - at)]
    before, after = clock_offsets.spans("A", "B", pairs(found)["A", "B"], 5000)
    # the step lies between the last moment before and the first after it, by the right clock
    of = 4 if who == "B" else 6
    assert before.words()[of + 1] == moments.text_of(NOON + (at - 1) * MINUTE)
    assert after.words()[of] == moments.text_of(NOON + at * MINUTE)


@given(st.integers(3, 27), st.integers(-100_000, 100_000).filter(lambda it: abs(it) > 5),
       st.integers(-40, 40))
def test_any_step_is_found_where_it_is(at: int, by: int, before: int) -> None:
    found = heard(30, A=stepped(at, before, before + by), B=right)
    assert told(found) == [("A", "B", before, at), ("A", "B", before + by, 30 - at)]


@given(st.integers(-5, 5), st.lists(st.integers(-2400, 2400), min_size=30, max_size=30))
def test_what_is_no_step_is_none(by: int, noise: Sequence[int]) -> None:
    """Differences of less than five seconds from the shortest to the longest."""
    found = heard(30, A=lambda minute: by * 1000 + noise[minute], B=right)
    assert len(told(found)) == 1


def test_a_clock_that_drifts_is_told_in_spans() -> None:
    found = told(heard(120, A=lambda minute: minute * 1000, B=right))
    assert len(found) > 5 and [it[2] for it in found] == sorted(it[2] for it in found)
    assert found[0][2] < 15 and found[-1][2] > 100 and sum(it[3] for it in found) == 120


def test_a_single_late_copy_is_no_step() -> None:
    late = heard(30, A=lambda minute: 25_000 if minute == 7 else 0, B=right)
    assert told(late) == [("A", "B", 0, 30)]


def test_what_was_sent_again_is_left_out() -> None:
    """As any receiver tells: of a beacon A may have heard the first, and B the second."""
    found = heard(10, A=right, B=right, C=right)
    found["C"] += [row(3, 5_400_000)]
    assert told(found) == [("A", "B", 0, 9), ("A", "C", 0, 9), ("B", "C", 0, 9)]


def test_of_the_copies_of_a_transmission_the_first_counts() -> None:
    found = heard(10, A=right, B=right)
    found["B"] += [row(3, 7000)]
    assert told(found) == [("A", "B", 0, 10)]


def test_two_transmissions_that_are_taken_for_one_are_no_step() -> None:
    for minute in range(30):
        found = heard(30, A=right, B=right)
        found["A"][minute] = row(minute, -5_400_000)
        assert told(found) == [("A", "B", 0, 30)]


def test_the_receiver_that_differs_from_all_others_is_named() -> None:
    found = heard(10, A=right, B=ahead(100), C=right, D=right)
    spans = [span for (one, other), frames in pairs(found).items()
             for span in clock_offsets.spans(one, other, frames, 5000)]
    assert clock_offsets.wrong(spans, 30) == ["B"] and clock_offsets.wrong(spans, 100) == []


@given(st.lists(st.integers(-10_000, 10_000), min_size=1, max_size=40))
def test_costs_are_distances_from_medians(values: List[int]) -> None:
    for at, (cost, middle) in enumerate(clock_offsets.costs(values), 1):
        median = statistics.median(values[:at])
        assert middle == median and cost == sum(abs(it - median) for it in values[:at])


# ---- the command ----

def rows_of(paths: Sequence[str], gap: Optional[int] = None) -> Iterator[Row]:
    """In place of the table: a row for each line of a log."""
    for path in paths:
        for line in pathlib.Path(path).read_bytes().splitlines():
            read = log_file.read_line(line)
            assert read is not None
            first = moments.text_of(read.moment)
            yield Row(kind="raw", text=read.digits.decode(), first=first, last=first)


def log(receiver: str, clock: Clock, count: int = 10) -> bytes:
    return b"".join(
        log_file.Line(NOON + it * MINUTE + clock(it), receiver, b"%02x" % it).write()
        for it in range(count))


def test_the_command(tmp_path: pathlib.Path, monkeypatch: pytest.MonkeyPatch,
                     capsys: pytest.CaptureFixture[str]) -> None:
    monkeypatch.setattr(table, "rows", rows_of)
    paths = {it: tmp_path / f"{it}.log" for it in "ABC"}
    paths["A"].write_bytes(log("HILL", right) + log("hill", right))
    paths["B"].write_bytes(log("COAST", ahead(29)))
    paths["C"].write_bytes(log("NORTH", stepped(5, 0, 7200)))
    out = tmp_path / "clocks.tsv"

    def run(*words: str) -> int:
        return cli.run(["clocks", "-o", str(out), *words])

    assert run(str(paths["A"]), str(paths["B"])) == 0
    told = [[it[name] for name in ("receiver", "other", "ahead", "frames")]
            for it in named(out.read_text())]
    assert told == [["COAST", "HILL", "+29.000", "10"], ["COAST", "hill", "+29.000", "10"],
                    ["HILL", "hill", "+0.000", "10"]]
    assert run("--gap", "28", str(paths["A"]), str(paths["B"])) == ExitStatus.FOUND
    assert "COAST differs by more than the gap, 28 seconds" in capsys.readouterr().err
    assert run(str(tmp_path)) == ExitStatus.FOUND
    assert "NORTH differs" in capsys.readouterr().err
    assert run("--gap", "3600", str(paths["B"])) == 1
    assert "no two receivers" in capsys.readouterr().err
    (tmp_path / "net.book").write_bytes(b"APRSBOOK 3 30\nEND 0\n")
    assert run(str(tmp_path)) == 1 and "give the logs" in capsys.readouterr().err
    (tmp_path / "net.book").unlink()
    paths["B"].write_bytes(log("COAST", right)[:-1])
    assert run(str(tmp_path)) == 1 and "B.log: line 10: no line" in capsys.readouterr().err


@pytest.mark.parametrize("octets", [b"no gzip", gzip.compress(b"x" * 99, mtime=0)[:-9]])
def test_a_log_that_cannot_be_unpacked_is_named(tmp_path: pathlib.Path, octets: bytes) -> None:
    (tmp_path / "A.log.gz").write_bytes(octets)
    said = tried("clocks", tmp_path, status=1).stderr.decode()
    assert "A.log.gz: can't be unpacked to its end" in said and said.count("\n") == 1


def test_the_evening() -> None:
    program("aprsbook-table")
    done = tried("clocks", *EVENING)
    ahead = {(it["receiver"], it["other"]): it["ahead"] for it in named(done.stdout.decode())}
    assert ahead == {
        ("COAST", "HILL"): "+0.000", ("COAST", "NORTH"): "-1.000", ("HILL", "NORTH"): "-1.000"}


def test_each_of_two_wrong_receivers_is_named() -> None:
    """No receiver is in all spans that differ."""
    def span(one: str, other: str, ahead: int) -> Span:
        return Span(one, other, tuple(Both(1000 * ahead, 0, it, it) for it in range(3)))
    clocks = {"A": 0, "B": -3600, "C": 1, "D": -45}
    found = [span(one, other, clocks[one] - clocks[other])
             for one in clocks for other in clocks if one < other]
    assert clock_offsets.wrong(found, 30) == ["B", "D"]
    assert clock_offsets.wrong(found, 50) == ["B"]
    assert clock_offsets.wrong(found[:1], 30) == ["A", "B"]
    # where no more agree than elsewhere nobody is right
    even = [span("A", "C", 0), span("B", "D", 0), span("A", "B", 100), span("C", "D", 100)]
    assert clock_offsets.wrong(even, 30) == []
