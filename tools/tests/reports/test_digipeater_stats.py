"""For the keeper of a digipeater."""
import gzip
import pathlib
from typing import List

import pytest
from standing import Programs, place, row, table_text

from aprsbook_tools.books import receptions
from aprsbook_tools.books.receptions import Reception
from aprsbook_tools.formats import log_file, moments
from aprsbook_tools.geo import DEGREE_METRES, Spot
from aprsbook_tools.reports import digipeater_stats, table


def heard(
    clock: str, source: str, via: str = "", receiver: str = "RX1", **more: object
) -> Reception:
    it = row(
        "status",
        clock,
        source,
        via=tuple(filter(None, via.split(","))),
        receiver=receiver,
        receivers=(receiver,),
        **more,
    )
    return Reception(moments.milliseconds(it.first), it)


def seen(clock: str, source: str, north: float, via: str = "") -> Reception:
    it = place(clock, source, north, -3.5, via=tuple(filter(None, via.split(","))))
    return Reception(moments.milliseconds(it.first), it)


@pytest.mark.parametrize(
    "via, wanted",
    [
        ("", []),
        ("WIDE1-1,WIDE2-1", []),
        ("Q1DIG*,WIDE1*", ["Q1DIG"]),
        ("Q1DIG,WIDE1*", ["WIDE1"]),
        ("Q1DIG*,Q1TOP*,WIDE2", ["Q1DIG", "Q1TOP"]),
        ("WIDE1*,WIDE2-2*", ["WIDE2-2"]),
        ("RELAY*", ["RELAY"]),
        ("Q1DIG*,WIDE2-1", ["Q1DIG"]),
    ],
)
def test_who_repeated_a_frame(via: str, wanted: List[str]) -> None:
    assert digipeater_stats.digipeaters_of(heard("18:00", "Q1A", via).row) == wanted


def test_hops() -> None:
    some = [
        heard("18:00", "Q1A"),
        heard("18:01", "Q1A", "Q1DIG*"),
        heard("18:02", "Q1A", "Q1DIG*,Q1TOP*"),
        heard("18:03", "Q1B", "Q1DIG*"),
        heard("18:04", "Q1B", gate="Q1IGT"),
    ]
    assert digipeater_stats.hops_of(some) == [("RX1", 0, 1), ("RX1", 1, 2), ("RX1", 2, 1)]


def test_hours() -> None:
    some = [heard("18:00", "Q1A"), heard("18:59", "Q1A", "Q1DIG*"), heard("19:00", "Q1A")]
    hours = digipeater_stats.hours_of(some)
    assert [(it[0], moments.text_of(it[1])[11:16], *it[2:]) for it in hours] == [
        ("RX1", "18:00", 2, 1),
        ("RX1", "19:00", 1, 1),
    ]


def test_who_repeats_whom() -> None:
    """The second digipeater repeats the first one, and not the station. Two receivers that heard
    the same don't make two of it."""
    some = [
        heard("18:00", "Q1A", "Q1DIG*,Q1TOP*"),
        heard("18:00", "Q1A", "Q1DIG*", "RX2"),
        heard("18:01", "Q1A", "Q1DIG*", "RX2"),
        heard("18:02", "Q1A"),
    ]
    rows = [(it.row, 1) for it in some]
    assert digipeater_stats.repeats_of(rows) == [("Q1DIG", "Q1A", 2), ("Q1TOP", "Q1DIG", 1)]
    rows = [(some[0].row, 3), (some[1].row, 7), (some[0].row, 2)]
    assert digipeater_stats.repeats_of(rows) == [("Q1DIG", "Q1A", 7), ("Q1TOP", "Q1DIG", 5)]


def late(*frames: "tuple[float, str]", receiver: str = "RX1") -> "list[list[object]]":
    """Who is late of copies of one frame, each so many seconds after 18:00 over this path."""
    zero = heard("18:00", "Q1A", receiver=receiver).moment
    some = [
        Reception(zero + round(1000 * at), heard("18:00", "Q1A", via, receiver).row)
        for at, via in frames]
    return [[it.digipeater, it.late, it.frames, it.delay / 1000]
            for it in digipeater_stats.delays_of(some, 30_000)]


def test_who_repeats_late() -> None:
    """31 seconds late, and nothing named it."""
    for delay in 30.001, 31, 90:
        assert late((0, ""), (delay, "Q1DIG*")) == [["Q1DIG", 1, 1, delay]]
    for delay in 0, 1, 29, 30, 90.001:
        assert late((0, ""), (delay, "Q1DIG*")) == []
    # beacons each 20 seconds
    each = [(20 * it + delay, via) for it in range(10) for delay, via in ((0, ""), (31, "Q1DIG*"))]
    assert late(*sorted(each)) == []  # which of them was repeated nobody knows
    each = [(60 * it + delay, via) for it in range(10) for delay, via in ((0, ""), (31, "Q1DIG*"))]
    assert late(*sorted(each)) == [["Q1DIG", 10, 10, 31]]
    # a direct copy that wasn't heard makes none late, and who repeats the late one isn't late
    assert late((0, ""), (1, "Q1DIG*"), (61, "Q1DIG*")) == []
    assert late((0, ""), (31, "Q1DIG*"), (32, "Q1DIG*,Q1TOP*")) == [["Q1DIG", 1, 1, 31]]
    assert late((0, "Q1TOP*"), (31, "Q1DIG*,WIDE2-1")) == [["Q1DIG", 1, 1, 31]]


def test_what_one_receiver_heard_is_late_to_it_alone() -> None:
    some = [heard("18:00", "Q1A"), heard("18:01", "Q1A", "Q1DIG*", "RX2"),
            heard("18:01", "Q1A", "Q1DIG*", text="another")]
    assert digipeater_stats.delays_of(some, 30_000) == []


def test_who_is_heard_direct() -> None:
    some = [
        heard("18:00", "Q1A"),
        heard("18:00:01", "Q1A", "Q1DIG*"),
        heard("18:01", "Q1B", "Q1DIG*"),
        heard("18:02", "Q1A", gate="Q1IGT"),
        seen("18:03", "Q1A", 55),
    ]
    [it] = digipeater_stats.direct_of(some)
    assert (it.receiver, it.call, it.direct, it.frames, it.spot) == (
        "RX1",
        "Q1A",
        2,
        3,
        Spot(55, -3.5),
    )


def test_the_farthest_that_was_heard_direct() -> None:
    some = [
        seen("18:00", "Q1A", 55),
        seen("18:01", "Q1A", 56),
        seen("18:02", "Q1A", 58, "Q1DIG*"),
        seen("18:03", "Q1B", 54),
    ]
    far = digipeater_stats.farthest_of(some, {"RX1": Spot(54.5, -3.5)})
    assert [(it.call, round(it.metres), round(it.degrees)) for it in far] == [
        ("Q1A", round(1.5 * DEGREE_METRES), 0),
        ("Q1B", round(0.5 * DEGREE_METRES), 180),
    ]
    assert digipeater_stats.farthest_of(some, {}) == []


LINES = [
    "2024-06-21T18:00:01.000Z RX2 c0c0",
    "2024-06-21T18:00:00Z RX1 c000c0",
    "2024-06-21T18:00:00.500Z RX1 c000c0",
]


def test_each_line_has_a_moment_of_its_own(
    programs: Programs, monkeypatch: pytest.MonkeyPatch
) -> None:
    """A book has one row for the copies of a frame: it doesn't say who was heard direct."""
    given = []

    def lines_of(kind: type, inputs: List[str], gap: int, log: bytes) -> List[str]:
        given.append((gap, [log_file.read_line(line) for line in log.splitlines()]))
        rows = [
            row("status", "18:00", f"Q1A-{line[20]}", first=line[:24], last=line[:24])
            for line in log.decode().splitlines()[1:]
        ]
        return table_text(table.Row, rows).splitlines()

    monkeypatch.setattr(table, "lines_of", lines_of)
    (programs.folder / "a.log").write_text("\r\n".join(LINES[1:]) + "\r\n2024-06-21T18:0")
    (programs.folder / "b.log.gz").write_bytes(gzip.compress((LINES[0] + "\n").encode()))
    (programs.folder / "a.log.gz").write_bytes(gzip.compress((LINES[1] + "\n").encode()))
    found = receptions.receptions_of(["b.log.gz", "a.log", "a.log.gz"])
    [(gap, lines)] = given
    firsts = [line.moment for line in lines if line]
    assert all(other - one > 1000 * gap for one, other in zip(firsts, firsts[1:]))
    assert [(line.receiver, line.digits) for line in lines if line] == [
        ("RX1", b"c000c0"),
        ("RX1", b"c000c0"),
        ("RX2", b"c0c0"),
    ]
    # the first held no frame
    assert [moments.text_of(it.moment)[17:23] for it in found] == ["00.500", "01.000"]


@pytest.mark.parametrize(
    "text, words",
    [
        ("APRSBOOK 3 30\nEND 0\n", "is a book"),
        (LINES[0] + "\nx\n", "line 2 is no whole line of a log"),
        ("no log, and no line feed", "line 1 is no whole line of a log"),
        (LINES[0] + "\n" + "\0" * 9, "line 2 is no whole line of a log"),
    ],
)
def test_what_is_no_log_is_refused(programs: Programs, text: str, words: str) -> None:
    (programs.folder / "in").write_text(text)
    programs.run("keeper", "in", status=1)
    assert words in programs.said


def fill(programs: Programs) -> None:
    (programs.folder / "net.log").write_text("\n".join(LINES) + "\n")
    shifted = [
        {"first": moments.text_of(receptions.APART * n), "last": moments.text_of(0)}
        for n in range(3)
    ]
    programs.say(
        place("18:00", "Q1A", 54.6, -3.5, **shifted[0]),
        place("18:00", "Q1DIG", 54.5, -3.5, **shifted[1]),
        row("status", "18:00", "Q1B", via=("Q1DIG*",), receiver="RX2", **shifted[2]),
    )


@pytest.mark.parametrize(
    "part, wanted",
    [
        (
            "direct",
            [
                ["RX1", "Q1A", "1", "1", "2024-06-21T18:00:00.000Z", "Hut"],
                ["RX1", "Q1DIG", "1", "1", "2024-06-21T18:00:00.500Z", ""],
            ],
        ),
        ("hops", [["RX1", "0", "2"], ["RX2", "1", "1"]]),
        ("hours", [["RX1", "2024-06-21T18", "2", "2"], ["RX2", "2024-06-21T18", "1", "0"]]),
        ("repeats", [["Q1DIG", "Q1B", "1"]]),
        (
            "farthest",
            [
                ["RX1", "Q1A", "11.1", "0", "2024-06-21T18:00:00.000Z", "Hut"],
                ["RX1", "Q1DIG", "0.0", "0", "2024-06-21T18:00:00.500Z", ""],
            ],
        ),
    ],
)
def test_the_parts(programs: Programs, part: str, wanted: "list[list[str]]") -> None:
    fill(programs)
    (programs.folder / "names").write_text("Q1A Hut\n")
    words = ["keeper", "--part", part, "--roster", "names", "--at", "q1dig", "net.log"]
    assert programs.lines(*words)[1:] == wanted
    assert programs.run(*words[:-2], "RX1=54.5,-3.5", "net.log").count("\n") == len(wanted) + 1


def test_all_parts(programs: Programs, tmp_path: pathlib.Path) -> None:
    fill(programs)
    text = programs.run("keeper", "net.log")
    assert [it.split("\n")[0] for it in text.split("\n\n")[::2]] == [
        "direct",
        "hops",
        "hours",
        "repeats",
        "delays",
    ]
    programs.run("keeper", "-o", "net.log", "net.log", status=2)


@pytest.mark.parametrize(
    "at, status", [("Q1C", 1), ("91,0", 2), ("1.2.3,4", 2), ("x y", 2), ("QQQQQQQ", 2)]
)
def test_no_place_is_refused(programs: Programs, at: str, status: int) -> None:
    fill(programs)
    programs.run("keeper", "--at", at, "net.log", status=status)
    assert f"--at {at}: " in programs.said


@pytest.mark.parametrize("octets, words", [
    (b"", "it is empty, which no packed file is"), (b"text", "Not a gzipped file"),
    (gzip.compress(b"text", mtime=0)[:-1], "ended before")])
def test_why_a_packed_log_cannot_be_read(programs: Programs, octets: bytes, words: str) -> None:
    (programs.folder / "RX1.log.gz").write_bytes(octets)
    programs.run("keeper", "RX1.log.gz", status=1)
    assert programs.said.startswith("aprs-net: RX1.log.gz: can't be read to its end (")
    assert words in programs.said
