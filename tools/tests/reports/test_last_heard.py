"""Who was heard last, and who of those expected wasn't."""
import collections
import itertools
import pathlib
import re
from typing import Dict, List, Tuple

import pytest
from hypothesis import given
from hypothesis import strategies as st
from standing import Programs, at, place, row, table_text

from aprsbook_tools.reports import last_heard, receiver_clocks, table
from aprsbook_tools.reports.last_heard import Heard


def test_who_never_sent_a_position_was_heard(programs: Programs) -> None:
    """The table of stations has the moment of the last position: none of these."""
    programs.say(
        row("message", "18:04", "Q1A", name="Q1B"), table.Station(source="Q1A", transmissions=1)
    )
    assert programs.lines("last-heard", "net.log")[1:] == [
        [at("18:04"), "RX1", "Q1A", "1", "", "0"]]


def test_who_was_heard_last(programs: Programs, tmp_path: pathlib.Path) -> None:
    (tmp_path / "names").write_text("q1b-7 Leader\n")
    programs.say(
        row("status", "18:05", "Q1A"),
        place("18:03", "Q1A", 1, 2),
        row("message", "18:04", "Q1A", name="Q1B"),
        row("raw", "18:01", "Q1B-7", receiver="RX2"),
    )
    assert programs.lines("last-heard", "--roster", "names", "net.log") == [
        ["last", "receiver", "call", "transmissions", "name", "passed"],
        [at("18:01"), "RX2", "Q1B-7", "1", "Leader", "0"],
        [at("18:05"), "RX1", "Q1A", "3", "", "0"],
    ]


def test_who_wasn_t_heard(programs: Programs, tmp_path: pathlib.Path) -> None:
    (tmp_path / "names").write_text(
        "# who should be there\nQ1RUNS the other\r\n\nq1run-* sweepers, 2\nQ1GONE gone\nQ1RUN\n"
    )
    programs.say(
        row("status", "18:00", "Q1RUN-7"),
        row("status", "18:05", "Q1RUN", receiver="RX2"),
        row("status", "18:01", "Q1RUN-8"),
        row("mic-e", "18:00", "Q1RUN-8"),
        row("raw", "18:02", "Q1RUNS"),
    )
    assert programs.lines("roster", "--roster", "names", "net.log")[1:] == [
        ["never", "", "Q1GONE", "0", "", "gone", "", "0"],
        [at("18:02"), "RX1", "Q1RUNS", "1", "Q1RUNS", "the other", "", "0"],
        [at("18:05"), "RX2", "Q1RUN-*", "4", "Q1RUN", "sweepers, 2", "", "0"],
        [at("18:05"), "RX2", "Q1RUN", "1", "Q1RUN", "", "", "0"],
    ]


def test_a_gate_that_passes_on_all_it_sends_was_heard(programs: Programs, tmp_path: pathlib.Path
                                                      ) -> None:
    """It was never heard to `roster` and `watch`, and wasn't there in `last-heard`."""
    (tmp_path / "names").write_text("Q1GATE-10 Gate\nQ1NET Control\n")
    programs.say(
        row("message", "18:04", "Q1NET", gate="Q1GATE-10", name="Q1B"),
        row("status", "18:05", "Q1NET", gate="Q1GATE-10", receiver="RX2", receivers=("RX2",)),
        row("raw", "18:06", "", gate="Q1GATE-10"),
        row("raw", "18:06", "Q1 RUN", gate="Q1GATE-10"),
        row("raw", "18:03", "}Q1A", gate="Q1GATE-10"),
    )
    assert programs.lines("last-heard", "net.log")[1:] == [
        [at("18:05"), "RX2", "Q1NET", "2", "", "0"],
        [at("18:06"), "RX1", "Q1GATE-10", "0", "", "5"],
    ]
    assert programs.lines("roster", "--fail", "--roster", "names", "net.log")[1:] == [
        [at("18:05"), "RX2", "Q1NET", "2", "Q1NET", "Control", "", "0"],
        [at("18:06"), "RX1", "Q1GATE-10", "0", "Q1GATE-10", "Gate", "", "5"],
    ]


def by(name: str, clock: str, source: str, text: str) -> table.Row:
    """A status that one receiver heard."""
    return row("status", clock, source, text=text, receiver=name, receivers=(name,))


# A and B agree; C, an hour ahead, heard what they heard, and Q1C alone; rows are in a book's order
HOUR_AHEAD = [
    by("C", "19:06", "Q1C", "late"),
    row("status", "18:00", "Q1X", text="1", receivers=("A", "B")),
    by("C", "19:00", "Q1X", "1"),
    row("status", "18:10", "Q1X", text="2", receivers=("A", "B")),
    by("C", "19:10", "Q1X", "2"),
    row("status", "18:08", "Q1Y", text="3", receivers=("A", "B"), receiver="B"),
]


def test_one_clock_an_hour_ahead_makes_nobody_last(programs: Programs) -> None:
    programs.say(*HOUR_AHEAD)
    assert [it[:4] for it in programs.lines("last-heard", "net.log")[1:]] == [
        [at("19:06"), "C", "Q1C", "1"],
        [at("18:08"), "B", "Q1Y", "1"],
        [at("18:10"), "RX1", "Q1X", "4"],
    ]
    assert programs.said == ("aprs-net: the clock of C is about 3600 seconds ahead of the others, "
                             "and that is allowed for (aprs-net clocks says it exactly)\n")


def test_copies_that_came_another_way_say_that_a_clock_is_wrong(programs: Programs) -> None:
    """What C heard through a digipeater is of the same text; of a time it wasn't."""
    programs.say(*(it._replace(via=("Q1DIGI*",)) if it.receiver == "C" else it
                   for it in HOUR_AHEAD))
    heard = programs.lines("last-heard", "--from", "2024-06-21T18:09", "net.log")[1:]
    assert [it[:4] for it in heard] == [[at("18:10"), "RX1", "Q1X", "2"]]


def test_a_text_of_nine_rows_says_nothing_of_a_clock() -> None:
    """It has no partner that would be sure; one of eight has."""
    def beacons(text: str, names: str) -> List[table.Row]:
        """One a minute, each heard by another receiver."""
        return [by(name, f"18:{it:02}", f"Q1{text}", text) for it, name in enumerate(names)]
    rows = [*beacons("X", "BA"), *beacons("Y", "BA"), *beacons("Z", "CDEFGHIJK"),
            *beacons("W", "LMNOPQRS")]
    pairs, names = receiver_clocks.Pairs(), last_heard.COLUMNS
    shown = table.columns(table.Row, table_text(table.Row, rows).splitlines(), names=names)
    assert sum(len(it[0]) for it in pairs.noted(shown, names)) == len(rows)
    assert pairs.apart.pop(("A", "B")) == [60_000] * 2
    assert len(pairs.apart) == 8 * 7 // 2 and pairs.apart["L", "S"] == [-7 * 60_000]


@pytest.mark.parametrize("size", [1, 2, 3, 7, 100])
def test_a_text_goes_on_where_rows_come_in_parts(monkeypatch: pytest.MonkeyPatch, size: int
                                                 ) -> None:
    monkeypatch.setattr(table, "BATCH", size)
    test_a_text_of_nine_rows_says_nothing_of_a_clock()


def text_in(it: table.Row) -> Tuple[object, ...]:
    """What a row tells, but for when, by whom and by which way it was heard."""
    return tuple(value for name, value in zip(it._fields, it)
                 if name not in ("kind", "first", "last", "receivers", "receiver", "via"))


def heard_row_by_row(rows: List[table.Row]) -> List[Heard]:
    """What `heard_of` finds, of one row after another, each of which is a tuple."""
    pairs = receiver_clocks.Pairs()
    counts: Dict[Tuple[str, str], List[int]] = {}
    last: Dict[Tuple[str, str], Tuple[str, str]] = {}
    for _, own in itertools.groupby(rows, text_in):
        alike = [*own]
        pairs.compare([it.first for it in alike], [",".join(it.receivers) for it in alike])
    for it in rows:
        names = ",".join(it.receivers)
        pairs.together[names] += 1
        for what, call in enumerate([it.source, it.gate] if it.gate else [it.source]):
            counts.setdefault((call, names), [0, 0])[what] += 1
            last[call, names] = max(last.get((call, names), ("", "")), (it.last, it.receiver))
    ahead, found = pairs.wrong(30), collections.defaultdict(list)
    for (call, names), (moment, receiver) in last.items():
        right = receiver_clocks.moment_of(moment, names, ahead)
        sent, passed = counts[call, names]
        found[call].append(Heard(call, sent, moment, receiver, passed, right))
    return [last_heard.joined(found[call]) for call in sorted(found) if " " not in call]


Told = Tuple[int, int, str, str, str, str, str, Tuple[str, ...]]
LISTS = ["A", "B", "C", "A,B", "A,B,C", "D"]
CALLS = st.sampled_from(["Q1A", "Q1B-7", "Q 1"])
TOLD = st.tuples(
    st.integers(0, 59), st.integers(0, 59), st.sampled_from(LISTS), CALLS,
    st.sampled_from(["", "", "Q1GATE"]), st.sampled_from(["APRS", "APX"]),
    st.sampled_from(["one", "two"]), st.sampled_from([(), ("Q1DIGI*",)]))


@pytest.mark.parametrize("size", [1, 3, 200])
@given(st.lists(TOLD, max_size=40), st.booleans())
def test_columns_tell_what_rows_tell(size: int, told: List[Told], is_sorted: bool) -> None:
    rows = [row("status", f"18:{first:02}", source, last=at(f"18:{last:02}"), gate=gate, via=via,
                receivers=tuple(names.split(",")), receiver=names.split(",")[last % 2 - 1],
                destination=to, text=text)
            for first, last, names, source, gate, to, text, via in told]
    rows = sorted(rows, key=text_in) if is_sorted else rows
    lines = table_text(table.Row, rows).splitlines()
    with pytest.MonkeyPatch.context() as patch:
        patch.setattr(table, "BATCH", size)
        found = last_heard.heard_of(
            table.columns(table.Row, lines, names=last_heard.COLUMNS))
    assert found == heard_row_by_row(rows)


def test_a_time_is_that_of_clocks_that_are_right(programs: Programs, tmp_path: pathlib.Path
                                                 ) -> None:
    """Q1C was heard at 18:06, which the receiver called 19:06."""
    (tmp_path / "names").write_text("Q1C\n")
    programs.say(*HOUR_AHEAD)
    words = "roster", "--fail", "--roster", "names", "net.log"
    programs.run(*words, "--from", "2024-06-21T18:30", status=5)
    programs.run(*words, "--from", "2024-06-21T18:06", status=0)
    programs.run(*words, "--to", "2024-06-21T18:06", status=5)
    heard = programs.lines("last-heard", "--from", "2024-06-21T18:09", "net.log")[1:]
    assert [it[:4] for it in heard] == [[at("18:10"), "RX1", "Q1X", "2"]]


def test_a_line_that_isn_t_understood_ends_it(programs: Programs, tmp_path: pathlib.Path) -> None:
    (tmp_path / "names").write_text("Q1RUN-77 x\nQ1A\nQ1-A\n")
    assert programs.run("roster", "--roster", "names", "net.log", status=1) == ""
    assert programs.said == (
        "aprs-net: names: line 1: 'Q1RUN-77' is no call; line 3: 'Q1-A' is no call\n"
    )
    programs.run("roster", "--roster", "nowhere", "net.log", status=1)
    assert "nowhere" in programs.said


def test_a_roster_in_utf_16(programs: Programs, tmp_path: pathlib.Path) -> None:
    (tmp_path / "names").write_bytes("call\tname\r\nQ1A\tHütte\r\n".encode("utf-16"))
    programs.say(row("status", "18:00", "Q1A"))
    assert programs.lines("roster", "--roster", "names", "net.log")[1][5] == "Hütte"


def test_a_roster_in_another_coding_is_refused(programs: Programs, tmp_path: pathlib.Path) -> None:
    (tmp_path / "names").write_bytes("Q1B\nQ1A Hütte\n".encode("latin-1"))
    programs.run("roster", "--roster", "names", "net.log", status=1)
    assert programs.said == "aprs-net: names: line 2 isn't in UTF-8\n"


def test_the_roster_is_no_output(programs: Programs, tmp_path: pathlib.Path) -> None:
    (tmp_path / "names").write_text("Q1A\n")
    programs.run("roster", "-o", "names", "names", "net.log", status=2)
    assert (tmp_path / "names").read_text() == "Q1A\n"


@pytest.mark.parametrize(("text", "wanted"), [
    ("Q1A", True), ("Q1A-7", True), ("q1abcdefg-15", True), ("Q1A-AB", True), ("1", True),
    ("", False), ("-7", False), ("Q1A-", False), ("Q1A-157", False), ("Q1ABCDEFGH", False),
    ("Q1A-1-2", False), ("Q1\u00c4", False), ("Q1\u0661", False), ("Q1 A", False),
    ("Q1A\n", False)])
def test_what_is_a_call(text: str, wanted: bool) -> None:
    assert last_heard.is_call(text) == wanted


@given(st.binary(max_size=12).map(lambda it: bytes(octet & 1 for octet in it)))
def test_runs_of_rows(alike: bytes) -> None:
    """Each row but the last of a run has the text of the next; the last run may go on."""
    last = alike.rfind(b"\0") + 1
    wanted = [slice(it.start(), it.end() + 1) for it in re.finditer(b"\1+", alike[:last])]
    assert [*receiver_clocks.runs_in(alike, last)] == wanted
