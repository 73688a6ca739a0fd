"""The reports of logs, by aprsbook and aprsbook-table; left out where these are missing."""
import json
import pathlib
import random
import re
import sqlite3
from typing import Any, Dict, Iterable, List, Tuple, Type, TypeVar

import pytest
from conftest import EVENING, named, program, run, tried
from hypothesis import given, settings
from hypothesis import strategies as st

from aprsbook_tools.formats import ax25, kiss, log_file, moments
from aprsbook_tools.formats.spreadsheet import read_csv
from aprsbook_tools.reports import table
from aprsbook_tools.reports.table import Message, Row

T = TypeVar("T")

# moment of that evening, source, what it sends, and perhaps over whom, and who hears it
Sent = Tuple[str, str, str]


@pytest.fixture(autouse=True)
def programs_are_there(tmp_path: pathlib.Path, monkeypatch: pytest.MonkeyPatch) -> None:
    program("aprsbook")
    program("aprsbook-table")
    monkeypatch.chdir(tmp_path)


def line(clock: str, source: str, text: str, path: str = "APRS", receiver: str = "RX1") -> bytes:
    """A line of a log."""
    frame = ax25.frame(source, path, text.encode())
    moment = moments.milliseconds(f"2024-06-21T{clock}Z")
    return log_file.of_frame(moment, receiver, kiss.wrap(frame)).write()


def log_of(sent: Iterable[Sent]) -> bytes:
    return b"".join(line(*it) for it in sent)


def told(*words: str, given: bytes = b"") -> List[Dict[str, str]]:
    """The lines that a command prints, by the names of their columns."""
    return named(tried(*words, given=given).stdout.decode())


def picked(lines: Iterable[Dict[str, str]], *names: str) -> List[List[str]]:
    """These columns of lines."""
    return [[it[name] for name in names] for it in lines]


def sheet(*words: str, given: bytes = b"") -> List[Dict[str, str]]:
    """The lines of CSV that a command prints, by the names of their columns."""
    names, *rows = read_csv(tried(*words, given=given).stdout.decode())
    return [dict(zip(names, it)) for it in rows]


def table_of(kind: Type[T], *inputs: str, given: bytes = b"") -> List[T]:
    """The table itself."""
    text = run("aprsbook-table", table.WORDS[kind], *inputs, given=given).decode()
    return [*table.read(kind, text.splitlines())]


def test_who_repeated_whom_is_the_same_in_the_page_and_of_keeper() -> None:
    keeper = picked(told("keeper", "--part", "repeats", *EVENING), "digipeater", "from", "frames")
    page = tried("page", "--coast", "rough", *EVENING).stdout.decode()
    [data] = re.findall('<script type="application/json" id="data">(.*?)</script>', page, re.S)
    assert json.loads(data)["repeats"] == "".join("\t".join(it) + "\n" for it in keeper)
    assert len(keeper) > 1


def test_an_ack_of_an_earlier_message_is_none_of_a_later_one() -> None:
    """The form said `ack` of a message that nobody acknowledged: its number was used before."""
    log = log_of(
        [
            ("18:00:00", "Q1A", ":Q1B      :one{7"),
            ("18:01:00", "Q1B", ":Q1A      :ack7"),
            ("19:00:00", "Q1A", ":Q1B      :two{7"),
        ]
    )
    state = {it["message"]: it["state"] for it in sheet("ics-309", "--format", "csv", given=log)}
    assert state == {"one": "acknowledged", "two": "unanswered"}
    assert state == {it.text: it.state for it in table_of(Message, given=log)}


def test_a_message_that_was_rejected_and_acknowledged_later() -> None:
    log = log_of(
        [
            ("18:00:00", "Q1A", ":Q1B      :one{8"),
            ("18:01:00", "Q1B", ":Q1A      :rej8"),
            ("18:02:00", "Q1B", ":Q1A      :ack8"),
        ]
    )
    [it] = table_of(Message, given=log)
    [row] = sheet("ics-309", "--format", "csv", given=log)
    # the first answer decides
    assert [row["message"], row["state"]] == ["one", "rejected"] == [it.text, it.outcome]


def test_messages_of_the_evening() -> None:
    wanted = [
        [it.first, it.source, it.id, it.addressee, it.text, it.state]
        for it in table_of(Message, *EVENING)
    ]
    rows = sheet("ics-309", "--format", "csv", *EVENING)
    names = "time", "from", "number", "to", "message", "state"
    assert sorted(picked(rows, *names)) == sorted(wanted) and len(rows) > 5
    assert [it["time"] for it in rows] == sorted(it["time"] for it in rows)


def test_last_heard_of_the_evening() -> None:
    last: Dict[str, str] = {}
    for path in EVENING:
        for text in run("aprsbook", "convert", "log", path).splitlines():
            read = log_file.read_line(text)
            assert read is not None
            call = ax25.call_of(kiss.unwrap(bytes.fromhex(read.digits.decode())[1:-1])[7:14])
            heard = f"{moments.text_of(read.moment)} {read.receiver}"
            last[call] = max(last.get(call, ""), heard)
    stations = told("last-heard", *EVENING)
    assert {it["call"]: f"{it['last']} {it['receiver']}" for it in stations} == last


def test_a_roster(tmp_path: pathlib.Path) -> None:
    log = log_of(
        [("18:00:00", "Q1RUN-7", ">a"), ("18:01:00", "Q1RUN-8", ">c"), ("18:02:00", "Q1RUNS", ">d")]
    ) + line("18:05:00", "Q1RUN", ">b", receiver="RX2")
    (tmp_path / "names").write_text(
        "Q1RUNS the other\n\nq1run-* sweepers, 2\nQ1GONE gone\nQ1RUN-0\n"
    )
    lines = told("roster", "--roster", "names", given=log)
    assert picked(lines, "last", "receiver", "call", "transmissions") == [
        ["never", "", "Q1GONE", "0"],
        ["2024-06-21T18:02:00.000Z", "RX1", "Q1RUNS", "1"],
        ["2024-06-21T18:05:00.000Z", "RX2", "Q1RUN-*", "3"],
        ["2024-06-21T18:05:00.000Z", "RX2", "Q1RUN", "1"],
    ]


def test_checkpoints(tmp_path: pathlib.Path) -> None:
    # by thousandths of a degree of latitude, each of 111.2 metres
    log = log_of(
        (f"18:0{minute}:00", source, f"!54{30 + part:05.2f}N/00330.00W>")
        for minute, source, part in [
            (0, "Q1A", 0.00),
            (1, "Q1A", 0.06),
            (2, "Q1A", 0.12),
            (3, "Q1B", 0.12),
            (4, "Q1B", 0.06),
        ]
    )
    log += line("18:07:00", "Q1SHIP", "!6000.00N/17959.94E>")
    log += line("18:05:00", "Q1C", "!5430.  N/00330.  W>")
    (tmp_path / "points").write_text("Half way 54.501 -3.5 60\nDate line 60 -179.999 200\n")
    lines = told("passed", "--points", "points", given=log)
    # 111.2 metres a minute: 60 metres are 32.4 seconds
    assert picked(lines, "checkpoint", "name", "metres") == [
        ["Half way", "Q1A", "0"],
        ["Half way", "Q1B", "0"],
        ["Date line", "Q1SHIP", "111"],
    ]
    assert [it["came"][:19] for it in lines] == [
        f"2024-06-21T{clock}" for clock in ("18:00:27", "18:03:27", "18:07:00")
    ]


def test_utf_8_and_heights() -> None:
    log = log_of([("18:00:00", "Q1FLY", "!5432.58N/00327.36W'088/036/A=001000 Käppeli ☂")])
    rows = sheet("tracks", "--format", "csv", given=log)
    assert picked(rows, "symbol", "course", "speed_knots", "altitude_m", "comment") == [
        ["/'", "88", "36", "304.8", "088/036/A=001000 Käppeli ☂"]
    ]
    assert "<ele>304.8</ele>" in tried("tracks", "--format", "gpx", given=log).stdout.decode()


def test_the_database(tmp_path: pathlib.Path) -> None:
    tried("sqlite", "net.db", *EVENING)
    base = sqlite3.connect(tmp_path / "net.db")
    [[n]] = base.execute("select count(*) from transmissions").fetchall()
    assert run("aprsbook", "merge", *EVENING).endswith(b"\nEND %d\n" % n)
    types = base.execute(
        "select distinct typeof(latitude) from transmissions order by 1"
    ).fetchall()
    assert types == [("null",), ("real",)]
    [[last]] = base.execute("select count(*) from places").fetchall()
    assert last == len(told("places", "--last", *EVENING))
    base.close()


def test_a_book_of_another_gap_says_its_gap(tmp_path: pathlib.Path) -> None:
    """Reports wanted --gap for such a book."""
    (tmp_path / "wide.book").write_bytes(run("aprsbook", "merge", "--gap", "60", *EVENING))
    assert told("last-heard", "wide.book") == told("last-heard", "--gap", "60", *EVENING)
    tried("last-heard", "--gap", "30", "wide.book", status=1)


def test_the_keeper(tmp_path: pathlib.Path) -> None:
    log = (
        line("18:00:00", "Q1A", "!5430.00N/00330.00W>")
        + line("18:00:01", "Q1A", "!5430.00N/00330.00W>", "APRS,Q1DIG*,WIDE1*")
        + line("18:00:02", "Q1A", "!5430.00N/00330.00W>", "APRS,Q1DIG*,Q1TOP*,WIDE2*")
        + line("18:01:00", "Q1B", ">far", "APRS,Q1DIG*,WIDE1*")
    )
    (tmp_path / "rx.log").write_bytes(log)
    # a book has one row of the first three, heard over two digipeaters
    direct = told("keeper", "--part", "direct", "rx.log")
    assert picked(direct, "receiver", "call", "direct", "frames") == [["RX1", "Q1A", "1", "3"]]
    hops = told("keeper", "--part", "hops", "rx.log")
    assert picked(hops, "receiver", "hops", "frames") == [
        ["RX1", "0", "1"],
        ["RX1", "1", "2"],
        ["RX1", "2", "1"],
    ]
    repeats = told("keeper", "--part", "repeats", "rx.log")
    assert picked(repeats, "digipeater", "from", "frames") == [
        ["Q1DIG", "Q1A", "2"],
        ["Q1DIG", "Q1B", "1"],
        ["Q1TOP", "Q1DIG", "1"],
    ]
    far = told("keeper", "--part", "farthest", "--at", "55.5,-3.5", "rx.log")
    assert picked(far, "call", "km", "degrees") == [["Q1A", "111.2", "180"]]


def test_an_emergency(tmp_path: pathlib.Path) -> None:
    """Of Mic-E, with the message bits 000 (APRS Protocol Reference, chapter 10)."""
    folder = tmp_path / "logs/2024-06-21"
    folder.mkdir(parents=True)
    # 54 degrees 30.00 minutes north, 3 degrees 30.00 minutes west, and the bits 0, 0, 0
    log = line("18:00:00", "Q1A-9", "`y:\x1cl \x1c>/", "543PPP")
    (folder / "RX1.log").write_bytes(log)
    [row] = table_of(Row, given=log)
    assert (row.says, row.latitude, row.longitude) == ("emergency", 54.5, -3.5)
    said = tried("watch", "--emergency", "--day", "2024-06-21", "logs").stdout.decode()
    assert said.startswith("emergency: Q1A-9 reports an emergency")


TEXTS = [
    "!5430.0%dN/00330.00W>",
    ">status %d",
    ";CP1      *111111z5430.0%dN/00330.00W>",
    ";CP1      _111111z5430.0%dN/00330.00W>",
    ")AID!5430.0%dN/00330.00W+",
    ":Q1B      :hi{%d",
    "!5430.0%dN/00330.00W_220/004g005t077",
]
HEARD = st.tuples(
    st.integers(0, 200_000),
    st.sampled_from(["Q1A", "Q1B-7"]),
    st.sampled_from(TEXTS),
    st.integers(0, 3),
    st.sampled_from(["RX1", "RX2"]),
)


@settings(max_examples=5)
@given(st.lists(HEARD, min_size=1, max_size=12), st.randoms(use_true_random=False))
def test_tracks_of_a_log_in_any_order_are_the_same(heard: Any, some: random.Random) -> None:
    log = []
    for at, source, text, number, receiver in heard:
        clock = moments.text_of(moments.milliseconds("2024-06-21T18:00:00Z") + at)[11:23]
        log.append(line(clock, source, text % number, receiver=receiver))
    other = list(log)
    some.shuffle(other)
    for form in "csv", "gpx":
        one = tried("tracks", "--format", form, given=b"".join(log)).stdout
        assert one == tried("tracks", "--format", form, given=b"".join(other)).stdout


def test_tracks_of_the_evening_have_each_place() -> None:
    placed = [it for it in table_of(Row, *EVENING) if it.latitude is not None]
    features = json.loads(tried("tracks", "--format", "geojson", *EVENING).stdout)["features"]
    points = [it for it in features if it["geometry"]["type"] == "Point"]
    assert sorted(
        (it["properties"]["first"], *it["geometry"]["coordinates"]) for it in points
    ) == sorted((it.first, it.longitude, it.latitude) for it in placed)
