"""ICS 309: what the table says of messages, and nothing else."""
import pathlib

import pytest
from standing import Programs, message

from aprsbook_tools.formats.spreadsheet import read_csv
from aprsbook_tools.serving.entries import spelling

HEAD = ["time", "from", "number", "to", "message", "state"]


def test_nobody_acknowledged_and_the_form_doesn_t_say_so(programs: Programs) -> None:
    """The recipe took the ack of another message that had this number before."""
    programs.say(
        message("18:00", "Q1A", "Q1B", "one", id="7", state="acknowledged"),
        message("19:00", "Q1A", "Q1B", "two", id="7"),
    )
    assert programs.run("ics-309", "net.log").splitlines()[5:7] == [
        "2024-06-21 18:00:00  Q1A        7      Q1B        ack     one",
        "2024-06-21 19:00:00  Q1A        7      Q1B        no ack  two",
    ]
    assert [it[5] for it in read_csv(programs.run("ics-309", "--format", "csv", "net.log"))] == [
        "state",
        "acknowledged",
        "unanswered",
    ]


def test_rejected_first_and_acknowledged_later_is_acknowledged(programs: Programs) -> None:
    """The recipe said `rej`, the last that it came upon; the table decides."""
    programs.say(
        message("18:00", "Q1A", "Q1B", "one", id="8", state="acknowledged"),
        message("18:01", "Q1A", "Q1C", "two", id="9", state="rejected"),
    )
    lines = programs.run("ics-309", "net.log").splitlines()
    assert " ack " in lines[5] and " rej " in lines[6]


def test_a_bulletin_has_no_answer(programs: Programs) -> None:
    programs.say(message("18:00", "Q1NET", "BLN1RACE", "Start 1830", state="unnumbered"))
    assert programs.run("ics-309", "net.log").splitlines()[5] == (
        "2024-06-21 18:00:00  Q1NET             BLN1RACE           Start 1830"
    )


@pytest.mark.parametrize(
    "word", ["yesterday", "18:0", "25:00", "2024-06-31", "2024-6-1", "2024-06-21T25", "-2y", ""]
)
def test_no_moment_is_refused(programs: Programs, word: str) -> None:
    """`--from yesterday` made an empty form, with status 0."""
    assert programs.run("ics-309", "--from", word, "net.log", status=2) == ""
    assert "is no moment in UTC" in programs.said


def test_a_time_that_ends_before_it_begins_is_refused(programs: Programs) -> None:
    for until in "2024-06-21", "2024-06-22":
        words = "--from", "2024-06-22", "--to", until
        assert programs.run("ics-309", *words, "net.log", status=2) == ""


@pytest.mark.parametrize(
    "since, until, wanted",
    [
        ("2024-06-21T18:30", "2024-06-21T19", ["two"]),
        ("2024-06-21", "2024-06-22", ["one", "two", "three"]),
        ("2024-06-21T18:30:00.001Z", "2024-06-21T19:00:00.001Z", ["three"]),
    ],
)
def test_a_time(programs: Programs, since: str, until: str, wanted: "list[str]") -> None:
    programs.say(
        message("18:00", "Q1A", "Q1B", "one"),
        message("18:30", "Q1A", "Q1B", "two"),
        message("19:00", "Q1A", "Q1B", "three"),
    )
    words = "--format", "csv", "--from", since, "--to", until
    rows = read_csv(programs.run("ics-309", *words, "net.log"))
    assert [it[4] for it in rows[1:]] == wanted


@pytest.mark.parametrize(
    "word, wanted",
    [
        ("q1net", ["one", "two"]),
        ("Q1NET-0", ["one", "two"]),
        ("q1net-*", ["one", "two", "four"]),
        ("BLN1", ["three"]),
    ],
)
def test_a_station_in_small_letters(programs: Programs, word: str, wanted: "list[str]") -> None:
    """`--station q1net` made an empty form, with status 0."""
    programs.say(
        message("18:00", "Q1NET", "Q1B", "one"),
        message("18:01", "Q1B", "Q1NET", "two"),
        message("18:02", "Q1B", "BLN1", "three"),
        message("18:03", "Q1B", "Q1NET-7", "four"),
    )
    rows = read_csv(programs.run("ics-309", "--format", "csv", "--station", word, "net.log"))
    assert [it[4] for it in rows[1:]] == wanted


def test_utf_8_is_text_on_the_form(programs: Programs) -> None:
    programs.say(message("18:00", "Q1A", "Q1B", "Wasser beim Käppeli ☂ \\"))
    assert "\\xc3" in (programs.folder / "messages.tsv").read_text()
    assert programs.run("ics-309", "net.log").splitlines()[5].endswith("Wasser beim Käppeli ☂ \\")


def test_a_formula_is_text(programs: Programs) -> None:
    programs.say(message("18:00", "Q1A", "Q1B", '=1+1, "x"', id="7"))
    assert programs.run("ics-309", "--format", "csv", "net.log").splitlines() == [
        ",".join(HEAD),
        '2024-06-21T18:00:00.000Z,Q1A,7,Q1B,"\'=1+1, ""x""",unanswered',
    ]


def test_tactical_names(programs: Programs, tmp_path: pathlib.Path) -> None:
    (tmp_path / "names").write_text("Q1A Start\n")
    programs.say(message("18:00", "Q1A", "Q1B", "one"))
    assert "Start (Q1A)" in programs.run("ics-309", "--roster", "names", "net.log")
    words = "ics-309", "--format", "csv", "--roster", "names"
    assert read_csv(programs.run(*words, "net.log"))[1][6:] == [
        "Start",
        "",
    ]


def test_the_form(programs: Programs) -> None:
    programs.say(
        message("18:37:10", "Q1NET", "Q1VAN-9", "Water is low", id="01", state="acknowledged")
    )
    assert programs.run("ics-309", "--net", "Fell race", "net.log") == (
        "ICS 309  COMMUNICATIONS LOG\nRadio net: Fell race\nOperator:\n\n"
        "TIME (UTC)           FROM       NO.    TO                 MESSAGE\n"
        "2024-06-21 18:37:10  Q1NET      01     Q1VAN-9    ack     Water is low\n"
        "\nMessages: 1    Prepared by:\n"
    )


def test_what_desks_have_written_down(programs: Programs, tmp_path: pathlib.Path) -> None:
    def entry(this: int, kind: str, **says: str) -> bytes:
        own = {"at": this, "desk": "BASE", "id": f"{this:032x}", "kind": kind}
        return spelling({**own, **says}) + b"\n"

    def line(number: int, clock: int, text: str) -> bytes:
        time = str(1_718_992_800_000 + 60_000 * clock)  # 18:00 and so many minutes
        return entry(
            number, "line", time=time, number=str(number), text=text, **{"from": "Q1A", "to": "NET"}
        )

    folder = tmp_path / "logs" / "desks"
    folder.mkdir(parents=True)
    (folder / "BASE.jsonl").write_bytes(
        line(1, 30, "first\nrunner through")
        + line(2, 31, "wrong")
        + entry(3, "gone", of=f"{2:032x}")
        + entry(4, "name", call="Q1A", name="Gate 1")
    )
    (folder / "GATE.jsonl").write_bytes(b"torn")
    programs.say(message("18:00", "Q1A", "Q1B", "one", id="7"), message("19:00", "Q1B", "Q1A", "x"))
    words = "ics-309", "--desks", str(tmp_path / "logs"), "net.log"
    lines = programs.run(*words).splitlines()[5:8]
    assert [it.split("  ")[0] for it in lines] == [
        "2024-06-21 18:00:00", "2024-06-21 18:30:00", "2024-06-21 19:00:00"]
    assert lines[1].split() == (
        "2024-06-21 18:30:00 Gate 1 (Q1A) 1 NET first runner through".split()
    )
    assert "lines of desks that are no entries: 1" in programs.said
    until = ["--to", "2024-06-21T18:45"]
    assert read_csv(programs.run(*words[:3], "--format", "csv", *until, "net.log")) == [
        [*HEAD, "desk", "from_name", "to_name"],
        ["2024-06-21T18:00:00.000Z", "Q1A", "7", "Q1B", "one", "unanswered", "", "Gate 1", ""],
        ["2024-06-21T18:30:00.000Z", "Q1A", "1", "NET", "first runner through", "", "BASE",
         "Gate 1", ""],
    ]
    programs.run("ics-309", "--desks", str(tmp_path / "none"), "net.log", status=1)


def test_a_communications_log_has_what_was_said(programs: Programs) -> None:
    """The number stands in a text too, any answer counts, and queries and the like are left out."""
    programs.say(
        message("18:00", "Q1A", "Q1B", "one{01}", state="unnumbered", reply_ack="unanswered",
                class_="message", number="01", outcome="acknowledged", gate="Q1GATE-10",
                outcome_moment="2024-06-21T18:00:09.000Z"),
        message("18:01", "Q1A", "BLN1RACE", "Start", class_="bulletin", outcome="unnumbered"),
        message("18:02", "Q1A", "BLNA", "Later", class_="announcement", outcome="unnumbered"),
        message("18:03", "NWSTST", "NWS-WARN", "Wind", class_="weather-bulletin"),
        message("18:04", "Q1A", "Q1A", "PARM.V,T", class_="telemetry", outcome="unnumbered"),
        message("18:05", "Q1A", "Q1B", "?APRSD", class_="query", outcome="unnumbered"),
        message("18:06", "Q1B", "Q1A", "ack01}F1", class_="answer", outcome="unnumbered"),
    )
    lines = read_csv(programs.run("ics-309", "--format", "csv", "net.log"))[1:]
    assert [it[4] for it in lines] == ["one{01}", "Start", "Later", "Wind"]
    assert lines[0][2] == "01" and lines[0][5] == "acknowledged"
    form = programs.run("ics-309", "net.log")
    assert "01     Q1B        ack     one{01}" in form and "Messages: 4" in form
    table = programs.lines("messages", "net.log")
    assert len(table) == 8
    first = dict(zip(table[0], table[1]))
    assert first["class"] == "message" and first["gate"] == "Q1GATE-10"
    assert first["outcome_moment"] == "2024-06-21T18:00:09.000Z"


def test_an_older_program_has_fewer_columns(programs: Programs, tmp_path: pathlib.Path) -> None:
    programs.say(message("18:00", "Q1A", "Q1B", "one", id="7", state="acknowledged"))
    path = tmp_path / "messages.tsv"
    old = [line.split("\t")[:9] for line in path.read_text().splitlines()]
    path.write_text("".join("\t".join(line) + "\n" for line in old))
    assert "7      Q1B        ack     one" in programs.run("ics-309", "net.log")
