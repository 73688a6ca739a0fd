"""What a net's control is told."""
import json
import os
import pathlib
import signal
import subprocess
import sys
import time
from typing import List

import pytest
from conftest import environment, started, tried
from standing import Programs, at, message, place, row

from aprsbook_tools.errors import Fault
from aprsbook_tools.formats.moments import milliseconds
from aprsbook_tools.reports import alerts
from aprsbook_tools.reports.last_heard import Heard
from aprsbook_tools.reports.roster import Expected, Roster, read_roster
from aprsbook_tools.reports.table import Row
from aprsbook_tools.system import atomic
from aprsbook_tools.system.clock import CLOCK

NOW = milliseconds(at("19:00"))


def heard(clock: str, call: str) -> Heard:
    return Heard(call, 1, at(clock), "RX1")


def test_of_an_empty_roster_nobody_is_silent() -> None:
    stations = [heard("18:00", "Q1A")]
    assert alerts.silent(stations, Roster(is_given=True), NOW, 30) == []
    assert [it.call for it in alerts.silent(stations, Roster(), NOW, 30)] == ["Q1A"]


def test_many_expected_and_many_heard_take_linear_time() -> None:
    """142 seconds of 20,000 entries and 5,000 stations, when each was compared with each."""
    expected = [Expected(f"Q{it:05}") for it in range(20_000)]
    stations = [heard("18:00", f"Q{it:05}") for it in range(0, 20_000, 4)]
    begun = time.process_time()
    assert len(alerts.silent(stations, Roster(expected), NOW, 30)) == 20_000
    assert time.process_time() - begun < 20


def test_who_is_silent_of_all() -> None:
    found = alerts.silent([heard("18:30", "Q1A"), heard("18:31", "Q1B")], Roster(), NOW, 30)
    assert [(it.call, it.words) for it in found] == [("Q1A", "Q1A wasn't heard since 18:30:00 UTC")]


def test_who_is_silent_of_those_expected() -> None:
    roster = read_roster("Q1RUN-* Sweepers\nQ1MED Medic\nQ1A")
    stations = [
        heard("18:00", "Q1RUN-1"),
        heard("18:59", "Q1RUN-2"),
        heard("18:00", "Q1A"),
        heard("18:00", "Q1OTHR"),
    ]
    assert [it.words for it in alerts.silent(stations, roster, NOW, 30)] == [
        "Medic (Q1MED) was never heard",
        "Q1A wasn't heard since 18:00:00 UTC",
    ]


def test_what_is_not_answered() -> None:
    """The state is the table's: an ack of another message with this number is none of this one."""
    some = [
        message("18:00", "Q1A", "Q1B", "one", id="7", state="acknowledged"),
        message("18:01", "Q1A", "Q1B", "two", id="7"),
        message("18:50", "Q1A", "Q1B", "three", id="8"),
        message("18:00", "Q1A", "Q1B", "four", state="unnumbered"),
    ]
    assert [it.words for it in alerts.unanswered(some, read_roster("Q1B Base"), NOW, 30)] == [
        "Base (Q1B) hasn't acknowledged message 7 of Q1A, 18:01:00 UTC: two"
    ]


def test_what_came_of_it_is_by_any_answer() -> None:
    """`{07}` in a text is a number too, and a plain ack answers it; queries aren't answered so."""
    some = [
        message("18:00", "Q1A", "Q1B", "one{07}", state="unnumbered", reply_ack="unanswered",
                number="07", outcome="acknowledged", class_="message"),
        message("18:01", "Q1A", "Q1B", "two{08}", state="unnumbered", reply_ack="unanswered",
                number="08", outcome="unanswered", class_="message"),
        message("18:02", "Q1A", "Q1B", "?APRSD", id="9", outcome="unanswered", class_="query"),
        message("18:02", "Q1A", "Q1A", "PARM.V", id="1", outcome="unanswered", class_="telemetry"),
    ]
    assert [it.words for it in alerts.unanswered(some, Roster(), NOW, 30)] == [
        "Q1B hasn't acknowledged message 08 of Q1A, 18:01:00 UTC: two{08}"]


def test_a_moment_that_moves_a_little_is_the_same() -> None:
    """As where a wrong clock, whose median moves while a net runs, is allowed for."""
    alert = alerts.Alert("silent", "Q1A", at("18:00:30"), "")
    assert alert.is_since(at("18:00:01")) and alert.is_since(at("18:01:29"))
    assert not alert.is_since(at("18:01:30")) and not alert.is_since("never")
    never = alerts.Alert("silent", "Q1A", "never", "")
    assert never.is_since("never") and not never.is_since(at("18:00"))
    emergency = alerts.Alert("emergency", "Q1A", at("18:00"), "")
    assert emergency.is_since(at("18:00")) and not emergency.is_since(at("18:00:01"))


def said(clock: str, says: str) -> Row:
    return place(clock, "Q1A-9", 54.5, -3.5, kind="mic-e", says=says, text="help")


@pytest.mark.parametrize(
    "rows, since",
    [
        ([], []),
        ([said("18:00", "emergency")], ["18:00"]),
        ([said("18:00", "emergency"), said("18:05", "emergency")], ["18:00"]),
        ([said("18:00", "emergency"), said("18:05", "en-route")], []),
        (
            [said("18:00", "emergency"), said("18:05", "en-route"), said("18:10", "emergency")],
            ["18:10"],
        ),
        ([said("18:00", "priority")], []),
    ],
)
def test_emergencies(rows: "list[Row]", since: List[str]) -> None:
    found = alerts.emergencies(reversed(rows), read_roster("Q1A-9 Rover"))
    assert [it.since for it in found] == [at(it) for it in since]
    assert all(
        "Rover (Q1A-9) reports an emergency" in it.words and "54.50000" in it.words for it in found
    )


WORDS = [
    "watch",
    "--silent",
    "30",
    "--unanswered",
    "30",
    "--emergency",
    "--day",
    "2024-06-21",
    "--moment",
    at("19:00"),
]


@pytest.fixture
def net(programs: Programs) -> Programs:
    folder = programs.folder / "logs/2024-06-21"
    folder.mkdir(parents=True)
    (folder / "RX1.log").write_text("2024-06-21T18:00:00.000Z RX1 c0c0\n2024-06-21T1")
    programs.say(
        row("status", "18:00", "Q1A"),
        message("18:00", "Q1A", "Q1B", "$(rm x) ; -rf", id="1"),
        said("18:40", "emergency"),
    )
    return programs


def test_it_is_told_in_lines(net: Programs) -> None:
    lines = net.run(*WORDS, "logs").splitlines()
    assert [it.partition(":")[0] for it in lines] == ["emergency", "unanswered", "silent"]


def test_the_gap_of_the_environment(net: Programs, monkeypatch: pytest.MonkeyPatch) -> None:
    """GAP had no effect in one unit of two."""
    monkeypatch.setenv("APRS_NET_GAP", "60")
    net.run(*WORDS, "logs")
    assert [it for it in net.calls if "--gap 60" not in it] == []


def test_each_is_told_once(net: Programs) -> None:
    assert net.run(*WORDS, "--state", "told", "logs") != ""
    assert net.run(*WORDS, "--state", "told", "logs") == ""
    # what is over and comes again is told again
    net.say(row("status", "18:40", "Q1A"))
    assert net.run(*WORDS, "--state", "told", "logs") == ""
    net.say(row("status", "18:00", "Q1A"))
    assert net.run(*WORDS, "--state", "told", "logs").startswith("silent: Q1A")


def test_each_is_told_once_while_the_state_cannot_be_written(
    net: Programs, monkeypatch: pytest.MonkeyPatch
) -> None:
    """Or a full disk would call a command in each turn."""
    turns = iter([None, None])

    def refuse(*_: object) -> None:
        raise Fault("told: No space left on device", 3)

    def wait(_: float) -> None:
        next(turns)

    monkeypatch.setattr(atomic, "write", refuse)
    monkeypatch.setattr(CLOCK, "wait", wait)
    with pytest.raises((StopIteration, RuntimeError)):
        net.run(*WORDS, "--state", "told", "--every", "1", "logs")
    out = net.capture.readouterr()
    assert len(out.out.splitlines()) == 3 and out.err.count("No space left") == 3


def test_runs_at_once_tell_once(net: Programs) -> None:
    runs = [
        started(*WORDS, "--state", "told", "logs", cwd=net.folder, stdout=subprocess.PIPE)
        for _ in range(3)
    ]
    said_ = [it.communicate()[0] for it in runs]
    assert [it.returncode for it in runs] == [0, 0, 0]
    assert b"".join(said_).count(b"\n") == 3


def test_texts_are_in_utf_8_whatever_the_locale_is(net: Programs, tmp_path: pathlib.Path) -> None:
    (tmp_path / "roster").write_text("Q1A \u017di\u017eka\n", encoding="utf-8")
    script = tmp_path / "tell"
    script.write_text("import os, sys\nopen('heard', 'ab').write(os.fsencode(sys.argv[1]) "
                      "+ os.environb[b'APRS_NET_WORDS'] + b'\\n')\n")
    ascii_alone = environment(LC_ALL="C", PYTHONCOERCECLOCALE="0", PYTHONUTF8="0")
    words = ["watch", "--day", "2024-06-21", "--silent", "1", "--roster", "roster", "logs"]
    told = tried(*words, cwd=tmp_path, env=ascii_alone).stdout
    assert told.decode() == "silent: \u017di\u017eka (Q1A) wasn't heard since 18:00:00 UTC\n"
    tried(*words, "--run", f"{sys.executable} tell", cwd=tmp_path, env=ascii_alone)
    assert (tmp_path / "heard").read_text("utf-8").count("\u017di\u017eka (Q1A)") == 2


@pytest.mark.skipif(not os.path.exists("/dev/full"), reason="needs /dev/full")
def test_what_standard_output_refuses_is_told_again(net: Programs) -> None:
    with open("/dev/full", "wb") as full:
        process = started(*WORDS, "--state", "told", "logs", cwd=net.folder, stdout=full)
        said_ = process.communicate()[1]
    assert process.returncode == 3 and b"standard output: No space left" in said_
    assert len(net.run(*WORDS, "--state", "told", "logs").splitlines()) == 3


def test_it_ends_where_nobody_reads_it(net: Programs) -> None:
    reads, writes = os.pipe()
    os.close(reads)
    process = started(*WORDS, "--every", "1", "logs", cwd=net.folder, stdout=writes, rate=10)
    os.close(writes)
    assert process.wait(20) == -signal.SIGPIPE
    assert process.stderr is not None and process.stderr.read() == b""


def test_a_command_is_told_without_a_shell(net: Programs, tmp_path: pathlib.Path) -> None:
    script = tmp_path / "tell"
    script.write_text(
        "import json, os, sys\nopen('heard', 'a').write(json.dumps([sys.argv[1:], "
        "os.environ['APRS_NET_KIND'], os.environ['APRS_NET_CALL']]) + '\\n')\n"
    )
    net.run(*WORDS, "--run", f"{sys.executable} '{script}' --to me", "logs")
    told = [json.loads(line) for line in (tmp_path / "heard").read_text().splitlines()]
    assert [it[1] for it in told] == ["emergency", "unanswered", "silent"]
    assert all(it[0][:2] == ["--to", "me"] and len(it[0]) == 3 for it in told)
    assert told[1][0][2].endswith("$(rm x) ; -rf") and told[2][2] == "Q1A"


@pytest.mark.parametrize("command", ["false", "/nowhere/command"])
def test_what_a_command_refuses_is_told_again(net: Programs, command: str) -> None:
    net.run(*WORDS, "--state", "told", "--run", command, "logs", status=1)
    assert command in net.said
    assert len(net.run(*WORDS, "--state", "told", "logs").splitlines()) == 3


@pytest.mark.parametrize(
    "words", [["logs"], ["--emergency", "--run", "", "logs"], ["--emergency", "--run", "'", "logs"]]
)
def test_what_would_tell_nothing_is_refused(net: Programs, words: List[str]) -> None:
    net.run("watch", *words, status=2)


def test_another_file_is_no_state(net: Programs, tmp_path: pathlib.Path) -> None:
    (tmp_path / "notes").write_text("mine")
    net.run(*WORDS, "--state", "notes", "logs", status=2)
    assert (tmp_path / "notes").read_text() == "mine"


def test_a_state_says_of_what_and_since_when(net: Programs) -> None:
    net.run(*WORDS, "--state", "told", "logs")
    state = json.loads((net.folder / "told").read_text())
    assert state == [["emergency Q1A-9", at("18:40")], ["silent Q1A", at("18:00")],
                     ["unanswered Q1A Q1B 1", at("18:00")]]
    # one less is told again, and that alone
    (net.folder / "told").write_text(json.dumps(state[1:]))
    assert net.run(*WORDS, "--state", "told", "logs").startswith("emergency: ")
    assert json.loads((net.folder / "told").read_text()) == state


def test_what_an_older_version_told_is_told_again(net: Programs) -> None:
    (net.folder / "told").write_text(json.dumps([f"silent Q1A {at('18:00')}"]))
    assert len(net.run(*WORDS, "--state", "told", "logs").splitlines()) == 3
    for state in ([["silent Q1A"]], [["silent Q1A", 5]], [5], {"silent Q1A": at("18:00")}):
        (net.folder / "told").write_text(json.dumps(state))
        net.run(*WORDS, "--state", "told", "logs", status=2)
        assert json.loads((net.folder / "told").read_text()) == state


def test_a_pipe_is_no_state(net: Programs) -> None:
    """Whoever reads it waits for ever."""
    os.mkfifo(net.folder / "pipe")
    said_ = tried(*WORDS, "--state", "pipe", "logs", cwd=net.folder, status=2, timeout=20).stderr
    assert b"pipe isn't what was told before" in said_


def test_a_folder_without_logs_is_said(net: Programs) -> None:
    os.rename(net.folder / "logs", net.folder / "other")
    net.run(*WORDS, "logs", status=1)
    assert "in logs is no log of 2024-06-21" in net.said


def test_a_log_is_no_folder_of_logs(programs: Programs) -> None:
    """It said that no log of today is in it."""
    programs.run("watch", "--silent", "20", "net.log", status=2)
    assert "net.log is no folder" in programs.said
