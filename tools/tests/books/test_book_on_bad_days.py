"""aprs-net book on bad days: a signal, two runs at once, faulty inputs, and programs that fail.

Each test is run with a stand-in for aprsbook, and with aprsbook itself where it is there."""
import contextlib
import fcntl
import glob
import gzip
import os
import re
import shutil
import signal
import time
from typing import Dict, List

import pytest

from aprsbook_tools.books import book, inputs
from aprsbook_tools.system import atomic
from clubs import ALL, Club, runs_of
from conftest import HERE, started, wait_for


def is_running(number: int) -> bool:
    """Whether a process of this number is there."""
    with contextlib.suppress(ProcessLookupError):
        os.kill(number, 0)
        return True
    return False


@pytest.mark.parametrize("words", [[], ["--days", "days"], ["--work", "work"]])
def test_a_signal_ends_what_runs_at_once(club: Club, words: List[str]) -> None:
    if club.bin is None:
        pytest.skip("needs the stand-in")
    for day in range(10, 15):
        club.lay(f"logs/2024-06-{day}/HILL.log", "hill")
    before = club.names()
    text = f"echo $$ >>{club.runs}\nexec sleep 60\n"
    (club.bin / "aprsbook").write_text(f"#!/bin/sh\n[ $1 != --version ] || exit 0\n{text}")
    run = started("book", "--jobs", "2", *words, "net.book", "logs", cwd=club.folder, env=club.env)
    count = 2 if words[:1] == ["--days"] else 1
    wait_for(lambda: club.runs.exists() and runs_of(club) >= count, "a program")
    run.terminate()
    assert run.wait(20) == -signal.SIGTERM and runs_of(club) == count
    for number in club.runs.read_text().split():
        wait_for(lambda: not is_running(int(number)), "the end of a program")
    left = {it for it in club.names() - before if not club.path(it).is_dir()}
    assert not left and not [it for it in club.names() if "aprs-net" in it]


def test_a_run_that_has_waited_looks_at_its_inputs_again(
        club: Club, monkeypatch: pytest.MonkeyPatch) -> None:
    """Or a log that has grown meanwhile was one that has become shorter."""
    monkeypatch.chdir(club.folder)
    monkeypatch.setenv("PATH", club.env["PATH"])
    club.lay("logs/HILL.log", "hill")
    with atomic.locked("net.book"):
        run = started("book", "net.book", "logs", cwd=club.folder, env=club.env)
        lock = str(club.path(".net.book.lock"))
        wait_for(lambda: lock in [
            os.path.realpath(it) for it in glob.glob(f"/proc/{run.pid}/fd/*")], "its turn")
        club.lay("logs/HILL.log", "hill", "north")
        book.make_locked("net.book", inputs.of(["logs"]), book.Wish(), print)
    assert run.communicate()[1] == b"" and run.returncode == 0
    assert club.read() == club.merged(30, "hill", "north")


def test_work_within_the_inputs_is_none(club: Club) -> None:
    club.lay("logs/HILL.log", "hill")
    words = "--work", "logs/work", "net.book", "logs"
    assert club.book(*words) == "" and club.read() == club.merged(30, "hill")
    assert club.book(*words) == "" and club.runs.read_bytes() == b""
    # what stays there is what another run needs, and nothing that was left of one
    [work] = club.path("logs/work").iterdir()
    (work / ".unpacked-000000.book.abcd0123.aprs-net-work").mkdir()
    os.utime(work / ".unpacked-000000.book.abcd0123.aprs-net-work", (0, 0))
    assert club.book("--anew", *words) == ""
    club.book("--gap", "60", *words)
    assert club.read() == club.merged(60, "hill")
    names = [it.name for it in club.path("logs/work").glob("*/*")]
    assert names and not [it for it in names if it.startswith(("widened", ".unpacked"))]


# ---- books of days ----

def test_a_torn_log_gives_its_whole_lines(club: Club) -> None:
    """As a power failure leaves one: the night's books are made, and what mends it is said."""
    hill = club.lay("logs/2024-06-21/HILL.log", "hill")
    club.lay("logs/2024-06-21/COAST.log", "coast")
    club.lay("logs/2024-06-22/NORTH.log", "north")
    days = "--days", "days", "net.book", "logs"
    text = hill.read_bytes()
    hill.write_bytes(text[:-1])
    for _ in range(2):
        said = club.book(*days, status=1)
        assert "HILL.log: line" in said
        assert "aprs-net mend logs/2024-06-21/HILL.log -o NEW.log" in said
        assert said.count("\n") == 1
    hill.write_bytes(text[:text[:-1].rindex(b"\n") + 1])
    whole = ["whole.book", "logs/2024-06-21"]
    assert club.book(*whole) == "" and club.read("days/2024-06-21.book") == club.read("whole.book")
    assert club.read("days/2024-06-22.book") == club.merged(30, "north")
    # mended by a log that is older than the book, as rsync may put it there
    hill.write_bytes(text)
    os.utime(hill, (0, 0))
    assert club.book(*days) == ""
    assert club.read() == club.merged(30, *ALL)
    assert {it.name for it in club.path("days").iterdir() if not it.name.startswith(".")} == {
        "2024-06-21.book", "2024-06-22.book"}


def test_an_input_that_cannot_be_read_is_left_out(club: Club) -> None:
    club.lay("logs/2024-06-22/NORTH.log", "north")
    club.path("logs/2024-06-21").mkdir()
    club.path("logs/2024-06-21/HILL.log").symlink_to("nowhere")
    club.lay("logs/notes.log")
    said = club.book("--days", "days", "net.book", "logs", status=1)
    assert "aprs-net: logs/2024-06-21/HILL.log: no file\n" in said
    assert "logs/notes.log: its day is unknown: put it into a folder of its day" in said
    assert club.read("days/2024-06-22.book") == club.merged(30, "north") == club.read()


def test_a_log_that_is_packed_meanwhile_is_read_packed(
        club: Club, monkeypatch: pytest.MonkeyPatch) -> None:
    monkeypatch.chdir(club.folder)
    monkeypatch.setenv("PATH", club.env["PATH"])
    club.lay("logs/COAST.log", "coast")
    hill = club.lay("logs/HILL.log", "hill")
    found, wish = inputs.of(["logs"]), book.Wish()
    (club.folder / "logs/HILL.log.gz").write_bytes(gzip.compress(hill.read_bytes()))
    hill.unlink()
    said: List[str] = []
    assert book.make("net.book", found, wish, said.append)
    assert club.read() == club.merged(30, "hill", "coast") and wish.left == said == []


def test_a_day_whose_logs_are_gone_keeps_its_book(club: Club) -> None:
    club.lay("logs/2024-06-21/HILL.log", "hill")
    club.lay("logs/2024-06-22/NORTH.log", "north")
    days = "--days", "days", "net.book", "logs"
    club.book(*days)
    shutil.rmtree(club.path("logs/2024-06-21"))
    assert club.book("--jobs=2", *days) == ""
    assert club.read() == club.merged(30, "hill", "north")
    # an empty one is named, and the book of all keeps what it has
    text = club.read("days/2024-06-21.book")
    club.path("days/2024-06-21.book").write_bytes(b"")
    assert "2024-06-21.book: empty" in club.book(*days, status=1)
    assert club.read() == club.merged(30, "hill", "north")
    # anew it is made of days with logs alone, and no book is lost
    club.path("days/2024-06-21.book").write_bytes(text)
    assert "2024-06-21.book has no logs any more" in club.book("--anew", *days)
    assert club.read() == club.merged(30, "north")
    assert club.read("days/2024-06-21.book.gone") == text
    shutil.rmtree(club.path("logs/2024-06-22"))
    club.book("--anew", *days)
    assert club.path("days/2024-06-22.book").exists()


def test_two_runs_at_once(club: Club) -> None:
    for name in ALL:
        club.lay(f"logs/2024-06-21/{name}.log", name)
    runs = [started("book", "--days", "days", "net.book", "logs", cwd=club.folder, env=club.env)
            for _ in range(4)]
    assert [it.wait() for it in runs] == [0] * 4
    assert club.read() == club.merged(30, *ALL)


# ---- books that come in ----

def test_what_cannot_be_merged_is_passed_over(club: Club) -> None:
    club.path("in").mkdir()
    files: Dict[str, bytes] = {
        "own.book": club.merged(60, "hill"), "in/a b=c.book": club.merged(60, "coast"),
        "in/cut.book": club.merged(60, "north")[:-3], "in/other.book": club.merged(30, "north"),
        "in/north.book": club.merged(60, "north"), "in/empty.book": b""}
    for name, text in files.items():
        club.path(name).write_bytes(text)
    club.path("in/link.book").symlink_to("nowhere")
    os.mkfifo(club.path("in/pipe.book"))
    for _ in range(2):
        said = club.book("--pass-over", "own.book", "in")
        for name, words in ("cut", "line [0-9]*: Ending"), ("other", "other gap"), \
                ("empty", "empty, which no book is"), ("link", "no file"), ("pipe", "no file"):
            line = [it for it in said.splitlines() if f"in/{name}.book is passed over: " in it]
            assert len(line) == 1, (name, words, said)
        assert said.count("\n") == 5
        assert club.read("own.book") == club.merged(60, *ALL)


def test_a_fault_of_this_machine_is_no_fault_of_a_book(club: Club) -> None:
    club.path("in").mkdir()
    club.path("own.book").write_bytes(club.merged(60, "hill"))
    club.path("in/coast.book").write_bytes(club.merged(60, "coast"))
    if club.bin is None:
        pytest.skip("needs the stand-in")
    program = club.bin / "aprsbook-fold"
    program.write_text("#!/bin/sh\necho 'aprsbook-fold: cannot write' >&2\nexit 3\n")
    said = club.book("--pass-over", "own.book", "in", status=3)
    assert said == f"aprsbook-fold: cannot write in {club.folder}\n"


def test_a_program_that_is_missing_is_no_fault_of_an_input(club: Club) -> None:
    if club.bin is None:
        pytest.skip("needs the stand-in")
    club.lay("logs/HILL.log", "hill")
    (club.bin / "aprsbook").unlink()
    said = club.book("--pass-over", "net.book", "logs", status=6)
    assert said == "aprs-net: the program aprsbook isn't in the PATH: install aprsbook\n"
    assert not club.path("net.book").exists()


@pytest.mark.parametrize("name", ["aprsbook", "aprsbook-fold"])
def test_a_program_that_writes_nothing_makes_no_empty_book(club: Club, name: str) -> None:
    """As `put-whole net.book true` did."""
    if club.bin is None:
        pytest.skip("needs the stand-in")
    club.lay("logs/HILL.log", "hill")
    club.book("net.book", "logs")
    before = club.read()
    club.lay("logs/COAST.log", "coast")
    (club.bin / name).write_text("#!/bin/sh\nexit 0\n")
    assert club.book("net.book", "logs", status=3).startswith(f"{name}: wrote nothing")
    assert club.read() == before


def test_a_killed_run_leaves_the_old_book_or_the_new_one(club: Club) -> None:
    club.lay("logs/HILL.log", "hill")
    club.book("net.book", "logs")
    old = club.read()
    club.lay("logs/COAST.log", "coast")
    new = club.merged(30, "hill", "coast")
    for delay in range(0, 480, 60):
        process = started("book", "net.book", "logs", cwd=club.folder, env=club.env)
        time.sleep(delay / 1000)
        process.kill()
        process.wait()
        assert club.read() in (old, new)
    club.book("net.book", "logs")
    assert club.read() == new


def test_two_machines_with_receivers_of_one_name_are_named(club: Club) -> None:
    """A book takes them for one, and nothing said so."""
    for host, log in ("a", "hill"), ("b", "coast"):
        text = club.lay(f"{host}/2024-06-21/RX1.log", log).read_bytes()
        club.path(f"{host}/2024-06-21/RX1.log").write_bytes(
            re.sub(rb" (HILL|COAST) ", b" RX1 ", text))
    said = club.book("net.book", "a", "b")
    assert "are of one time, and both of a receiver RX1" in said and said.count("\n") == 1
    # a copy, and what one receiver wrote elsewhere later, are no second one
    copy = club.path("a/2024-06-21/RX1.log").read_bytes()
    club.path("b/2024-06-21/RX1.log").write_bytes(copy)
    assert "are of one time" not in club.book("other.book", "a", "b")
    club.path("b/2024-06-21/RX1.log").write_bytes(copy.replace(b"2024-06-21T", b"2024-06-22T"))
    assert "are of one time" not in club.book("third.book", "a", "b")


def test_what_a_killed_run_has_left_goes_at_the_next(club: Club) -> None:
    """Folders of 29 MB lay there for a day."""
    club.lay("logs/HILL.log", "hill")
    left, used = (club.path(f".net.book.{name}.aprs-net-work") for name in ("abcd0123", "efgh4567"))
    for it in left, used:
        it.mkdir()
        (it / "piece-000000.book").write_bytes(b"a piece\n")
        (it / "lock").write_bytes(b"")
    with open(used / "lock", "rb+") as file:
        fcntl.flock(file, fcntl.LOCK_EX)
        club.book("net.book", "logs")
        assert used.is_dir() and not left.exists()
    club.lay("logs/COAST.log", "coast")
    club.book("net.book", "logs")
    assert not used.exists()


def test_a_run_that_is_killed_leaves_what_the_next_takes_away(club: Club) -> None:
    if club.bin is None:
        pytest.skip("needs the stand-in")
    club.lay("logs/HILL.log", "hill")
    slow = club.bin / "aprsbook"
    slow.write_text("#!/bin/sh\ntouch begun\nsleep 3\n")
    with started("book", "net.book", "logs", cwd=club.folder, env=club.env) as running:
        wait_for(club.path("begun").exists, "for the program")
        running.kill()
    assert [*club.folder.glob(".net.book.*.aprs-net-work/lock")]
    shutil.copy(HERE / "stand_in.py", slow)
    slow.chmod(0o755)
    club.book("net.book", "logs")
    assert not [*club.folder.glob(".net.book.*.aprs-net-work")]
