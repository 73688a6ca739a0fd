"""What a report is made of: logs and books, those of folders, and compressed ones."""
import bz2
import gzip
import lzma
import os
import pathlib
import re
import subprocess
import tempfile
import threading
from typing import Callable, Dict, List, Set

import pytest
from conftest import command as aprs_net, environment, tried
from hypothesis import given
from hypothesis import strategies as st
from standing import Programs, at, place

from aprsbook_tools.books import chunks, inputs
from aprsbook_tools.errors import ExitStatus, Fault

LINE = "2024-06-21T18:00:00.000Z RX1 c0c0\n"


def last_call(programs: Programs) -> str:
    return programs.calls[-1]


def test_a_folder_is_its_logs_and_books(programs: Programs) -> None:
    folder = programs.folder / "logs/2024-06-21"
    folder.mkdir(parents=True)
    for name in "RX1.log", "RX2.log", ".hidden.log", "notes.txt", "a.book":
        (folder / name).write_text(LINE)
    programs.say(place("18:00", "Q1A", 1, 2))
    assert len(programs.lines("tracks", "--format", "csv", "logs")) == 2
    assert last_call(programs).split(" -- ")[1].split() == [
        f"logs/2024-06-21/{name}" for name in ("RX1.log", "RX2.log", "a.book")
    ]


def test_an_empty_folder_is_refused_and_not_standard_input(programs: Programs) -> None:
    (programs.folder / "none").mkdir()
    for command in ["last-heard"], ["page"], ["sqlite", "net.db"], ["ics-309"]:
        programs.run(*command, "none", status=1)
        assert programs.said == "aprs-net: no logs and no books are in none\n"
    assert programs.calls == []


def test_an_empty_folder_has_no_logs(programs: Programs) -> None:
    (programs.folder / "none").mkdir()
    for command in "clocks", "keeper":
        assert programs.run(command, "none", status=1) == ""
        assert programs.said == "aprs-net: no logs are in none\n"


def test_a_keeper_takes_a_folder(programs: Programs) -> None:
    (programs.folder / "logs").mkdir()
    (programs.folder / "logs/RX1.log").write_text(LINE)
    assert programs.run("keeper", "--part", "hops", "logs") == "receiver\thops\tframes\n"
    programs.run("keeper", "gone.log", status=1)
    assert programs.said == "aprs-net: gone.log: no file\n"
    (programs.folder / "logs/zero.book").write_bytes(b"")
    programs.run("keeper", "logs", status=1)
    assert "logs/zero.book is a book" in programs.said


def test_a_path_that_is_no_utf_8_is_read(programs: Programs) -> None:
    """The programs refuse such a path."""
    name = os.fsdecode(b"l\xe4.log")
    try:
        (programs.folder / name).write_text(LINE)
    except OSError:
        pytest.skip("no such names here")
    programs.say(place("18:00", "Q1A", 1, 2))
    assert programs.lines("last-heard", name)[1][0] == at("18:00")
    assert ".named" in last_call(programs)
    (programs.folder / name).write_text("faulty\n")
    programs.run("last-heard", name, status=1)
    assert ".log: line 1: Moment" in programs.said and ".named" not in programs.said


def test_utf_8_is_what_the_bytes_of_a_name_are(monkeypatch: pytest.MonkeyPatch) -> None:
    """And not its text, which a locale makes of them."""
    assert inputs.is_utf_8("l\xe4.log") and not inputs.is_utf_8("l\udce4.log")
    monkeypatch.setattr(os, "fsencode", lambda it: it.encode("iso-8859-1"))
    assert inputs.is_utf_8("la.log") and not inputs.is_utf_8("l\xe4.log")


def test_no_thread_can_be_had(programs: Programs, monkeypatch: pytest.MonkeyPatch) -> None:
    """As where memory is short."""
    def refuse(_: threading.Thread) -> None:
        raise RuntimeError("can't start new thread")

    monkeypatch.setattr(threading.Thread, "start", refuse)
    files = len(os.listdir("/proc/self/fd"))
    with tempfile.TemporaryFile() as into, pytest.raises(RuntimeError):
        chunks.merge(30, [], into)
    assert len(os.listdir("/proc/self/fd")) == files
    programs.run("book", "net.book", "net.log", status=4)
    assert programs.said == "aprs-net: no memory is left\n"


def test_a_compressed_log_is_read(programs: Programs) -> None:
    (programs.folder / "RX1.log.gz").write_bytes(gzip.compress(LINE.encode()))
    programs.run("page", "-o", "page.html", "RX1.log.gz")
    programs.say(place("18:00", "Q1A", 1, 2))
    assert programs.lines("last-heard", "RX1.log.gz")[1][0] == at("18:00")
    assert ".unpacked" in last_call(programs)


def test_a_fault_of_a_compressed_log_has_its_name(programs: Programs) -> None:
    (programs.folder / "RX1.log.gz").write_bytes(gzip.compress(b"faulty\n"))
    programs.run("tracks", "--format", "gpx", "RX1.log.gz", status=1)
    assert programs.said == ("aprsbook-table: RX1.log.gz: line 1: Moment: "
                             "aprs-net mend RX1.log.gz -o NEW.log writes its whole lines\n")
    (programs.folder / "RX1.log.gz").write_bytes(gzip.compress(b"faulty\n")[:-9])
    programs.run("tracks", "--format", "gpx", "RX1.log.gz", status=1)
    assert "RX1.log.gz" in programs.said


def test_what_mends_a_log_is_said(programs: Programs) -> None:
    """It said that line 7 has no newline, and not what to do. Nothing mends a book."""
    (programs.folder / "a log").write_text("faulty")
    (programs.folder / "a.book").write_text("faulty")
    for words in ["last-heard"], ["page"], ["csv"], ["sqlite", "net.db"]:
        programs.run(*words, "a log", status=1)
        assert programs.said.endswith(
            "a log: line 1: Moment: aprs-net mend 'a log' -o NEW.log writes its whole lines\n")
        programs.run(*words, "a.book", status=1)
        assert programs.said.endswith("a.book: line 1: Moment\n")
    programs.run("keeper", "a log", status=1)
    assert "line 1 is no whole line of a log (aprs-net mend takes it out)" in programs.said


def test_nothing_is_an_empty_log(programs: Programs) -> None:
    """To some commands /dev/null was no file."""
    for words in ["last-heard"], ["page", "-o", "page.html"], ["keeper"], ["pcap", "-o", "cap"]:
        programs.run(*words, os.devnull)
    programs.run("clocks", os.devnull, status=1)
    assert programs.said == "aprs-net: no two receivers heard the same frame\n"


PACKS: Dict[str, Callable[[bytes], bytes]] = {
    ".gz": gzip.compress, ".xz": lzma.compress, ".bz2": bz2.compress}


@pytest.mark.parametrize("ending", PACKS)
@pytest.mark.parametrize("cut", [0, 12, 40])
def test_what_cannot_be_unpacked_is_named(programs: Programs, ending: str, cut: int) -> None:
    """Empty, cut short, or no such file at all: in words, by each command that reads it."""
    name = f"RX1.log{ending}"
    for octets in PACKS[ending](LINE.encode() * 9)[:cut], b"none of these\n":
        (programs.folder / name).write_bytes(octets)
        for words in (["page", name], ["tracks", "--format", "csv", name],
                      ["sqlite", "net.db", name], ["book", "net.book", name], ["clocks", name],
                      ["shift", "1", name],
                      ["shift", "1", name, "-o", "new"], ["mend", name], ["pcap", name],
                      ["import", "monitor", name], ["csv", "--table", "rows", name]):
            assert programs.run(*words, status=1) in ("", "\x00") or words[0] == "pcap"
            assert f"{name}: can't be unpacked to its end" in programs.said
            assert sorted(os.listdir()) == sorted({"bin", name, *before(programs)})


def before(programs: Programs) -> Set[str]:
    """What is there whatever a command does: the tables, the log, the list of calls and locks."""
    endings = (".tsv", ".lock", "net.log", "calls")
    return {it for it in os.listdir() if it.endswith(endings)}


@pytest.mark.parametrize("words", [["csv", "--table", "fields"], ["mend"], ["shift", "1"], ["pcap"],
                                   ["import", "monitor"], ["log", "RX1", "logs"]])
def test_standard_input_is_closed(tmp_path: pathlib.Path, words: List[str]) -> None:
    done = subprocess.run(aprs_net(*words), cwd=tmp_path, env=environment(), capture_output=True,
                          preexec_fn=lambda: os.close(0))
    assert done.returncode == 1 and done.stderr.endswith(b": standard input is closed\n")


def test_a_pipe_of_the_shell_is_read(programs: Programs) -> None:
    """As of <(zcat RX1.log.gz), which a program that is run doesn't have."""
    programs.say(place("18:00", "Q1A", 1, 2))
    reads, writes = os.pipe()
    os.write(writes, b"faulty")
    os.close(writes)
    programs.run("last-heard", f"/dev/fd/{reads}", status=1)
    os.close(reads)
    assert programs.said == (f"aprsbook-table: /dev/fd/{reads}: line 1: Moment: "
                             "aprs-net mend writes its whole lines\n")


@pytest.mark.parametrize("command", ["keeper", "clocks", "pcap"])
def test_logs_come_of_pipes(
        command: str, programs: Programs, monkeypatch: pytest.MonkeyPatch) -> None:
    """It said "no file" of <(zcat RX1.log.gz), where other commands read it."""
    (programs.folder / "tmp").mkdir()
    monkeypatch.setattr(tempfile, "tempdir", str(programs.folder / "tmp"))
    (programs.folder / "RX1.log").write_text(LINE)
    status = 1 if command == "clocks" else 0  # no two receivers
    wanted = programs.run(command, "RX1.log", status=status), programs.said
    said = []
    for text in LINE, "faulty\n":
        reads, writes = os.pipe()
        os.write(writes, text.encode())
        os.close(writes)
        said.append((programs.run(command, f"/dev/fd/{reads}", f"/dev/fd/{reads}",
                                  status=status if text == LINE else 1), programs.said))
        os.close(reads)
    assert said[0] == wanted
    assert said[1][1].startswith(f"aprs-net: /dev/fd/{reads}: line 1")
    assert not os.listdir("tmp")


@pytest.mark.parametrize("name, octets", [
    ("net.book", b""), ("net.book.gz", b""), ("net.book.gz", gzip.compress(b"", mtime=0))])
def test_an_empty_book_is_refused(programs: Programs, name: str, octets: bytes) -> None:
    (programs.folder / name).write_bytes(octets)
    for command in ["tracks", "--format", "gpx"], ["page"], ["last-heard"], ["ics-309"], ["csv"]:
        programs.run(*command, "net.log", name, status=1)
        assert f"{name} is empty, which no book is" in programs.said


def test_a_pipe_in_a_folder_is_no_input(tmp_path: pathlib.Path) -> None:
    """Whoever reads it waits for ever."""
    (tmp_path / "logs/2024-06-21").mkdir(parents=True)
    os.mkfifo(tmp_path / "logs/2024-06-21/RX1.log")
    for words in ["last-heard", "logs"], ["follow", "--day", "2024-06-21", "logs", "out"]:
        said = tried(*words, cwd=tmp_path, status=1, timeout=20).stderr
        assert b"RX1.log" in said and b"no file" in said


@pytest.mark.skipif(not os.path.exists("/dev/full"), reason="needs /dev/full")
def test_a_full_disk_is_no_fault_of_what_is_unpacked(tmp_path: pathlib.Path) -> None:
    (tmp_path / "RX1.log.gz").write_bytes(gzip.compress(LINE.encode()))
    with pytest.raises(Fault, match="/dev/full: No space left") as fault:
        inputs.unpack(inputs.look_at(str(tmp_path / "RX1.log.gz")), "/dev/full")
    assert fault.value.status == ExitStatus.OUTPUT


KIND = re.compile(r"[^.].*\.(log|book)(?:\.gz|\.xz|\.bz2|\.zst)?", re.DOTALL)
PARTS = st.sampled_from(
    ["a", ".", ".log", ".book", ".gz", ".xz", ".zst", ".LOG", "-", "\n", "2024"])


@given(st.lists(PARTS, max_size=5).map("".join))
def test_the_kind_of_a_name(name: str) -> None:
    found = KIND.fullmatch(name)
    assert inputs.kind_of(f"logs.log/{name}") == (f".{found[1]}" if found else "")


@pytest.mark.parametrize(("text", "wanted"), [
    ("2024-06-21", True), ("1999-12-31", True), ("2100-01-01", False), ("2024-6-21", False),
    ("2024-06-21T", False), ("2024/06/21", False), ("\u0662024-06-21", False), ("", False)])
def test_what_is_a_day(text: str, wanted: bool) -> None:
    assert inputs.is_day(text) == wanted
    assert inputs.day_said(f"/logs/{text}/RX1.log") == (text[:10] if wanted or "T" in text else "")
