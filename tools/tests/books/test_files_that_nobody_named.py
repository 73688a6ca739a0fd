"""Files that a command makes beside those that were named: no link leads it to another file."""
import json
import os
import pathlib
from typing import Any

import pytest

from aprsbook_tools.books import chunks, jobs
from aprsbook_tools.errors import ExitStatus, Fault
from aprsbook_tools.system import atomic
from clubs import Club
from standing import Programs

PRECIOUS = b"export PATH=precious\n"
LINE = "2024-06-21T18:00:00.000Z RX1 c0\n"


@pytest.mark.parametrize("is_there", [True, False])
def test_no_note_is_written_through_a_link(club: Club, is_there: bool) -> None:
    """Whoever may write into a folder where books are kept can't have another file replaced."""
    club.lay("HILL.log", "hill")
    if is_there:
        club.path("precious").write_bytes(PRECIOUS)
    club.path("shared").mkdir()
    link = club.path("shared/.own.book.of")
    link.symlink_to("../precious")
    said = club.book("shared/own.book", "HILL.log")
    assert ".own.book.of is a link, and isn't written through" in said
    assert link.is_symlink() and club.path("precious").exists() == is_there
    assert not is_there or club.read("precious") == PRECIOUS
    assert club.read("shared/own.book") == club.merged(30, "hill")


def test_no_lock_is_made_through_a_link(club: Club) -> None:
    club.lay("HILL.log", "hill")
    club.path("shared").mkdir()
    club.path("shared/.own.book.lock").symlink_to("../precious")
    assert ".own.book.lock: it is a link" in club.book("shared/own.book", "HILL.log", status=3)
    assert not club.path("precious").exists()


@pytest.mark.parametrize("more", [
    {"inputs": {"HILL.log": 5}}, {"inputs": []}, {"inputs": None}, {"inputs": "HILL.log"},
    {"sums": []}, {"sums": {"HILL.log": "x"}}, {"sums": None}, {"inputs": {"HILL.log": [1, "2"]}}])
def test_a_note_of_another_form_is_none(club: Club, more: Any) -> None:
    club.lay("HILL.log", "hill")
    club.book("own.book", "HILL.log")
    note = club.path(".own.book.of")
    note.write_text(json.dumps({**json.loads(note.read_text()), **more}))
    assert club.book("own.book", "HILL.log") == ""
    assert json.loads(note.read_text())["sums"].keys() == {"HILL.log"}


def test_a_note_of_another_user_is_none(
        tmp_path: pathlib.Path, monkeypatch: pytest.MonkeyPatch) -> None:
    book = tmp_path / "own.book"
    book.write_bytes(b"")
    atomic.write_hidden(str(book), "of", b"note")
    assert atomic.read_hidden(str(book), "of") == b"note"
    if os.geteuid() != 0:
        pytest.skip("needs root")
    os.chown(tmp_path / ".own.book.of", 12345, -1)
    with pytest.raises(PermissionError):
        atomic.read_hidden(str(book), "of")
    os.chown(book, 12345, -1)  # as a service made both
    assert atomic.read_hidden(str(book), "of") == b"note"


@pytest.mark.parametrize("name", ["index.html", "net.book"])
def test_follow_writes_through_no_link(programs: Programs, name: str) -> None:
    folder = programs.folder
    (folder / "logs/2024-06-21").mkdir(parents=True)
    (folder / "logs/2024-06-21/RX1.log").write_text(LINE)
    (folder / "precious").write_bytes(PRECIOUS)
    (folder / "out").mkdir()
    (folder / "out" / name).symlink_to("../precious")
    programs.run("follow", "--day", "2024-06-21", "logs", "out", status=3)
    assert "is a link, and isn't written through" in programs.said
    assert (folder / "precious").read_bytes() == PRECIOUS


@pytest.mark.parametrize("name", ["index.html", "net.book"])
def test_follow_replaces_what_it_has_made_alone(programs: Programs, name: str) -> None:
    folder = programs.folder
    (folder / "logs/2024-06-21").mkdir(parents=True)
    (folder / "logs/2024-06-21/RX1.log").write_text(LINE)
    words = "follow", "--day", "2024-06-21", "logs", "out"
    for title in "one", "two":
        programs.run(*words, "--title", title)
        assert title in (folder / "out/index.html").read_text()
    (folder / "out" / name).write_text("<p>a page of one's own")
    programs.run(*words, status=3)
    assert "isn't replaced" in programs.said
    assert (folder / "out" / name).read_text() == "<p>a page of one's own"


def test_a_bad_piece_is_not_kept(club: Club, monkeypatch: pytest.MonkeyPatch) -> None:
    """As one that a program makes whose memory or disk is broken."""
    if club.bin is None:
        pytest.skip("needs the stand-in")
    monkeypatch.chdir(club.folder)
    monkeypatch.setenv("PATH", club.env["PATH"])
    log = club.lay("HILL.log", "hill")
    piece = str(club.path("piece-000000.book"))
    job = jobs.Merge(piece, 30, [chunks.Range(str(log), 0, log.stat().st_size)])
    sound = (club.bin / "aprsbook").read_text()
    (club.bin / "aprsbook").write_text("#!/bin/sh\necho 'APRSBOOK 3 30'\n")
    with pytest.raises(Fault, match="is no whole book") as caught:
        jobs.do(job, kept=True)
    assert caught.value.status == ExitStatus.OUTPUT and not os.path.exists(piece)
    # one that became bad later is named as what it is, and made anew by the next run
    (club.bin / "aprsbook").write_text(sound)
    jobs.do(job, kept=True)
    text = club.read("piece-000000.book")
    club.path("piece-000000.book").write_bytes(text[:-3])
    fold = jobs.Fold(str(club.path("level1.book")), 30, [piece])
    with pytest.raises(Fault, match="the next run makes it anew"):
        jobs.do(fold, kept=True)
    assert not jobs.is_whole(job)
    jobs.do(job, kept=True)
    jobs.do(fold, kept=True)
    assert club.read("level1.book") == club.merged(30, "hill")
