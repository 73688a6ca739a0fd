"""Logs whose names end otherwise, or that lie deeper: taken, or said."""
import os
import pathlib
import shutil
import subprocess
from typing import List

import pytest

from aprsbook_tools import stderr
from aprsbook_tools.books import inputs, mending, net_logs
from aprsbook_tools.errors import Fault
from aprsbook_tools.system import programs
from conftest import EVENING, tried

LINE = b"2024-06-21T18:00:00.000Z RX1 c0\n"


def lay(folder: pathlib.Path, *names: str, text: bytes = LINE) -> None:
    for name in names:
        (folder / name).parent.mkdir(parents=True, exist_ok=True)
        (folder / name).write_bytes(text)


def test_names_of_logs_that_are_not_taken_are_said_once(
        tmp_path: pathlib.Path, capsys: pytest.CaptureFixture[str]) -> None:
    lay(tmp_path, "hill.log", "coast.LOG", "north.log.1", "coast.log.txt", "coast.log-20240621",
        "logbook.txt", ".hidden.log.1", "a.logic", "b.log.bak", "c.log.old", "d.log.2")
    for _ in range(2):
        assert [os.path.basename(it.path) for it in inputs.below(str(tmp_path))] == ["hill.log"]
    said = capsys.readouterr().err
    assert said.count("\n") == 1 and "a log's name ends in .log" in said
    assert "b.log.bak, c.log.old, coast.LOG, coast.log-20240621, coast.log.txt and 2 more" in said


def test_all_look_at_hosts_at_any_depth(tmp_path: pathlib.Path) -> None:
    lay(tmp_path, "2024-06-21/A.log", "club/2024-06-21/B.log", "club/site/hut/2024-06-21/C.log",
        "club/2024-06-20/D.log", "2024-06-21/deeper/E.log", ".hidden/2024-06-21/F.log")
    (tmp_path / "club/loop").symlink_to(tmp_path)
    found = net_logs.logs_of(str(tmp_path), ["2024-06-20", "2024-06-21"])
    assert [(day, os.path.basename(path)) for day, path in found] == [
        ("2024-06-20", "D.log"), ("2024-06-21", "A.log"), ("2024-06-21", "B.log"),
        ("2024-06-21", "C.log")]


def test_what_zstd_packed_is_read(tmp_path: pathlib.Path, monkeypatch: pytest.MonkeyPatch) -> None:
    program = shutil.which("zstd")
    if program is None:
        pytest.skip("needs zstd")
    text = pathlib.Path(EVENING[0]).read_bytes() * 50
    lay(tmp_path, "hill.log", text=text)
    packed = tmp_path / "hill.log.zst"
    subprocess.run([program, "-q", str(tmp_path / "hill.log"), "-o", str(packed)], check=True)
    (tmp_path / "hill.log").unlink()
    [it] = inputs.below(str(tmp_path))
    assert it.packing == ".zst" and it.fault == "" and it.day == "2024-06-21"
    with inputs.opened(str(packed)) as file:
        assert file.read() == text
    assert b"".join(inputs.blocks(str(packed))) == text
    assert tried("mend", packed).stdout == text
    with inputs.opened(str(packed)) as file:
        assert file.read(10) == text[:10]  # and no program is left
    packed.write_bytes(packed.read_bytes()[:-20])
    with pytest.raises(Fault, match="can't be unpacked to its end"):
        list(inputs.blocks(str(packed)))
    monkeypatch.setattr(programs, "is_there", lambda _: False)
    assert "install zstd" in inputs.look_at(str(packed)).fault


@pytest.mark.parametrize("coding, mark", [
    ("utf-8-sig", b""), ("utf-16", b""), ("utf-16-le", b""), ("utf-16-be", b""), ("utf-8", b"")])
def test_mend_reads_what_an_editor_has_saved(
        tmp_path: pathlib.Path, coding: str, mark: bytes) -> None:
    text = pathlib.Path(EVENING[0]).read_bytes()
    log = tmp_path / "saved.log"
    log.write_bytes(text.decode("ascii").replace("\n", "\r\n").encode(coding))
    done = tried("mend", log)
    assert done.stdout == text and done.stderr == b""


@pytest.mark.parametrize("text", [b"no log\n", b"\x28\xb5\x2f\xfd packed", bytes(10_000)])
def test_mend_of_what_it_cannot_read_is_no_empty_log(tmp_path: pathlib.Path, text: bytes) -> None:
    lay(tmp_path, "bad.log", text=text)
    done = tried("mend", "bad.log", "-o", "new.log", status=1, cwd=tmp_path)
    assert b"bad.log has no whole line of a log" in done.stderr
    assert not (tmp_path / "new.log").exists()
    lay(tmp_path, "empty.log", text=b"")
    assert tried("mend", "empty.log", cwd=tmp_path).stdout == b""


def test_whole_lines_of_a_packed_log_that_was_cut_short(tmp_path: pathlib.Path) -> None:
    lay(tmp_path, "torn.log", text=LINE * 3 + LINE[:-1])
    left = mending.mend_into(str(tmp_path / "torn.log"), str(tmp_path / "new"))
    assert left is not None and (left.taken, left.out) == (3, 1)
    assert (tmp_path / "new").read_bytes() == LINE * 3


def test_no_name_is_an_order_to_a_terminal(capsys: pytest.CaptureFixture[str]) -> None:
    name = "a \x1b]0;pwn\x07\x1b[2J\u202eb\n\x9bc.log"
    stderr.warn(name)
    stderr.say(name)
    said: List[str] = capsys.readouterr().err.splitlines()
    assert said[0] == "aprs-net: a \\x1b]0;pwn\\x07\\x1b[2J\\xe2\\x80\\xaeb\\x0a\\xc2\\x9bc.log"
    assert len(said) == 3
