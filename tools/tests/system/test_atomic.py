"""Files are written whole or not at all, and never over what must stay."""
import concurrent.futures
import fcntl
import itertools
import os
import pathlib
import resource
import stat
import subprocess
import sys
import threading
import time
from typing import List

import pytest

from aprsbook_tools.errors import Fault
from aprsbook_tools.system import atomic
from conftest import command, environment

WRITE = """
import sys
from aprsbook_tools.system import atomic
with atomic.writing(sys.argv[1]) as new:
    for _ in range(200):
        new.file.write(b"new\\n" * 1000)
        new.file.flush()
"""


def names(folder: pathlib.Path) -> "list[str]":
    return sorted(it.name for it in folder.iterdir())


def test_modes_and_links_are_kept(tmp_path: pathlib.Path) -> None:
    (tmp_path / "a b").mkdir()
    file, link = tmp_path / "a b/file", tmp_path / "link"
    file.write_bytes(b"before")
    file.chmod(0o640)
    link.symlink_to("a b/file")
    assert atomic.write(str(link), b"after")
    assert link.is_symlink() and file.read_bytes() == b"after"
    assert stat.S_IMODE(file.stat().st_mode) == 0o640


@pytest.mark.parametrize("mask", [0o022, 0o077, 0o027])
def test_a_new_file_has_the_mode_of_any_new_file(tmp_path: pathlib.Path, mask: int) -> None:
    before = os.umask(mask)
    try:
        atomic.write(str(tmp_path / "new"), b"new")
    finally:
        os.umask(before)
    assert stat.S_IMODE((tmp_path / "new").stat().st_mode) == 0o666 & ~mask


def test_threads_do_not_take_each_others_umask(
        tmp_path: pathlib.Path, monkeypatch: pytest.MonkeyPatch) -> None:
    """Days' books, which threads make, could become writable by all."""
    umask = os.umask

    def slow_umask(mask: int) -> int:
        result = umask(mask)
        time.sleep(0.001)
        return result

    before = os.umask(0o022)
    monkeypatch.setattr(os, "umask", slow_umask)
    try:
        with concurrent.futures.ThreadPoolExecutor(8) as pool:
            paths = [tmp_path / str(number) for number in range(50)]
            assert all(pool.map(lambda it: atomic.write(str(it), b"new"), paths))
        assert {stat.S_IMODE(it.stat().st_mode) for it in paths} == {0o644}
        assert os.umask(0o022) == 0o022
    finally:
        os.umask(before)


def test_who_waits_for_a_lock_is_told(tmp_path: pathlib.Path, monkeypatch: pytest.MonkeyPatch
                                      ) -> None:
    path, waits = str(tmp_path / "net.book"), threading.Event()
    told: List[bool] = []
    flock = fcntl.flock

    def seen(file: int, how: int) -> None:
        try:
            flock(file, how)
        except BlockingIOError:
            waits.set()
            raise

    def other() -> None:
        with atomic.locked(path) as has_waited:
            told.append(has_waited)

    monkeypatch.setattr(fcntl, "flock", seen)
    before = os.umask(0o022)
    try:
        with atomic.locked(path) as has_waited:
            thread = threading.Thread(target=other)
            thread.start()
            assert not has_waited and waits.wait(60) and told == []
        thread.join()
    finally:
        os.umask(before)
    assert told == [True]
    assert stat.S_IMODE((tmp_path / ".net.book.lock").stat().st_mode) == 0o644


def test_a_link_to_nothing_makes_what_it_names(tmp_path: pathlib.Path) -> None:
    (tmp_path / "link").symlink_to("target")
    atomic.write(str(tmp_path / "link"), b"new")
    assert (tmp_path / "target").read_bytes() == b"new" and (tmp_path / "link").is_symlink()


@pytest.mark.parametrize("name", ["", "no/file", "folder", "loop", "pipe", "."])
def test_what_cannot_become_a_file_is_refused(tmp_path: pathlib.Path, name: str) -> None:
    (tmp_path / "folder").mkdir()
    (tmp_path / "loop").symlink_to("loop")
    os.mkfifo(tmp_path / "pipe")
    before = names(tmp_path)
    with pytest.raises(Fault) as fault:
        atomic.write(f"{tmp_path}/{name}", b"new")
    assert fault.value.status == 3 and names(tmp_path) == before


def test_a_folder_that_is_missing_is_named(tmp_path: pathlib.Path) -> None:
    """Also that of a link."""
    (tmp_path / "link").symlink_to("nowhere/file")
    for path in tmp_path / "link", tmp_path / "nowhere/file":
        with pytest.raises(Fault, match="no folder .*/nowhere is there"):
            atomic.write(str(path), b"text")


def test_nothing_changed_and_nothing_is_touched(tmp_path: pathlib.Path) -> None:
    """A page that is made each minute stays the file that it is."""
    path = tmp_path / "page.html"
    assert atomic.write(str(path), b"page")
    before = path.stat()
    assert not atomic.write(str(path), b"page")
    assert (path.stat().st_ino, path.stat().st_mtime_ns) == (before.st_ino, before.st_mtime_ns)


def test_a_file_is_old_or_new_whenever_a_run_is_killed(tmp_path: pathlib.Path) -> None:
    path = tmp_path / "net.book"
    new = b"new\n" * 200_000
    path.write_bytes(b"old")
    for delay in range(0, 300, 30):
        process = subprocess.Popen([sys.executable, "-c", WRITE, path], env=environment())
        time.sleep(0.05 + delay / 1000)
        process.kill()
        process.wait()
        assert path.read_bytes() in (b"old", new)


def test_a_fault_leaves_the_old_file_and_nothing_else(tmp_path: pathlib.Path) -> None:
    path = tmp_path / "net.book"
    path.write_bytes(b"old")
    with pytest.raises(ZeroDivisionError):
        with atomic.writing(str(path)) as it:
            it.file.write(b"half")
            raise ZeroDivisionError
    assert path.read_bytes() == b"old" and names(tmp_path) == ["net.book"]


def test_a_full_disk_leaves_the_old_file(tmp_path: pathlib.Path) -> None:
    path = tmp_path / "net.book"
    path.write_bytes(b"old")
    limit = resource.RLIMIT_FSIZE, (999, 999)
    done = subprocess.run([sys.executable, "-c", WRITE, path], env=environment(),
                          capture_output=True, preexec_fn=lambda: resource.setrlimit(*limit))
    assert done.returncode and path.read_bytes() == b"old" and names(tmp_path) == ["net.book"]


def test_leftovers_go_after_a_day_and_a_users_files_stay(tmp_path: pathlib.Path) -> None:
    old = ".net.book.abcdefgh.aprs-net-new"
    kept = ["net.book.new.backup", "net.book.new.AAAAAA", ".net.book.abcdefgh.aprs-net-news",
            ".other.book.abcdefgh.aprs-net-new", "net.book.abcdefgh.aprs-net-new"]
    for name in [old, *kept, ".net.book.ijklmnop.aprs-net-new"]:
        (tmp_path / name).write_bytes(b"a user's")
        if not name.startswith(".net.book.i"):
            os.utime(tmp_path / name, (0, 0))
    atomic.write(str(tmp_path / "net.book"), b"new")
    assert names(tmp_path) == sorted(["net.book", *kept, ".net.book.ijklmnop.aprs-net-new"])


def test_a_run_never_takes_what_another_one_writes(tmp_path: pathlib.Path) -> None:
    path = str(tmp_path / "file")
    with atomic.writing(path) as slow:
        slow.file.write(b"slow")
        atomic.write(path, b"quick")
        assert pathlib.Path(path).read_bytes() == b"quick"
    assert pathlib.Path(path).read_bytes() == b"slow" and names(tmp_path) == ["file"]


@pytest.mark.parametrize("name", ["a.log", "b"])
def test_a_log_is_never_replaced_by_anything(tmp_path: pathlib.Path, name: str) -> None:
    """As by `page -o *.log`, where the shell makes an output of the first log."""
    path = tmp_path / name
    path.write_bytes(b"2024-06-21T18:00:00Z RX1 c0\n")
    with pytest.raises(Fault) as fault:
        atomic.write(str(path), b"page")
    assert fault.value.status == 2 and path.read_bytes().startswith(b"2024")


def test_what_cannot_be_read_is_no_log(tmp_path: pathlib.Path) -> None:
    (tmp_path / "folder").mkdir()
    for name in "folder", "missing":
        path = str(tmp_path / name)
        assert not atomic.is_log(path) and atomic.is_log(f"{path}.log")


def test_an_input_is_never_replaced(tmp_path: pathlib.Path) -> None:
    path, link, hard = (tmp_path / it for it in ("net.book", "link", "hard"))
    path.write_bytes(b"APRSBOOK 3 30\nEND 0\n")
    link.symlink_to("net.book")
    os.link(path, hard)
    for output in path, link, hard, tmp_path / "." / "net.book":
        with pytest.raises(Fault):
            atomic.write(str(output), b"page", [str(path)])
    assert path.read_bytes().startswith(b"APRSBOOK")


def test_an_input_of_a_folder_is_never_replaced(tmp_path: pathlib.Path) -> None:
    """And no report becomes one."""
    logs, link = tmp_path / "logs", tmp_path / "link"
    logs.mkdir()
    (logs / "net.book").write_bytes(b"APRSBOOK 3 30\nEND 0\n")
    link.symlink_to("logs")
    for folder, name in itertools.product([logs, link], ["net.book", "new.book", "new.log"]):
        with pytest.raises(Fault):
            atomic.write(str(logs / name), b"page", [str(folder)])
    assert names(logs) == ["net.book"] and atomic.write(str(logs / "page.html"), b"", [str(logs)])
    assert atomic.write(str(tmp_path / "logs.book"), b"", [str(logs)])


def test_standard_input_is_never_replaced(tmp_path: pathlib.Path) -> None:
    path = tmp_path / "fields"
    path.write_bytes(b"a\tb\n")
    with open(path, "rb") as file:
        done = subprocess.run(command("csv", "--table", "fields", "-o", path), stdin=file,
                              env=environment(), capture_output=True)
    assert done.returncode == 2 and path.read_bytes() == b"a\tb\n"


def test_a_reader_that_is_slow_gets_all(tmp_path: pathlib.Path) -> None:
    """Also of a pipe that doesn't wait, as programs of Node make it for those that they start."""
    fields = tmp_path / "fields"
    fields.write_bytes(b"x\n" * 200_000)
    reads, writes = os.pipe()
    os.set_blocking(writes, False)
    process = subprocess.Popen(command("csv", "--table", "fields", fields), stdout=writes,
                               env=environment())
    os.close(writes)
    time.sleep(1)
    with open(reads, "rb") as file:
        assert file.read() == b"x\n" * 200_000
    assert process.wait() == 0


@pytest.mark.parametrize("ending", [".log.gz", ".book.xz", ".csv.bz2"])
def test_nothing_is_called_compressed_that_is_not(tmp_path: pathlib.Path, ending: str) -> None:
    with pytest.raises(Fault):
        atomic.write(str(tmp_path / f"net{ending}"), b"plain")
    assert names(tmp_path) == []


def test_what_cannot_be_written_is_named_and_not_its_lock(tmp_path: pathlib.Path) -> None:
    """In a folder that is read-only the hidden name was told, with the whole path."""
    with pytest.raises(Fault) as caught, atomic.locked(str(tmp_path / "none/file")):
        pass
    assert caught.value.words == f"{tmp_path / 'none/file'}: No such file or directory"
