"""Logs: lines, torn ends, and what is held while there is no room."""
import errno
import os
import pathlib
from typing import List, Set

import pytest
from hypothesis import given, strategies as st

from aprsbook_tools.formats import kiss, log_file, moments
from aprsbook_tools.formats.log_file import Line, Logs
from conftest import run

FRAME = bytes.fromhex("c00082a0a4a64040e09c60868298986f03f03e4869c0")
DAY = "2024-06-21"
NOON = moments.milliseconds(f"{DAY}T12:00:00Z")
MOMENTS = st.integers(0, moments.END - 1)
RECEIVERS = st.from_regex(r"[A-Za-z0-9_-]{1,16}", fullmatch=True)


def line(second: int = 0) -> Line:
    return log_file.of_frame(NOON + 1000 * second, "RX1", FRAME)


def path(folder: pathlib.Path) -> pathlib.Path:
    return folder / DAY / "RX1.log"


@given(MOMENTS, RECEIVERS, st.binary(min_size=1, max_size=1024))
def test_what_is_logged_is_read_back(moment: int, receiver: str, frame: bytes) -> None:
    written = log_file.of_frame(moment, receiver, kiss.wrap(frame)).write()
    read = log_file.read_line(written[:-1])
    assert read is not None and read.write() == written
    assert (read.moment, read.receiver) == (moment, receiver)
    assert kiss.unwrap(bytes.fromhex(read.digits.decode())[1:-1]) == frame


# the first and the last of each range, and what is just beyond
READ = [
    "2024-02-29T23:59:59Z RX1 c000", "2000-02-29T00:00:00.250Z a-Z_456789012345 00",
    "1970-01-01T00:00:00Z RX1 cD", "2099-12-31T23:59:59.999Z RX1 00", "2024-05-01T12:00:00Z RX1 "]
NOT_READ = [
    "2024-02-30T12:00:00Z RX1 c0", "2023-02-29T12:00:00Z RX1 c0", "1900-05-01T12:00:00Z RX1 c0",
    "2100-01-01T00:00:00Z RX1 c0", "2024-00-01T12:00:00Z RX1 c0", "2024-13-01T12:00:00Z RX1 c0",
    "2024-04-31T12:00:00Z RX1 c0", "2024-05-00T12:00:00Z RX1 c0", "2024-05-01T24:00:00Z RX1 c0",
    "2024-05-01T12:60:00Z RX1 c0", "2024-05-01T12:00:60Z RX1 c0", "2024-05-01T12:00:00.5Z RX1 c0",
    "2024-05-01T12:00:00 RX1 c0", "2024-05-01t12:00:00Z RX1 c0", "2024-05-01T12:00:00Z RX.1 c0",
    "2024-05-01T12:00:00Z 12345678901234567 c0", "2024-05-01T12:00:00Z  c0",
    "2024-05-01T12:00:00Z RX1  c0", "2024-05-01T12:00:00Z RX1 c", "2024-05-01T12:00:00Z RX1 g0",
    "2024-05-01T12:00:00Z RX1 c0 c0", "2024-05-01T12:00:00Z RX1 c0\0\0",
    "\0\0" "2024-05-01T12:00:00Z RX1 c0", "", "2024-05-01T12:00:00Z RX1", "APRSBOOK 3 30"]


@pytest.mark.parametrize("text", READ)
def test_lines_of_a_log_are_read(text: str) -> None:
    assert log_file.read_line(text.encode()) is not None


@pytest.mark.parametrize("text", NOT_READ)
def test_lines_that_are_none_are_not_read(text: str) -> None:
    assert log_file.read_line(text.encode()) is None


def test_aprsbook_reads_the_same_lines(tmp_path: pathlib.Path) -> None:
    log = tmp_path / "lines.log"
    for text, status in [(it, 0) for it in READ] + [(it, 1) for it in NOT_READ]:
        log.write_bytes(text.encode() + b"\n")
        run("aprsbook", "check", log, status=status)


@pytest.mark.parametrize("length, read", [(8192, True), (8194, False)])
def test_the_longest_line(length: int, read: bool) -> None:
    start = b"2024-05-01T12:00:00.000Z RX12 "
    text = start + b"0" * (length - len(start))
    assert (log_file.read_line(text) is not None) == read


def test_a_log_cut_anywhere_is_mended(tmp_path: pathlib.Path) -> None:
    log = line().write() * 2
    path(tmp_path).parent.mkdir()
    for cut in range(len(log)):
        path(tmp_path).write_bytes(log[:cut])
        Logs(str(tmp_path), lambda _: None).put("RX1", line())
        assert path(tmp_path).read_bytes() == line().write() * (log[:cut].count(b"\n") + 1), cut


@pytest.mark.parametrize("zeros", [1, 4096, 8191, 8192, 8193, 65536, 200_000])
@pytest.mark.parametrize("feed", [b"", b"\n", b" RX1 c0\n"])
def test_a_power_cut_leaves_any_number_of_nul_bytes(
        tmp_path: pathlib.Path, zeros: int, feed: bytes) -> None:
    said: List[str] = []
    path(tmp_path).parent.mkdir()
    path(tmp_path).write_bytes(line().write() + bytes(zeros) + feed)
    Logs(str(tmp_path), said.append).put("RX1", line(1))
    assert path(tmp_path).read_bytes() == line().write() + line(1).write()
    assert len(said) == 1 and f"torn line of {zeros + len(feed)} bytes" in said[0]


def test_frames_are_held_in_their_order_and_the_oldest_go_first(
        tmp_path: pathlib.Path, monkeypatch: pytest.MonkeyPatch) -> None:
    said: List[str] = []
    (tmp_path / DAY).write_bytes(b"in the way")
    monkeypatch.setattr(log_file, "HELD", 3)
    logs = Logs(str(tmp_path), said.append)
    for second in range(5):
        logs.put("RX1", line(second))
    assert "held: 1, lost: 0" in said[0]
    (tmp_path / DAY).unlink()
    assert logs.end() == 1 and said[-1] == "frames that are lost: 2"
    assert path(tmp_path).read_bytes() == b"".join(line(second).write() for second in (2, 3, 4))


def test_frames_that_are_lost_are_told_by_the_hundred(
        tmp_path: pathlib.Path, monkeypatch: pytest.MonkeyPatch) -> None:
    """Or each would be a line of the journal, for days."""
    said: List[str] = []
    (tmp_path / DAY).write_bytes(b"in the way")
    monkeypatch.setattr(log_file, "HELD", 100)
    logs = Logs(str(tmp_path), said.append)
    for second in range(500):
        logs.put("RX1", line(second % 60))
    assert len(said) == 6 and said[-1].endswith("held: 100, lost: 400")


def test_a_log_for_which_no_room_is_left_is_named(
        tmp_path: pathlib.Path, monkeypatch: pytest.MonkeyPatch) -> None:
    """It was only where the beginning of a line could be written."""
    def refuse(_: int, __: bytes) -> int:
        raise OSError(errno.ENOSPC, os.strerror(errno.ENOSPC))
    monkeypatch.setattr(os, "write", refuse)
    said: List[str] = []
    Logs(str(tmp_path), said.append).put("RX1", line())
    assert said == [f"{path(tmp_path)}: No space left on device: frames that are held: 1, lost: 0"]


def test_a_log_of_each_day(tmp_path: pathlib.Path) -> None:
    logs = Logs(str(tmp_path), lambda _: None)
    midnight = moments.milliseconds("2024-06-22T00:00:00Z")
    for moment in (midnight - 1, midnight):
        logs.put("RX1", log_file.of_frame(moment, "RX1", FRAME))
        written = (tmp_path / moments.text_of(moment)[:10] / "RX1.log").read_text()
        assert written.startswith(moments.text_of(moment) + " RX1 ")


def test_the_last_moment_has_a_text_and_2100_has_none() -> None:
    assert moments.text_of(moments.END - 1) == "2099-12-31T23:59:59.999Z"
    with pytest.raises(ValueError):
        moments.text_of(moments.END)


def test_a_stick_that_is_taken_away(tmp_path: pathlib.Path, monkeypatch: pytest.MonkeyPatch
                                    ) -> None:
    """As root: what was written below its folder lay on the card, hidden once it was back."""
    stick, real = tmp_path / "stick", os.path.ismount
    stick.mkdir()
    mounted: Set[str] = set()
    monkeypatch.setattr(os.path, "ismount", lambda it: str(it) in mounted or real(it))
    said: List[str] = []
    logs = log_file.Logs(str(stick / "logs"), said.append)
    log = path(stick / "logs")

    def lines_after(*paths: str) -> int:
        mounted.clear()
        mounted.update(paths)
        logs.put("RX1", line())
        return len(log.read_bytes().splitlines())
    assert lines_after() == 1  # it isn't there yet
    assert lines_after(str(stick)) == 2
    assert lines_after() == 2 and lines_after() == 2
    assert said == [f"{stick}: the disk isn't mounted any more: frames that are held: 1, lost: 0"]
    assert lines_after(str(stick)) == 5
    assert logs.end() == 0


@given(MOMENTS)
def test_moments_that_a_program_has_shown(moment: int) -> None:
    text = moments.text_of(moment)
    assert moments.shown(text) == moments.milliseconds(text) == moment


def test_a_link_to_nothing_is_no_folder_of_logs(tmp_path: pathlib.Path) -> None:
    """Of a day whose stick isn't there it said: File exists."""
    (tmp_path / DAY).symlink_to("gone")
    said: List[str] = []
    Logs(str(tmp_path), said.append).put("RX1", line())
    assert said == [f"{tmp_path / DAY}: it is a link that leads nowhere: "
                    "frames that are held: 1, lost: 0"]
