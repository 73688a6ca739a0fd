"""aprs-net shift, mend and pcap: logs whose moments are wrong, or that were cut."""
import gzip
import os
import pathlib
import struct
import tempfile
from typing import List

import pytest
from hypothesis import given, settings, strategies as st

from aprsbook_tools import cli
from aprsbook_tools.formats import ax25, kiss, log_file, moments
from aprsbook_tools.formats.log_file import Line
from conftest import EXAMPLES, tried

COAST = EXAMPLES / "evening/coast.log"
DAY = 86_400
LINES = st.lists(st.builds(
    Line, st.integers(DAY * 1000 * 40, moments.END - DAY * 1000 * 40 - 1),
    st.sampled_from(["RX1", "RX2"]), st.binary(max_size=20).map(lambda it: it.hex().encode())))


def shift(log: bytes, *words: str, status: int = 0) -> bytes:
    return tried("shift", *words, given=log, status=status).stdout


@settings(max_examples=30)
@given(LINES, st.integers(-40 * DAY, 40 * DAY), st.booleans())
def test_a_shifted_log_is_shifted_back(lines: List[Line], seconds: int, whole: bool) -> None:
    """Also where moments are of 20 bytes."""
    log = b"".join(it.write() for it in lines)
    if whole:
        log = b"".join(line[:19] + line[23:] for line in log.splitlines(True))
    with tempfile.TemporaryDirectory() as folder:
        names = [f"{folder}/{it}" for it in "abc"]
        pathlib.Path(names[0]).write_bytes(log)
        assert cli.run(["shift", str(seconds), names[0], "-o", names[1]]) == 0
        assert cli.run(["shift", str(-seconds), names[1], "-o", names[2]]) == 0
        moved, back = (pathlib.Path(it).read_bytes() for it in names[1:])
    assert back == log and (moved != log or not lines or not seconds)
    assert [line[20:] for line in moved.splitlines()] == [line[20:] for line in log.splitlines()]


def test_ends_of_months_and_of_time() -> None:
    log = b"2024-02-28T23:59:59.250Z RX1 c0\n"
    assert shift(log, "1") == b"2024-02-29T00:00:00.250Z RX1 c0\n"
    for wrong, by in (b"2099-12-31T23:59:59Z R 00\n", "1"), (b"1970-01-01T00:00:00Z R 00\n", "-1"):
        assert shift(wrong, "0") == wrong
        assert b"line 2: its moment can't be moved so" in tried(
            "shift", by, given=b"2024-06-21T18:00:00Z RX1 00\n" + wrong, status=1).stderr


@pytest.mark.parametrize("wrong", ["1.5", "", "1h", "--1", "99999999999"])
def test_seconds_that_are_none(wrong: str) -> None:
    assert shift(COAST.read_bytes(), wrong, status=2) == b""


def test_a_part_is_moved() -> None:
    log = b"".join(b"2024-06-21T1%d:00:00Z RX%d 00\n" % (hour, hour % 2) for hour in range(6))
    words = "--from", "2024-06-21T11:00:00Z", "--to", "2024-06-21T13:00:00.000Z", "-3600"
    hours = [line[11:13] for line in shift(log, *words).splitlines()]
    assert hours == [b"10", b"10", b"11", b"13", b"14", b"15"]
    hours = [line[11:13] for line in shift(log, "--receiver", "RX1", *words).splitlines()]
    assert hours == [b"10", b"10", b"12", b"13", b"14", b"15"]
    words = "--from", "2024-06-21T13:00:00Z", "--to", "2024-06-21T13:00:00Z", "1"
    shift(log, *words, status=2)
    shift(log, "--from", "yesterday", "1", status=2)


@pytest.mark.parametrize("wrong", [
    b"2024-06-21T18:00:00Z RX1 00", b"APRSBOOK 3 30\n", b"\n", b"2024-06-21T18:00:00Z RX1 0\n"])
def test_what_is_no_log_is_refused(wrong: bytes) -> None:
    assert b"line 1: no line of a log" in tried("shift", "1", given=wrong, status=1).stderr


def test_an_input_and_a_log_are_never_replaced(tmp_path: pathlib.Path) -> None:
    log, other, new = (tmp_path / it for it in ("a.log", "b", "new.log"))
    for it in log, other:
        it.write_bytes(COAST.read_bytes())
    link = tmp_path / "link"
    link.hardlink_to(log) if hasattr(link, "hardlink_to") else link.symlink_to(log)
    for output in log, other, link:
        tried("shift", "7", log, "-o", output, status=2)
        assert output.read_bytes() == COAST.read_bytes()
    tried("shift", "7", log, "-o", new)
    assert new.read_bytes() == shift(COAST.read_bytes(), "7")


# ---- mend ----

def mend(log: bytes) -> bytes:
    return tried("mend", given=log).stdout


def test_of_a_log_cut_anywhere_the_whole_lines_are_kept(tmp_path: pathlib.Path) -> None:
    log, new = COAST.read_bytes()[:1200], tmp_path / "new"
    for cut in range(0, 1200, 7):
        path = tmp_path / f"{cut}.log"
        path.write_bytes(log[:cut])
        whole = log[:log[:cut].rfind(b"\n") + 1]
        # without a whole line nothing is written, which would look like an empty log
        assert cli.run(["mend", str(path), "-o", str(new)]) == (1 if cut and not whole else 0)
        assert new.exists() == bool(whole or not cut)
        if new.exists():
            assert new.read_bytes() == whole
            new.unlink()


@given(st.lists(st.one_of(
    st.binary(max_size=30), st.just(b"2024-06-21T18:00:00Z RX1 c0\n"), st.just(b"0" * 9000)),
    max_size=8))
def test_what_is_mended_is_a_log(parts: List[bytes]) -> None:
    text = b"".join(parts)
    with tempfile.TemporaryDirectory() as folder:
        pathlib.Path(folder, "a").write_bytes(text)
        new = pathlib.Path(folder, "b")
        status = cli.run(["mend", f"{folder}/a", "-o", str(new)])
        assert status == (0 if new.exists() else 1)
        lines = new.read_bytes().splitlines(True) if new.exists() else []
    assert all(log_file.read_line(line[:-1]) and line.endswith(b"\n") for line in lines)
    kept = [line for line in text.split(b"\n")[:-1]
            if log_file.read_line(line[:-1] if line.endswith(b"\r") else line)]
    assert len(lines) == len(kept)


def test_carriage_returns_go_and_holes_are_left_out() -> None:
    log = COAST.read_bytes()
    assert mend(log.replace(b"\n", b"\r\n")) == log
    done = tried("mend", given=log + bytes(100_000) + b"\n" + log + b"2024")
    assert done.stdout == log * 2 and done.stderr == b"aprs-net: lines left out: 2\n"


def test_a_compressed_log_is_read(tmp_path: pathlib.Path) -> None:
    """As a text of bytes it had no whole line, and the status was 0."""
    log = COAST.read_bytes()
    (tmp_path / "a.log.gz").write_bytes(gzip.compress(log))
    assert tried("mend", tmp_path / "a.log.gz").stdout == log
    assert tried("shift", "0", tmp_path / "a.log.gz").stdout == log


def test_of_a_compressed_log_that_was_cut_short_whole_lines_are_kept(tmp_path: pathlib.Path
                                                                     ) -> None:
    """`aprs-net book` says that it writes them, and it wrote nothing."""
    log, path, new = COAST.read_bytes(), tmp_path / "a.log.gz", tmp_path / "new"
    path.write_bytes(gzip.compress(log)[:-200])
    said = tried("mend", path, "-o", new, status=1).stderr.decode()
    whole = new.read_bytes()
    assert whole and whole.endswith(b"\n") and log.startswith(whole) and whole != log
    assert tried("mend", path, status=1).stdout == whole
    assert said.startswith(f"aprs-net: {path}: can't be unpacked to its end: ")
    assert said.endswith(f": whole lines before that are written: {len(whole.splitlines())}\n")


@pytest.mark.skipif(not os.path.exists("/proc/self/mem"), reason="needs /proc")
def test_an_input_that_refuses_is_named_and_not_the_output(tmp_path: pathlib.Path) -> None:
    for output in "-", tmp_path / "out":
        said = tried("mend", "-o", output, "/proc/self/mem", status=1).stderr
        assert said == b"aprs-net: /proc/self/mem: Input/output error\n"
    assert not (tmp_path / "out").exists()


# ---- pcap ----

def test_a_capture_has_the_frames_of_a_log() -> None:
    frame = ax25.frame("Q1NET", "APRS", b">\xc0\xdb")
    log = log_file.of_frame(1718992800345, "RX1", kiss.wrap(frame)).write()
    log += b"2024-06-21T18:00:00Z RX1 c0c0\n2024-06-21T18:00:00Z RX1 c000aac000bbc0\n"
    octets = tried("pcap", given=log).stdout
    assert len(octets) == 24 + 16 + 1 + len(frame) and octets.endswith(b"\0" + frame)
    assert struct.unpack("<2I", octets[24:32]) == (1718992800, 345000)
    back = tried("import", "pcap", "--name", "RX1", given=octets).stdout
    assert back == log.splitlines(True)[0]
    tried("pcap", given=b"no log\n", status=1)


def test_a_capture_of_a_folder(tmp_path: pathlib.Path) -> None:
    """It said "Is a directory", where other commands take folders."""
    for name in "b", "a":
        (tmp_path / f"{name}.log").write_bytes(b"2024-06-21T18:00:00Z RX1 c000%02xc0\n" % ord(name))
    alone = [tried("pcap", tmp_path / f"{it}.log").stdout for it in "ab"]
    assert tried("pcap", tmp_path).stdout == alone[0] + alone[1][24:]
    assert tried("pcap", tmp_path / "b.log", "-", given=(tmp_path / "a.log").read_bytes()
                 ).stdout == alone[1] + alone[0][24:]
    (tmp_path / "net.book").write_bytes(b"APRSBOOK 3 30\nEND 0\n")
    assert b"is a book" in tried("pcap", tmp_path, status=1).stderr


def test_a_packet_is_made_of_a_whole_frame_alone() -> None:
    """As the programs read a log: a torn last line is none of it."""
    line = b"2024-06-21T18:00:00.000Z RX1 c000a0c0"
    assert b"line 2: no line of a log" in tried("pcap", given=line + b"\n" + line, status=1).stderr
    head = tried("pcap", given=b"").stdout
    assert len(tried("pcap", given=line + b"\n").stdout) > len(head)
    for other in b"c000a0", b"c000a0c000a0c0", b"c000a0c000", b"c0c0", b"c0":
        text = line.replace(b"c000a0c0", other) + b"\n"
        assert tried("pcap", given=text).stdout == head, other
