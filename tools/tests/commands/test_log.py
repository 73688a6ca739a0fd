"""aprs-net log: streams, servers that end, serial ports, APRS-IS, full disks and signals."""
import argparse
import errno
import fcntl
import os
import pathlib
import resource
import signal
import socket
import subprocess
import termios
import time
from typing import Any, Dict, List, Optional

import pytest

from aprsbook_tools.commands import log as log_command
from aprsbook_tools.formats import ax25, kiss, log_file
from aprsbook_tools.frame_sources import source, tcp, writer
from aprsbook_tools.imports import feed
from aprsbook_tools.system import disk
from aprsbook_tools.system.clock import CLOCK
from conftest import started, tried, wait_for

FRAME = bytes.fromhex("c00082a0a4a64040e09c60868298986f03f03e4869c0")
FRAME_1 = FRAME[:1] + b"\x10" + FRAME[2:]
HURRIED = 20  # times as fast as the machine's: the clock of a logger that connects again


def logs(folder: pathlib.Path, kind: str = "log") -> Dict[str, List[bytes]]:
    """The lines of all logs below the folder, by name; each of them is whole."""
    result: Dict[str, List[bytes]] = {}
    for path in sorted(folder.glob(f"*/*.{kind}")):
        text = path.read_bytes()
        if not text:
            continue  # it was opened, and its first line isn't written yet
        assert text.endswith(b"\n")
        result[path.name] = text.splitlines()
        assert all(map(log_file.read_line, result[path.name])), path
    return result


def count(folder: pathlib.Path) -> int:
    """How many lines the one log has."""
    return sum(map(len, logs(folder).values()))


def run(folder: pathlib.Path, given: bytes, *options: object, **keywords: Any) -> str:
    """What the command says of a stream."""
    return tried("log", *options, "RX1", folder, given=given, **keywords).stderr.decode()


def test_a_stream_from_standard_input(tmp_path: pathlib.Path) -> None:
    assert run(tmp_path, b"torn\xc0" + FRAME * 3 + FRAME[:9]) == ""
    [lines] = logs(tmp_path).values()
    assert [it[24:] for it in lines] == [b" RX1 " + FRAME.hex().encode()] * 3


def test_several_radios(tmp_path: pathlib.Path) -> None:
    run(tmp_path, FRAME + FRAME_1 * 2, "--ports")
    assert {name: len(it) for name, it in logs(tmp_path).items()} == {"RX1.log": 1, "RX1-1.log": 2}
    run(tmp_path, FRAME_1)
    assert len(logs(tmp_path)["RX1.log"]) == 2


def test_what_a_station_of_ones_own_sent_is_kept_apart(tmp_path: pathlib.Path) -> None:
    own = kiss.wrap(ax25.frame("Q0OWN", "APRS,WIDE1-1", b">sent"))
    back = kiss.wrap(ax25.frame("Q0OWN", "APRS,Q1DIG*", b">sent"))
    for count, call in enumerate(("Q0OWN", "q0own-0"), 1):
        run(tmp_path, own + back + FRAME, "--own", call)
        assert {name: len(it) for name, it in logs(tmp_path).items()} == {"RX1.log": 2 * count}
        assert {name: len(it) for name, it in logs(tmp_path, "own").items()} == {"RX1.own": count}


def test_a_full_disk(tmp_path: pathlib.Path) -> None:
    def limit() -> None:
        resource.setrlimit(resource.RLIMIT_FSIZE, (1000, 1000))
    text = run(tmp_path, FRAME * 40, status=1, preexec_fn=limit)
    before = count(tmp_path)
    assert 900 < sum(len(it) + 1 for it in logs(tmp_path)["RX1.log"]) <= 1000
    assert f"frames that are lost: {40 - before}" in text
    assert run(tmp_path, FRAME) == "" and count(tmp_path) == before + 1


@pytest.mark.parametrize("number, words", [
    (errno.ENOSPC, None), (errno.EDQUOT, None), (errno.EROFS, "logs is no folder to write to: ")])
def test_a_disk_that_is_full_at_the_start(
        monkeypatch: pytest.MonkeyPatch, number: int, words: Optional[str]) -> None:
    """The logger begins, and holds frames until there is room."""
    def refuse(*_: object, **__: object) -> None:
        raise OSError(number, os.strerror(number))
    monkeypatch.setattr(os, "makedirs", refuse)
    args = argparse.Namespace(ports=False, aprs_is=None, filter="", folder="logs", name="RX1")
    assert log_command.refusal(args) == (words and words + os.strerror(number))


@pytest.mark.parametrize("wrong", [
    [], ["RX1"], ["RX1", "made", "more"], ["RX.1", "made"], ["", "made"], ["RX1", ""],
    ["12345678901234567", "made"], ["RX1", "file/made"], ["RX1", "file"],
    ["--ports", "12345678901234", "made"], ["--aprs-is", "h:1", "RX1", "made"],
    ["--filter", "r/1/2/3", "RX1", "made"], ["--idle", "-1", "RX1", "made"],
    ["--baud", "1", "RX1", "made"], ["--own", "Q0OWN-16", "RX1", "made"],
    ["--aprs-is", "h:1", "--call", "Q0X", "--filter", "a\nb", "RX1", "made"],
    ["--aprs-is", "h:1", "--call", "Q0X", "--filter", "\udcff", "RX1", "made"]])
def test_wrong_arguments(tmp_path: pathlib.Path, wrong: List[str]) -> None:
    (tmp_path / "file").write_bytes(b"")
    assert tried("log", *wrong, status=2, cwd=tmp_path).stderr.count(b"aprs-net: ") == 1
    assert [it.name for it in tmp_path.iterdir()] == ["file"]


@pytest.mark.parametrize("place", [
    "localhost:99999", "localhost:0", "localhost", ":8001", "localhost:http", "a..b:8001",
    "[::1]", "::1:8001", "localhost:8001:1", "x" * 64 + ":8001"])
def test_places_that_are_none_are_refused(tmp_path: pathlib.Path, place: str) -> None:
    said = run(tmp_path, b"", "--connect", place, status=2)
    assert "HOST:PORT" in said or "can't be a host's name" in said


def test_seconds() -> None:
    assert [log_command.seconds(it) for it in ("0.5", "1", "1s", "2m")] == [0.5, 1, 1, 120]
    for it in "0", "0s", "-1", "1e6", "x":
        with pytest.raises(argparse.ArgumentTypeError):
            log_command.seconds(it)


def test_places() -> None:
    assert tcp.place("[::1]:8001") == ("::1", 8001)
    assert tcp.place("localhost:65535") == ("localhost", 65535)
    assert tcp.place("host", 14580) == ("host", 14580)


def test_a_host_of_ip_6(tmp_path: pathlib.Path) -> None:
    try:
        server = socket.create_server(("::1", 0), family=socket.AF_INET6)
    except OSError:
        pytest.skip("needs IPv6")
    with server, started("log", "--connect", f"[::1]:{server.getsockname()[1]}", "RX1",
                         tmp_path) as process:
        with server.accept()[0] as connection:
            connection.sendall(FRAME)
            wait_for(lambda: logs(tmp_path))
        process.terminate()
        assert process.wait() == 0


@pytest.mark.parametrize("name", ["-n", "a b", "$(touch pwned)`touch pwned`\";touch pwned;'"])
def test_a_folder_with_text_for_a_shell(tmp_path: pathlib.Path, name: str) -> None:
    tried("log", "RX1", "--", name, given=FRAME, cwd=tmp_path)
    assert count(tmp_path / name) == 1 and len(list(tmp_path.iterdir())) == 1


def test_closed_standard_input(tmp_path: pathlib.Path) -> None:
    process = started("log", "RX1", tmp_path, preexec_fn=lambda: os.close(0))
    _, said = process.communicate()
    assert process.returncode == 1 and said.count(b"\n") == 1, said


class Server:
    """A KISS TNC, or a server of APRS-IS, as a test wants it, and the command that listens."""

    def __init__(self, folder: pathlib.Path, monkeypatch: pytest.MonkeyPatch) -> None:
        self.folder = folder
        self.server = socket.create_server(("127.0.0.1", 0))
        self.server.settimeout(20)
        self.place = self.server.getsockname()
        self.said = folder / "said.txt"

    def start(self, *options: object, kind: str = "--connect") -> "subprocess.Popen[bytes]":
        with open(self.said, "wb") as said:
            return started("log", kind, f"127.0.0.1:{self.place[1]}", *options, "RX1",
                           self.folder / "logs", stderr=said, rate=HURRIED)

    def accept(self) -> socket.socket:
        connection, _ = self.server.accept()
        connection.settimeout(20)
        return connection

    def count(self) -> int:
        return count(self.folder / "logs")

    def says(self, words: str) -> None:
        wait_for(lambda: words in self.said.read_text(), f"{words}: {self.said.read_text()}")


@pytest.fixture
def server(tmp_path: pathlib.Path, monkeypatch: pytest.MonkeyPatch) -> Server:
    return Server(tmp_path, monkeypatch)


def test_a_server_that_ends_in_a_frame_and_comes_back(server: Server) -> None:
    with server.start() as process:
        with server.accept() as connection:
            connection.sendall(FRAME * 2 + FRAME[:9])
        server.says("the connection ended")
        with server.accept() as connection:
            connection.sendall(FRAME[5:] + FRAME)
            wait_for(lambda: server.count() == 3)
        process.terminate()
        assert process.wait() == 0
    assert server.said.read_text().count("connected\n") == 2


def test_a_server_that_is_away(server: Server) -> None:
    server.server.close()
    with server.start() as process:
        server.says("127.0.0.1:%d: Connection refused" % server.place[1])
        server.server = socket.create_server(server.place)
        with server.accept() as connection:
            connection.sendall(FRAME)
            wait_for(server.count)
        process.terminate()
        assert process.wait() == 0


def test_nothing_is_missed_after_an_idle_timeout() -> None:
    """A connection that was idle is made again at once, not five seconds later."""
    pauses: List[float] = []

    class Waits(source.Waiting):
        def pause(self, seconds: float) -> None:
            pauses.append(seconds)
            raise source.Ended

    class Idle(source.Source):
        def open(self, waiting: source.Waiting) -> source.Input:
            raise OSError("timed out")

    moments = iter([100.0, 100.0 + 900])
    patch = pytest.MonkeyPatch()
    patch.setattr(CLOCK, "seconds", lambda: next(moments))
    source.listen(Idle(), Waits(), lambda _: None, lambda: None, lambda _: None)
    patch.undo()
    assert pauses == [source.AGAIN - 900] and pauses[0] < 0
    begun = time.monotonic()
    source.Waiting().pause(pauses[0])
    assert time.monotonic() - begun < 1


def test_a_server_for_all_that_refuses_is_asked_more_rarely(
        monkeypatch: pytest.MonkeyPatch) -> None:
    """Every five seconds, for days, is what servers ban for."""
    pauses: List[float] = []
    now = [0.0]

    class Waits(source.Waiting):
        def pause(self, seconds: float) -> None:
            pauses.append(seconds)
            now[0] += seconds
            if len(pauses) == 12:
                raise source.Ended

    class Refuses(source.Source):
        is_shared = True

        def open(self, waiting: source.Waiting) -> source.Input:
            now[0] += 100 if len(pauses) == 10 else 0
            raise OSError("refused")
    monkeypatch.setattr(CLOCK, "seconds", lambda: now[0])
    source.listen(Refuses(), Waits(), lambda _: None, lambda: None, lambda _: None)
    assert pauses[:8] == [10, 20, 40, 80, 160, 320, 600, 600]
    assert pauses[10:] == [source.AGAIN - 100, 10]  # one that lasted begins anew
    pauses.clear()
    Refuses.is_shared = False
    source.listen(Refuses(), Waits(), lambda _: None, lambda: None, lambda _: None)
    assert pauses[:3] == [5, 5, 5]


def test_what_a_server_refuses_is_said_once() -> None:
    said: List[str] = []
    lines = feed.Lines(said.append)
    for _ in range(5):
        lines.restart()
        assert [*lines.feed(b"# aprsc 2.1\r\n# Login by user not allowed\x1b[2J\r\n")] == []
    assert said == ["the server said before it ended: # Login by user not allowed\\x1b[2J"]
    lines.restart()
    assert len([*lines.feed(b"# aprsc 2.1\r\n" + GOOD + b"# bye\r\n")]) == 1
    lines.restart()
    assert len(said) == 1


def test_bad_lines_of_a_server_are_not_said_without_a_limit() -> None:
    said: List[str] = []
    lines = feed.Lines(said.append)
    assert [*lines.feed(b"Q1lower>APDW17,qAR,Q0GATE-1:>no call\r\n" * 5000)] == []
    assert len(said) == feed.FEW + 5 and said[-1] == "lines that can't be taken: 5000"


def test_a_silent_server_is_given_up(server: Server) -> None:
    with server.start("--idle", str(HURRIED / 2)) as process:
        silent = server.accept()
        server.says(f"nothing came for {HURRIED // 2} seconds")
        with server.accept() as connection:
            connection.sendall(FRAME)
            wait_for(server.count)
        silent.close()
        process.terminate()
        assert process.wait() == 0


def test_sigterm_while_frames_are_held(tmp_path: pathlib.Path) -> None:
    """They are lost, which is said, and the status tells it."""
    day = time.strftime("%Y-%m-%d", time.gmtime())
    folder = tmp_path / "logs"
    folder.mkdir()
    for it in (day, time.strftime("%Y-%m-%d", time.gmtime(time.time() + 86400))):
        (folder / it).write_bytes(b"in the way")
    process = started("log", "RX1", folder, stdin=subprocess.PIPE)
    assert process.stdin and process.stderr
    process.stdin.write(FRAME * 3)
    process.stdin.flush()
    assert b"held: " in process.stderr.readline()
    process.terminate()
    assert process.wait() == 1
    assert b"frames that are lost: 3" in process.stderr.read()


def test_sigterm_with_nothing_held_ends_well(tmp_path: pathlib.Path) -> None:
    process = started("log", "RX1", tmp_path, stdin=subprocess.PIPE)
    assert process.stdin
    process.stdin.write(FRAME)
    process.stdin.flush()
    wait_for(lambda: logs(tmp_path))
    process.send_signal(signal.SIGTERM)
    assert process.wait() == 0


def days() -> List[str]:
    """Today and tomorrow, in UTC: a test may run over midnight."""
    return [time.strftime("%Y-%m-%d", time.gmtime(time.time() + it)) for it in (0, 86400)]


def lay(folder: pathlib.Path, octets: bytes = b"") -> List[pathlib.Path]:
    """A file where the log of today is, and one where that of tomorrow is."""
    for day in days():
        (folder / day).mkdir(parents=True, exist_ok=True)
        (folder / day / "RX1.log").write_bytes(octets)
    return [folder / day / "RX1.log" for day in days()]


KEY = b"-----BEGIN KEY-----\nc2VjcmV0\n-----END KEY-----"


@pytest.mark.parametrize("octets", [
    KEY, KEY + b"\n", b"precious data without newline", b"2024-06-21 diary\nno line feed",
    bytes(100) + b"precious"])
def test_nothing_is_taken_off_what_is_no_log(tmp_path: pathlib.Path, octets: bytes) -> None:
    files = lay(tmp_path, octets)
    text = run(tmp_path, FRAME, status=1)
    assert "no log" in text and "frames that are lost: 1" in text
    assert all(it.read_bytes() == octets for it in files)


@pytest.mark.parametrize("octets", [KEY, b"2024-06-21T12:00:00.000Z RX1 c0"])
def test_no_log_is_written_through_a_link(tmp_path: pathlib.Path, octets: bytes) -> None:
    """As one that somebody who may write into the folder laid there."""
    precious = tmp_path / "precious"
    precious.write_bytes(octets)
    for it in lay(tmp_path / "logs"):
        it.unlink()
        it.symlink_to(precious)
    text = run(tmp_path / "logs", FRAME, status=1)
    assert "it is a link" in text and precious.read_bytes() == octets


def test_a_log_that_is_a_pipe_swallows_nothing(tmp_path: pathlib.Path) -> None:
    for it in lay(tmp_path):
        it.unlink()
        os.mkfifo(it)
    text = run(tmp_path, FRAME, status=1)
    assert "it is no file" in text and "frames that are lost: 1" in text


def moments_of(folder: pathlib.Path) -> List[int]:
    lines = map(log_file.read_line, logs(folder)["RX1.log"])
    return [it.moment for it in lines if it]


def is_read(pipe: int) -> bool:
    """Whether all that was written into a pipe was read."""
    return fcntl.ioctl(pipe, termios.FIONREAD, bytes(4)) == bytes(4)


def test_frames_have_the_moments_at_which_they_came(tmp_path: pathlib.Path) -> None:
    """Also where another program holds the log's lock, as a backup does."""
    files = lay(tmp_path)
    locks = [open(it, "rb") for it in files]
    for it in locks:
        fcntl.flock(it, fcntl.LOCK_EX)
    process = started("log", "RX1", tmp_path, stdin=subprocess.PIPE)
    assert process.stdin and process.stderr
    pipe = process.stdin.fileno()
    marks = []  # each before a frame is sent, and long after the one before was read
    for _ in range(3):
        marks.append(int(time.time() * 1000))
        process.stdin.write(FRAME)
        process.stdin.flush()
        wait_for(lambda: is_read(pipe), "a reader")
        time.sleep(0.4)
    assert b"another program holds its lock" in process.stderr.readline()
    marks.append(int(time.time() * 1000))
    for it in locks:
        it.close()
    wait_for(lambda: count(tmp_path) == 3)
    process.terminate()
    assert process.wait() == 0
    found = moments_of(tmp_path)
    between = [*zip(marks, found, marks[1:])]
    assert len(between) == 3 and all(begin <= it <= end for begin, it, end in between), between


def test_a_signal_ends_what_waits_for_a_lock(tmp_path: pathlib.Path) -> None:
    locks = [open(it, "rb") for it in lay(tmp_path)]
    for it in locks:
        fcntl.flock(it, fcntl.LOCK_EX)
    process = started("log", "RX1", tmp_path, stdin=subprocess.PIPE)
    assert process.stdin and process.stderr
    process.stdin.write(FRAME * 3)
    process.stdin.flush()
    process.stderr.readline()
    process.terminate()
    time.sleep(0.5)
    process.terminate()  # at once
    assert process.wait(3) == 1
    assert b"frames that are lost: 3" in process.stderr.read()
    for it in locks:
        it.close()


def test_what_is_held_is_written_as_soon_as_there_is_room(tmp_path: pathlib.Path) -> None:
    """Without another frame."""
    for day in days():
        (tmp_path / day).write_bytes(b"in the way")
    process = started("log", "RX1", tmp_path, stdin=subprocess.PIPE)
    assert process.stdin and process.stderr
    process.stdin.write(FRAME * 3)
    process.stdin.flush()
    assert b"held: " in process.stderr.readline()
    for day in days():
        (tmp_path / day).unlink()
    wait_for(lambda: count(tmp_path) == 3)
    process.terminate()
    assert process.wait() == 0


def test_a_log_is_synced(tmp_path: pathlib.Path, monkeypatch: pytest.MonkeyPatch) -> None:
    calls: List[str] = []
    monkeypatch.setattr(disk, "sync", lambda _: calls.append("sync"))
    monkeypatch.setattr(disk, "sync_folder", calls.append)
    now = [100.0]
    monkeypatch.setattr(CLOCK, "seconds", lambda: now[0])
    line = log_file.of_frame(0, "RX1", FRAME)
    it = log_file.Logs(str(tmp_path), lambda _: None)
    for second in 0, 4.9:
        now[0] = 100 + second
        it.put("RX1", line)
    assert calls == [] and it.due is not None and 0 < it.due < 0.2
    now[0] = 105
    it.write()
    folders = [str(tmp_path), str(tmp_path / "1970-01-01")]
    assert calls == ["sync", *folders] and it.due is None
    it.put("RX1", line)
    it.end()
    assert calls == ["sync", *folders, "sync"]
    each = log_file.Logs(str(tmp_path), lambda _: None, 0.0)
    each.put("RX1", line)
    assert calls[-1] == "sync" and len(calls) == 5 and each.due is None


@pytest.mark.parametrize("seconds", ["-1", "x", "1e9", ""])
def test_wrong_seconds_of_syncs(tmp_path: pathlib.Path, seconds: str) -> None:
    tried("log", f"--sync={seconds}", "RX1", tmp_path, status=2)


def test_a_log_that_cannot_be_synced_is_said(
        tmp_path: pathlib.Path, monkeypatch: pytest.MonkeyPatch) -> None:
    said: List[str] = []

    def refuse(_: int) -> None:
        raise OSError(errno.EIO, "Input/output error")
    monkeypatch.setattr(disk, "sync", refuse)
    it = log_file.Logs(str(tmp_path), said.append)
    it.put("RX1", log_file.of_frame(0, "RX1", FRAME))
    assert it.end() == 0 and "may not be on the disk" in said[0]


def test_a_reader_waits_for_a_slow_disk_but_not_for_one_that_stands_still(
        tmp_path: pathlib.Path, monkeypatch: pytest.MonkeyPatch) -> None:
    monkeypatch.setattr(writer, "MOST", 10)
    monkeypatch.setattr(writer, "STUCK", 0.2)
    line = log_file.of_frame(0, "RX1", FRAME)

    class Slow(log_file.Logs):
        seconds_of_a_write = 0.01

        def put(self, name: str, line: log_file.Line, kind: str = "log") -> None:
            time.sleep(self.seconds_of_a_write)
            super().put(name, line, kind)

    one = Slow(str(tmp_path), lambda _: None)
    it = writer.Writer(one, lambda _: None)
    it.start()
    for _ in range(50):
        it.put("RX1", line)
    one.seconds_of_a_write = 1.0
    for _ in range(30):
        it.put("RX1", line)
    assert it.lost > 0
    one.seconds_of_a_write = 0
    assert it.end(source.Waiting()) == 1
    assert (tmp_path / "1970-01-01/RX1.log").read_bytes().count(b"\n") == 80 - one.lost


def test_standard_error_is_on_the_full_disk(tmp_path: pathlib.Path) -> None:
    if not os.path.exists("/dev/full"):
        pytest.skip("needs /dev/full")
    noise = b"\xc0" + bytes(3000)
    with open("/dev/full", "wb") as full:
        tried_ = started("log", "RX1", tmp_path, stdin=subprocess.PIPE, stderr=full)
    tried_.communicate(noise + FRAME * 2)
    assert tried_.returncode == 0 and count(tmp_path) == 2


TORN = b"2024-06-21T18:00"  # of a line


@pytest.mark.parametrize("closed", [0, 1, 2])
def test_a_log_is_no_standard_file(tmp_path: pathlib.Path, closed: int) -> None:
    """Where a standard file is closed, the next file that is opened gets its number."""
    for ahead in 0, 86400:
        day = tmp_path / time.strftime("%Y-%m-%d", time.gmtime(time.time() + ahead))
        day.mkdir()
        (day / "RX1.log").write_bytes(TORN)  # which is said
    with socket.create_server(("localhost", 0)) as server:
        to = f"localhost:{server.getsockname()[1]}"
        process = started("log", "--connect", to, "RX1", tmp_path, stderr=None,
                          preexec_fn=lambda: os.close(closed))
        connection = server.accept()[0]
        connection.sendall(FRAME * 2)
        wait_for(lambda: sum(it.read_bytes().count(b"\n") for it in tmp_path.glob("*/*")) == 2)
        process.terminate()
        assert process.wait() == 0
        # nothing is sent to a TNC
        assert connection.recv(100) == b""
        connection.close()
    for it in tmp_path.glob("*/*"):
        if it.read_bytes() != TORN:
            assert all(map(log_file.read_line, it.read_bytes().splitlines()))


def test_the_reader_of_standard_error_has_gone(tmp_path: pathlib.Path) -> None:
    reads, writes = os.pipe()
    process = started("log", "RX1", tmp_path, stdin=subprocess.PIPE, stderr=writes)
    os.close(reads)
    os.close(writes)
    process.communicate(b"\xc0" + bytes(3000) + FRAME * 2)
    assert process.returncode == 0 and count(tmp_path) == 2


def test_the_reader_of_standard_error_is_stuck(tmp_path: pathlib.Path) -> None:
    reads, writes = os.pipe()
    os.set_blocking(writes, False)
    try:
        while True:
            os.write(writes, b"x" * 4096)
    except BlockingIOError:
        os.set_blocking(writes, True)
    process = started("log", "RX1", tmp_path, stdin=subprocess.PIPE, stderr=writes)
    process.communicate(b"\xc0" + bytes(3000) + FRAME * 2, timeout=30)
    assert process.returncode == 0 and count(tmp_path) == 2
    os.close(reads)
    os.close(writes)


def test_a_serial_port_that_is_unplugged(tmp_path: pathlib.Path) -> None:
    """The logger waits, and opens it again."""
    device, said = tmp_path / "ttyUSB0", tmp_path / "said.txt"

    def plug() -> int:
        ours, theirs = os.openpty()
        device.unlink(missing_ok=True)
        device.symlink_to(os.ttyname(theirs))
        os.close(theirs)
        return ours

    with open(said, "wb") as file:
        process = started("log", "--serial", device, "--baud", "1200", "RX1", tmp_path / "logs",
                          stderr=file, rate=HURRIED)
    wait_for(lambda: "No such file" in said.read_text())
    ours = plug()
    wait_for(lambda: "is open" in said.read_text())
    os.write(ours, FRAME)
    wait_for(lambda: count(tmp_path / "logs") == 1)
    os.close(ours)
    wait_for(lambda: "is gone" in said.read_text() or "Input/output" in said.read_text())
    ours = plug()
    wait_for(lambda: said.read_text().count("is open") == 2)
    # bytes that a terminal would change
    os.write(ours, kiss.wrap(b"\x03\x04\x0d\x0a\x11\x13\x1a\x7f\xff"))
    wait_for(lambda: count(tmp_path / "logs") == 2)
    process.terminate()
    assert process.wait() == 0
    os.close(ours)
    last = logs(tmp_path / "logs")["RX1.log"][-1]
    assert last.endswith(b" RX1 c00003040d0a11131a7fffc0")


def test_a_file_is_no_serial_port(tmp_path: pathlib.Path) -> None:
    """As a copy makes one in /dev while the TNC is unplugged: it would be read again and again."""
    device, said = tmp_path / "ttyUSB0", tmp_path / "said.txt"
    device.write_bytes(FRAME)
    with open(said, "wb") as file:
        process = started("log", "--serial", device, "RX1", tmp_path / "logs", stderr=file)
    try:
        wait_for(lambda: str(device) in said.read_text())
    finally:
        process.terminate()
    assert process.wait() == 0 and count(tmp_path / "logs") == 0


def test_two_loggers_do_not_share_the_bytes_of_a_serial_port(tmp_path: pathlib.Path) -> None:
    said = tmp_path / "said.txt"
    ours, theirs = os.openpty()
    words = "log", "--serial", os.ttyname(theirs), "RX1", tmp_path / "logs"
    one = started(*words, rate=HURRIED)
    assert one.stderr is not None and b"is open" in one.stderr.readline()
    with open(said, "wb") as file:
        other = started(*words, stderr=file, rate=HURRIED)
    try:
        wait_for(lambda: "another logger reads it" in said.read_text())
        os.write(ours, FRAME * 2)
        wait_for(lambda: count(tmp_path / "logs") == 2)
    finally:
        for process in one, other:
            process.kill()
            process.communicate()
        os.close(ours)
        os.close(theirs)


FEED = b"""# logresp Q0CALL unverified, server T2TEST\r
Q1RUN-7>APDW17,Q1DIG,WIDE1*,WIDE2-1,qAR,Q0GATE-1:!5432.58N/00327.36W>caf\xc3\xa9 <0x41>\r
Q1RUN-7>APDW17,qAO,Q0OTHER:!5432.58N/00327.36W>caf\xc3\xa9 <0x41>\r
Q1NET>APDW17,TCPIP*,qAC,T2TEST:>sent over the net alone\r
Q1NET>APDW17,TCPIP*,qAR,Q0GATE-1:>sent over the net alone\r
Q1lower>APDW17,qAR,Q0GATE-1:>no call\r
"""


def test_a_feed_of_aprs_is(server: Server) -> None:
    options = "--call", "Q0CALL", "--filter", "r/54.5/-3.5/50"
    with server.start(*options, kind="--aprs-is") as process:
        with server.accept() as connection:
            login = connection.recv(200)
            assert login.startswith(b"user Q0CALL pass -1 vers aprs-net ")
            assert login.endswith(b" filter r/54.5/-3.5/50\r\n")
            connection.sendall(FEED[:200])
            connection.sendall(FEED[200:])
            wait_for(lambda: server.count() == 2)
        # a server that is started again doesn't end it, and what is there stays
        with server.accept() as connection:
            assert connection.recv(200) == login
            connection.sendall(FEED)
            wait_for(lambda: server.count() == 4)
        process.terminate()
        assert process.wait() == 0
    lines = logs(server.folder / "logs")["RX1.log"]
    heard = [it.receiver for it in map(log_file.read_line, lines) if it]
    assert heard == ["Q0GATE-1", "Q0OTHER"] * 2
    frame = ax25.frame("Q1RUN-7", "APDW17,Q1DIG,WIDE1*,WIDE2-1",
                       "!5432.58N/00327.36W>caf\xe9 <0x41>".encode())
    assert lines[0].endswith(kiss.wrap(frame).hex().encode())
    said = server.said.read_text()
    assert "Q1lower is no call" in said and "unverified" in said


FORGED = b"Q1BAD>APDW17,qAR,Q0GATE-1:>it stands within a line\n"
GOOD = b"Q1RUN-7>APDW17,qAR,Q0GATE-1:>Hi\r\n"


@pytest.mark.parametrize("size", [1, 100, 2049, 4096, 200_000])
def test_a_line_that_is_too_long_is_noise_to_its_end(size: int) -> None:
    """However it is cut, no part of it is a packet, and it is said once."""
    said: List[str] = []
    lines = feed.Lines(said.append)
    long = b"x" * (feed.LONGEST + 1)
    stream = GOOD + long + FORGED + long * 9 + FORGED + GOOD
    heard = [it for at in range(0, len(stream), size) for it in lines.feed(stream[at:at + size])]
    frame = kiss.wrap(ax25.frame("Q1RUN-7", "APDW17", b">Hi"))
    assert heard == [("Q0GATE-1", frame)] * 2 and said == [feed.NOISE] * 2


def test_what_a_server_says_is_no_order_to_a_terminal() -> None:
    """And a text off the air isn't what a server says."""
    said: List[str] = []
    feed_of = feed.Lines(said.append).feed
    assert [*feed_of(b"# logresp \x1b]0;x\x07\n# port full \x1b[2J\nQ1X>APRS:>full\x1b[2J\n")] == []
    assert len(said) == 2 and all(map(str.isprintable, said))


@pytest.mark.parametrize("name", ["SIGHUP", "SIGINT"])
@pytest.mark.parametrize("words", [["log", "RX1"], ["follow", "--every", "60", "logs"]])
def test_a_signal_that_is_ignored_ends_nothing(
        tmp_path: pathlib.Path, words: List[str], name: str) -> None:
    """As with nohup, once the terminal is closed."""
    number = getattr(signal, name)
    process = started(*words, "made", cwd=tmp_path, stdin=subprocess.PIPE,
                      preexec_fn=lambda: signal.signal(number, signal.SIG_IGN))
    assert process.stdin is not None and process.stderr is not None
    process.stdin.write(FRAME)
    process.stdin.flush()
    if words[0] == "log":
        wait_for(lambda: count(tmp_path / "made") == 1)
    else:
        process.stderr.readline()  # there are no logs
    process.send_signal(number)
    with pytest.raises(subprocess.TimeoutExpired):
        process.wait(0.5)
    process.kill()
    process.communicate()


def test_words_are_said_whatever_standard_error_is(monkeypatch: pytest.MonkeyPatch) -> None:
    def refuse(*_: object) -> None:
        raise OSError("full")
    monkeypatch.setattr(os, "write", refuse)
    log_command.say("nothing happens")
