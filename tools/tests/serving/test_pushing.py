"""Who pushes: where it goes on in a log, by what the server has, and how long it waits."""
import itertools
import os
import pathlib
from typing import Any, Callable, Dict, List, Optional, Tuple

import pytest

from aprsbook_tools import cli
from aprsbook_tools.errors import ExitStatus
from aprsbook_tools.formats import ax25, kiss, log_file, moments
from aprsbook_tools.serving import pushing
from aprsbook_tools.serving.pushing import Away, Log, Place, Pusher, Server, pauses
from aprsbook_tools.serving.states import EMPTY, State
from aprsbook_tools.system.clock import CLOCK

DAY = "2024-06-21"
NOON = moments.milliseconds(f"{DAY}T12:00:00Z")


def lines_of(count: int) -> List[bytes]:
    """Lines of a log, each with its end."""
    return [log_file.of_frame(NOON + it, "HILL", kiss.wrap(ax25.frame("Q1A", "APRS", b">%d" % it))
                              ).write() for it in range(count)]


def state_of(lines: List[bytes]) -> State:
    state = EMPTY
    for it in lines:
        state = state.plus(it[:-1])
    return state


def log_of(folder: pathlib.Path, lines: List[bytes]) -> Log:
    path = folder / "HILL.log"
    path.write_bytes(b"".join(lines))
    return Log(str(path), DAY, "HILL")


def test_it_goes_on_behind_the_lines_that_the_server_has(tmp_path: pathlib.Path) -> None:
    lines = lines_of(40)
    for count in 0, 1, 5, 39, 40:
        last = tuple(it[:-1] for it in lines[:count][-pushing.NEAR:])
        found = log_of(tmp_path, lines).find(state_of(lines[:count]))
        assert found == Place(sum(map(len, lines[:count])), state_of(lines[:count]), True, last)


def test_of_a_server_with_other_lines_it_begins_again(tmp_path: pathlib.Path) -> None:
    lines = lines_of(5)
    other = state_of(lines_of(7)[1:])
    assert log_of(tmp_path, lines).find(other) == Place(0, other, False)
    # what isn't sent counts neither: no line of this log, and one that stands there again
    torn = [lines[0], b"torn\n", lines[0], *lines[1:]]
    found = log_of(tmp_path, torn).find(state_of(lines[:2]))
    assert found.at == sum(map(len, torn[:4])) and found.is_alone


def test_where_it_was_is_not_looked_for(tmp_path: pathlib.Path) -> None:
    """After the server was away."""
    log = log_of(tmp_path, lines_of(5))
    log.place = Place(7, state_of(lines_of(3)), True)
    log.forget()
    assert log.place is None and log.find(state_of(lines_of(3))).at == 7


def test_pauses_grow_to_ten_seconds() -> None:
    for _ in range(50):
        for wanted, pause in zip([1, 2, 4, 8, 10, 10, 10], itertools.islice(pauses(), 7)):
            assert 0.5 * wanted <= pause < 1.5 * wanted


class Flaky(Pusher):
    """Its server is away for some rounds, and then there; after the last round it is ended."""

    def __init__(self, rounds: List[bool], say: pushing.Say) -> None:
        super().__init__(Server("http://127.0.0.1:9/", ""), "HILL", "nowhere", 1, say)
        self.rounds, self.forgotten = iter(rounds), 0

    def push(self) -> None:
        is_there = next(self.rounds, None)
        if is_there is None:
            raise KeyboardInterrupt
        if not is_there:
            raise Away("nobody answers")

    def forget(self) -> None:
        self.forgotten += 1


def test_a_server_that_is_away_is_told_once(monkeypatch: pytest.MonkeyPatch) -> None:
    said: List[str] = []
    waits: List[float] = []
    monkeypatch.setattr(CLOCK, "wait", waits.append)
    its = Flaky([True, False, False, False, True, True, False], said.append)
    with pytest.raises(KeyboardInterrupt):
        pushing.push_on(its, 0.25, said.append)
    away = "nobody answers; it is tried again"
    assert said == [away, "the server is there again", away] and its.forgotten == 4
    assert [it == 0.25 for it in waits] == [True, False, False, False, True, True, False]
    assert 2 <= waits[3] < 6 and waits[6] < 1.5  # it begins with short pauses again


class Refusing:
    """A server that refuses the lines of these numbers, in logs that are new to it."""

    def __init__(self, *numbers: int) -> None:
        self.numbers, self.taken = numbers, b""

    def ask(self, method: str, path: str, body: bytes = b"", after: Optional[State] = None
            ) -> Tuple[int, Dict[str, Any]]:
        if method == "GET":
            return 200, {path[-len(DAY):]: EMPTY.text}
        lines = [*enumerate(body.splitlines(True), 1)]
        good = [it for number, it in lines if number not in self.numbers]
        self.taken += b"".join(good)
        refused = [[number, "Hex", ""] for number, _ in lines if number in self.numbers]
        return 200, {"state": state_of(good).text, "judged": len(lines), "added": len(good),
                     "known": 0, "refused": refused}


@pytest.mark.parametrize("numbers, status, words", [
    ((), ExitStatus.DONE, "lines pushed: 10; there before: 0\n"),
    ((1, 3), ExitStatus.INPUT, "lines pushed: 6; there before: 0; not taken: 4\n")])
def test_once_fails_where_lines_are_refused(
        monkeypatch: pytest.MonkeyPatch, capfd: pytest.CaptureFixture[str],
        tmp_path: pathlib.Path, numbers: Tuple[int, ...], status: ExitStatus, words: str) -> None:
    """It ended with 0, after the same count. All that can be taken is, also of later logs."""
    server = Refusing(*numbers)
    # it stands in for a server
    monkeypatch.setattr(pushing, "Server", lambda *_: server)
    for day in "2024-06-20", DAY:
        lines = [it.replace(DAY.encode(), day.encode()) for it in lines_of(5)]
        (tmp_path / day).mkdir()
        (tmp_path / day / "HILL.log").write_bytes(b"".join(lines))
    assert cli.run(["push", "--once", "http://net.example/", "HILL", str(tmp_path)]) == status
    assert capfd.readouterr().err.endswith(words)
    assert server.taken.count(b"\n") == 10 - 2 * len(numbers)


@pytest.mark.parametrize("make", [os.mkdir, getattr(os, "mkfifo", os.mkdir)])
def test_a_log_that_cant_be_read_holds_up_no_other(
        monkeypatch: pytest.MonkeyPatch, capfd: pytest.CaptureFixture[str],
        tmp_path: pathlib.Path, make: Callable[[pathlib.Path], None]) -> None:
    """A folder of the name of an older log kept today's from the server for good, and a pipe was
    waited for."""
    server = Refusing()
    monkeypatch.setattr(pushing, "Server", lambda *_: server)
    bad = tmp_path / "2024-06-20" / "HILL.log"
    bad.parent.mkdir()
    make(bad)
    (tmp_path / DAY).mkdir()
    (tmp_path / DAY / "HILL.log").write_bytes(b"".join(lines_of(5)))
    status = cli.run(["push", "--once", "http://net.example/", "HILL", str(tmp_path)])
    assert status == ExitStatus.INPUT and server.taken == b"".join(lines_of(5))
    assert str(bad) in capfd.readouterr().err


def test_once_fails_where_no_log_is(capfd: pytest.CaptureFixture[str], tmp_path: pathlib.Path
                                    ) -> None:
    """Of a folder or a name that was mistyped it ended with 0, as if all were pushed."""
    (tmp_path / DAY).mkdir()
    (tmp_path / DAY / "HILL.log").write_bytes(b"".join(lines_of(5)))
    for name, folder in ("HILLS", tmp_path), ("HILL", tmp_path / "nowhere"):
        status = cli.run(["push", "--once", "http://127.0.0.1:9/", name, str(folder)])
        said = capfd.readouterr().err
        assert (status, said) == (1, f"aprs-net: in {folder} is no log of {name}\n")
