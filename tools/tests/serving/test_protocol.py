"""The protocol of pushing, over a way that loses, repeats and reorders questions and answers,
between ends that are restarted and lose lines. When it rests both ends have the same lines."""
import pathlib
import random
from typing import Any, Dict, List, Optional, Set, Tuple

import pytest
from hypothesis import example, given, settings
from hypothesis import strategies as st

from aprsbook_tools.formats import log_file
from aprsbook_tools.serving import judging, pushing
from aprsbook_tools.serving.line_file import Batch, LineFile
from aprsbook_tools.serving.pushing import Away, Pusher
from aprsbook_tools.serving.states import State, state_in

DAY = "2024-06-21"
Question = Tuple[str, str, bytes, Optional[State]]


def line(number: int, name: str = "HILL") -> bytes:
    return b"%sT18:00:%02d.%03dZ %s c0%02xc0" % (
        DAY.encode(), number // 1000 % 60, number % 1000, name.encode(), number % 256)


def judged(lines: List[bytes]) -> judging.Judged:
    """What `aprsbook check` says, here by what the pusher asks too."""
    good = [it for it in lines if log_file.read_line(it) is not None]
    refused = [judging.Refused.of(number, "Hex", it) for number, it in enumerate(lines, 1)
               if log_file.read_line(it) is None]
    return judging.Judged(good, refused, len(lines))


class Base:
    """A server's end, without a network before it."""

    def __init__(self, folder: pathlib.Path) -> None:
        self.folder = folder
        self.restart()

    def restart(self) -> None:
        self.files: Dict[str, LineFile] = {}

    def log(self, name: str) -> LineFile:
        path = self.folder / DAY / f"{name}.log"
        return self.files.setdefault(name, LineFile(str(path), 1 << 30))

    def ask(self, method: str, path: str, body: bytes, after: Optional[State]
            ) -> Tuple[int, Dict[str, Any]]:
        name = path.split("?")[0].split("/")[2]
        if method == "GET":
            return 200, {DAY: self.log(name).look().text}
        it = judging.Own(name, DAY).sift(judged(body.split(b"\n")[:-1]))
        with self.log(name).adding([Batch(it.good, after)], lambda text: None) as addition:
            addition.write()
        [taken] = addition.taken
        return 200 if taken.fits else 409, {
            "state": taken.state.text, "added": taken.added, "known": taken.known,
            "judged": it.total, "refused": [[of.number, of.why, ""] for of in it.refused]}

    def lines(self, name: str = "HILL") -> List[bytes]:
        path = self.folder / DAY / f"{name}.log"
        return path.read_bytes().split(b"\n")[:-1] if path.exists() else []


class Way:
    """The way to a server: what goes over it may be lost on either leg, and come again later."""

    def __init__(self, base: Base, chance: random.Random, trouble: float) -> None:
        self.base, self.chance, self.trouble = base, chance, trouble
        self.late: List[Question] = []  # what comes again

    def close(self) -> None:
        pass

    def ask(self, method: str, path: str, body: bytes = b"", after: Optional[State] = None
            ) -> Tuple[int, Dict[str, Any]]:
        for it in [*self.late]:
            if self.chance.random() < .3:
                self.late.remove(it)
                self.base.ask(*it)
        if self.chance.random() < self.trouble:
            if self.chance.random() < .5:
                self.late.append((method, path, body, after))
            raise Away("lost on the way there")
        answer = self.base.ask(method, path, body, after)
        if self.chance.random() < self.trouble:
            self.late.append((method, path, body, after))
        if self.chance.random() < self.trouble:
            raise Away("lost on the way back")
        return answer


def pusher_of(way: Way, folder: pathlib.Path, name: str = "HILL") -> Pusher:
    # the way stands in for a server
    return Pusher(way, name, str(folder), 7, lambda text: None)  # type: ignore[arg-type]


def push(it: Pusher) -> None:
    try:
        it.push()
    except Away:
        it.forget()


class Site:
    """A site with its own log, which is cut and torn at times."""

    def __init__(self, folder: pathlib.Path, way: Way, first: int) -> None:
        self.path, self.way, self.folder = folder / DAY / "HILL.log", way, folder
        self.path.parent.mkdir(parents=True)
        self.number, self.written = first, set()  # type: int, Set[bytes]
        self.pusher = pusher_of(way, folder)

    def hear(self, count: int, chance: random.Random) -> None:
        with open(self.path, "ab") as file:
            for _ in range(count):
                self.number += 1
                it = line(self.number)
                kind = chance.randrange(12)
                if kind == 0:
                    it = b"no line of a log"
                elif kind == 1:
                    it = line(self.number, "OTHER")
                elif kind == 2 and self.number > 2:
                    it = line(self.number - 1)  # the same once more
                file.write(it + b"\n")
                if kind not in (0, 1):
                    self.written.add(it)

    def restart(self) -> None:
        self.pusher = pusher_of(self.way, self.folder)


def cut(path: pathlib.Path, chance: random.Random) -> None:
    """What a power failure leaves of a file, where nobody has synced it."""
    if path.exists():
        octets = path.read_bytes()
        left = octets[:chance.randint(0, len(octets))]
        more = chance.choice([b"", b"\0" * 9, b"torn"])
        # with other text in its first line it is no log, to which nobody writes
        path.write_bytes(left + (more if b"\n" in left or more != b"torn" else b""))


@settings(max_examples=60)
@example(seed=15317, sites=2, trouble=.1)  # cut within its first line
@example(seed=14410031, sites=1, trouble=0)  # lost lines while all were sent, and nobody noticed
@given(seed=st.integers(0, 1 << 30), sites=st.integers(1, 2),
       trouble=st.sampled_from([0, .1, .4]))
def test_both_ends_are_equal_in_the_end(
        tmp_path_factory: pytest.TempPathFactory, seed: int, sites: int, trouble: float) -> None:
    chance, folder = random.Random(seed), tmp_path_factory.mktemp("way")
    base = Base(folder / "base")
    way = Way(base, chance, trouble)
    its = [Site(folder / f"site{k}", way, 10_000 * k) for k in range(sites)]
    with pytest.MonkeyPatch.context() as patch:
        patch.setattr(pushing, "BATCH", 400)
        patch.setattr(pushing, "PIECE", 300)
        for _ in range(chance.randrange(1, 25)):
            it = chance.choice(its)
            what = chance.randrange(8)
            if what < 3:
                it.hear(chance.randrange(1, 9), chance)
            elif what < 6:
                push(it.pusher)
            elif what == 6:
                it.restart()
            else:
                base.restart()
                if chance.random() < .5:
                    cut(folder / "base" / DAY / "HILL.log", chance)
        way.trouble = 0
        for _ in range(3):  # whoever's connection ended asks again
            for it in its:
                it.pusher.forget()
                push(it.pusher)
    written = set().union(*(it.written for it in its))
    assert written <= {*base.lines()}
    assert {*base.lines()} <= written and len(base.lines()) == len(written)


@settings(max_examples=30)
@given(seed=st.integers(0, 1 << 30))
def test_a_ring_of_servers_ends(tmp_path_factory: pytest.TempPathFactory, seed: int) -> None:
    chance, folder = random.Random(seed), tmp_path_factory.mktemp("ring")
    bases = [Base(folder / f"base{k}") for k in range(3)]
    ways = [Way(it, chance, .1) for it in bases]
    ring = [pusher_of(ways[(k + 1) % 3], bases[k].folder) for k in range(3)]
    sites = [Site(folder / f"site{k}", ways[k], 10_000 * k) for k in range(2)]
    pushers = [*ring, *(it.pusher for it in sites)]
    for _ in range(40):
        if chance.random() < .5:
            chance.choice(sites).hear(chance.randrange(1, 5), chance)
        push(chance.choice(pushers))
    for it in ways:
        it.trouble = 0
        it.late.clear()
    for _ in range(8):
        for pusher in pushers:
            push(pusher)
    written = set().union(*(it.written for it in sites))
    for base in bases:
        assert {*base.lines()} == written and len(base.lines()) == len(written)
    before = [it.added for it in pushers]
    for pusher in pushers:
        push(pusher)
    assert [it.added for it in pushers] == before  # nothing goes round any more


def test_nothing_is_sent_again_after_a_break(tmp_path: pathlib.Path) -> None:
    base = Base(tmp_path / "base")
    way = Way(base, random.Random(1), 0)
    site, other = Site(tmp_path / "one", way, 0), Site(tmp_path / "two", way, 10_000)
    for it in (site, other):
        it.path.write_bytes(b"".join(line(it.number + k) + b"\n" for k in range(9)))
        push(it.pusher)
    known = site.pusher.known + other.pusher.known
    other.pusher.forget()  # the link was cut
    push(other.pusher)
    assert site.pusher.known + other.pusher.known == known


def test_an_answer_about_the_first_lines_alone(tmp_path: pathlib.Path) -> None:
    base = Base(tmp_path / "base")
    own = base.ask

    def some(method: str, path: str, body: bytes, after: Optional[State]
             ) -> Tuple[int, Dict[str, Any]]:
        lines = body.split(b"\n")[:-1]
        status, says = own(method, path, b"".join(it + b"\n" for it in lines[:2]), after)
        return status, {**says, "judged": min(2, len(lines))} if lines else says
    setattr(base, "ask", some)
    site = Site(tmp_path / "one", Way(base, random.Random(1), 0), 0)
    lines = [line(1), b"no line", line(2), line(2), line(3), line(4), line(5)]
    site.path.write_bytes(b"".join(it + b"\n" for it in lines))
    push(site.pusher)
    assert base.lines() == [line(1), line(2), line(3), line(4), line(5)]
    assert site.pusher.added == 5


def test_answers_that_are_none(tmp_path: pathlib.Path) -> None:
    base = Base(tmp_path / "base")
    site = Site(tmp_path / "one", Way(base, random.Random(1), 0), 0)
    site.path.write_bytes(line(1) + b"\n")
    for says in ({}, {DAY: 5}, {DAY: "x"}):
        setattr(base, "ask", lambda *of, it=says: (200, it))
        with pytest.raises(Away):
            site.pusher.push()
    assert state_in("0-" + 32 * "0") == State()


@pytest.mark.parametrize("count, is_whole", [(7, True), (6, False)])
def test_a_server_that_has_lost_lines_is_not_believed(
        tmp_path: pathlib.Path, count: int, is_whole: bool) -> None:
    """It had five lines, and says that it has added two."""
    it = pusher_of(Way(Base(tmp_path), random.Random(1), 0), tmp_path)
    log, sent = pushing.Log(str(tmp_path / "HILL.log"), DAY, "HILL"), [line(1), line(2)]
    before, piece = pushing.Place(0, State(5), True), pushing.Piece(sent, 2 * len(line(1)) + 2)
    says = {"state": State(count).text, "added": 2, "known": 0, "judged": 2, "refused": []}
    if is_whole:
        assert it.place_of(before, piece, sent, says, log) == pushing.Place(
            piece.end, State(count), True, (*sent,))
    else:
        with pytest.raises(Away, match="lost lines"):
            it.place_of(before, piece, sent, says, log)


def test_what_somebody_else_adds_does_not_end_a_push(tmp_path: pathlib.Path) -> None:
    """Or `push --once` would leave the rest behind."""
    base = Base(tmp_path / "base")
    site = Site(tmp_path / "one", Way(base, random.Random(1), 0), 0)
    site.path.write_bytes(line(1) + b"\n")
    site.pusher.push()
    base.ask("POST", f"/push/HILL/{DAY}", line(9) + b"\n", None)
    site.path.write_bytes(line(1) + b"\n" + line(2) + b"\n")
    site.pusher.push()
    assert base.lines() == [line(1), line(9), line(2)]
