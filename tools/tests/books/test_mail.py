"""aprs-net mail: what is new to each neighbour, and news whose base isn't there."""
import pathlib
import signal
import subprocess
import time
from typing import List, Sequence

import pytest
from conftest import EVENING, command, environment, program, run

from aprsbook_tools import cli
from aprsbook_tools.books import bases

COAST, HILL, NORTH = EVENING


class Club:
    """A club with one log in its book, and two neighbours."""

    def __init__(self, folder: pathlib.Path, capture: pytest.CaptureFixture[str]) -> None:
        self.folder, self.capture, self.said = folder, capture, ""
        self.own, self.bay, self.fell = folder / "own.book", folder / "bay", folder / "fell"
        for it in self.bay, self.fell:
            (it / "in").mkdir(parents=True)
        self.own.write_bytes(run("aprsbook", "merge", HILL))

    def net(self, *words: object, status: int = 0) -> str:
        """What aprs-net, which ends so, prints; `said` is what it says."""
        self.capture.readouterr()
        ended = cli.run([*map(str, words)])
        out, self.said = self.capture.readouterr()
        assert ended == status, (words, ended, self.said)
        return out

    def mail(self, *words: str, status: int = 0) -> List[pathlib.Path]:
        """The files that are to be sent."""
        out = self.net("mail", *words, self.folder, status=status)
        return [*map(pathlib.Path, out.splitlines())]

    def grow(self, *inputs: object) -> None:
        self.net("book", self.own, *inputs)


@pytest.fixture
def club(tmp_path: pathlib.Path, capfd: pytest.CaptureFixture[str]) -> Club:
    """The club, where aprsbook-fold is there."""
    program("aprsbook-fold")
    return Club(tmp_path / "club", capfd)


def rows(path: pathlib.Path) -> Sequence[bytes]:
    return path.read_bytes().splitlines()[1:-1]


def test_each_gets_what_it_was_not_sent(club: Club) -> None:
    first = club.mail()
    assert [it.parent.name for it in first] == ["bay", "fell"]
    assert all(it.read_bytes() == club.own.read_bytes() for it in first)
    club.mail("--sent", "bay")
    assert not first[0].exists() and first[1].exists()
    club.grow(COAST)
    second = club.mail()
    known = {*rows(club.bay / "sent.book")}
    assert rows(second[0]) and not known & {*rows(second[0])}
    assert second[1] == first[1]  # as it was: it may be on its way
    assert run("aprsbook", "merge", second[0], club.bay / "sent.book") == club.own.read_bytes()
    club.mail("--sent", "bay", "--sent", "fell")
    assert (club.bay / "sent.book").read_bytes() == club.own.read_bytes()
    assert [it.parent.name for it in club.mail()] == ["fell"]
    club.mail("--sent", "fell")
    assert club.mail() == [] and club.said.count("nothing is new") == 2


def test_what_was_not_sent_is_made_anew(club: Club) -> None:
    for it in club.mail():
        it.unlink()
    club.grow(COAST)
    assert all(it.read_bytes() == club.own.read_bytes() for it in club.mail())


def test_what_came_from_a_neighbour_is_not_sent_back(club: Club) -> None:
    came = club.fell / "in" / "theirs.book"
    came.write_bytes(run("aprsbook", "merge", NORTH))
    (club.fell / "in" / "bad.book").write_bytes(came.read_bytes()[:-4])
    club.grow(came)
    bay, fell = club.mail()
    assert "bad.book is passed over" in club.said
    assert bay.read_bytes() == club.own.read_bytes()
    assert {*rows(fell)} == {*rows(bay)} - {*rows(came)}
    assert run("aprsbook", "merge", came, fell) == bay.read_bytes()


def test_news_whose_base_is_missing_are_said(club: Club, tmp_path: pathlib.Path) -> None:
    """Of three that were sent the second got lost; once it comes all is well."""
    mail, theirs = [], tmp_path / "theirs.book"
    for log in HILL, COAST, NORTH:
        club.grow(log)
        file = club.mail()[0]
        mail.append(tmp_path / file.name)
        mail[-1].write_bytes(file.read_bytes())
        club.mail("--sent", "bay")

    def take(*files: pathlib.Path) -> str:
        club.net("book", theirs, *map(str, files))
        return club.said

    lacks = "is news to a book that is neither"
    assert take(mail[0]) == ""
    said = take(mail[2])
    assert mail[2].name in said and lacks in said
    assert lacks in take(mail[2], mail[0])
    assert take(mail[1]) == "" and take(mail[2]) == ""
    assert theirs.read_bytes() == club.own.read_bytes()
    theirs.unlink()
    assert take(*mail) == "" == take(mail[2])


def test_a_base_among_the_inputs_is_there(club: Club, tmp_path: pathlib.Path) -> None:
    old = tmp_path / "old.book"
    old.write_bytes(run("aprsbook", "merge", HILL))
    other = tmp_path / "other.book"  # as many rows, and others
    other.write_bytes(old.read_bytes().replace(b"HILL", b"HALL"))
    news = tmp_path / bases.name_of(str(old), bases.base_of(str(old)))
    club.net("book", "--news-to", old, *EVENING, "-o", news)
    club.net("book", tmp_path / "a.book", news, other)
    assert "is news to" in club.said
    club.net("book", tmp_path / "b.book", news, old)
    club.net("book", old, news)
    assert "is news to" not in club.said
    assert old.read_bytes() == (tmp_path / "b.book").read_bytes()


def test_wrong_words(club: Club, tmp_path: pathlib.Path) -> None:
    (tmp_path / "empty").mkdir()
    club.net("mail", tmp_path / "empty", status=1)
    assert "no folder of a neighbour" in club.said
    club.net("mail", tmp_path / "no", status=1)
    assert f"{tmp_path / 'no'}: No such file" in club.said
    club.mail("--sent", "hill", status=2)
    assert "bay, fell" in club.said
    club.own.unlink()
    club.mail(status=1)
    assert "own.book: no such book" in club.said


def test_one_faulty_neighbour_is_no_other_ones_fault(club: Club) -> None:
    sent = club.bay / "sent.book"
    sent.write_bytes(run("aprsbook", "merge", HILL)[:-4])
    before = sent.read_bytes()
    assert [it.parent.name for it in club.mail(status=1)] == ["fell"]
    assert sent.read_bytes() == before
    sent.write_bytes(run("aprsbook", "merge", "--gap", "60", HILL))
    club.mail(status=1)
    assert "has the gap 60" in club.said and "all is sent again" in club.said
    sent.write_bytes(b"")  # as a power failure leaves one
    club.mail(status=1)
    assert f"{sent} is no book: put back a copy" in club.said and "None" not in club.said


def test_a_killed_run_loses_nothing(club: Club, tmp_path: pathlib.Path) -> None:
    """Whenever it is killed: what is there is whole, and all that isn't said to be sent waits."""
    theirs, runs = tmp_path / "theirs.book", [["mail"], ["mail", "--sent", "bay"]]
    for turn in range(8):
        club.grow(EVENING[turn % 3])
        for words in runs:
            running = subprocess.Popen(
                command(*words, club.folder), env=environment(),
                stdout=subprocess.DEVNULL, stderr=subprocess.DEVNULL)
            time.sleep(0.1 + 0.05 * turn)
            running.send_signal(signal.SIGKILL)
            running.wait()
            files = [*club.bay.glob("*.book")]
            if files:  # so much reached them, at this moment
                club.net("book", theirs, *files)
                assert "is news to" not in club.said
    club.mail()
    club.mail("--sent", "bay")
    club.mail()
    club.mail("--sent", "bay")
    club.net("book", theirs, club.bay / "sent.book")
    wanted = run("aprsbook", "merge", *EVENING)
    assert theirs.read_bytes() == (club.bay / "sent.book").read_bytes() == wanted
