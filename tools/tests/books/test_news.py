"""aprs-net book --news-to: what an old book lacks, written whole or not at all."""
import hashlib
import pathlib

import pytest

from conftest import EVENING, program, run, tried


@pytest.fixture
def old(tmp_path: pathlib.Path) -> pathlib.Path:
    """The book of the first log of an evening, where aprsbook-fold is there."""
    program("aprsbook-fold")
    path = tmp_path / "old.book"
    path.write_bytes(run("aprsbook", "merge", EVENING[0]))
    return path


def test_news_and_the_old_book_are_the_book_of_all(old: pathlib.Path) -> None:
    news = old.with_name("news.book")
    tried("book", "--news-to", old, *EVENING, "-o", news)
    assert run("aprsbook", "merge", old, news) == run("aprsbook", "merge", *EVENING)
    known = old.read_bytes().splitlines()
    assert not set(news.read_bytes().splitlines()[1:-1]) & set(known[1:-1])


def test_the_name_says_what_news_were_made_against(old: pathlib.Path) -> None:
    done = tried("book", "--news-to", "old.book", *EVENING, cwd=old.parent)
    octets = old.read_bytes()
    digest, rows = hashlib.sha256(octets).hexdigest(), octets.count(b"\n") - 2
    assert old.with_name(f"old-news-{rows}-{digest[:12]}.book").exists()
    assert f"{rows} rows, sha256 {digest}" in done.stderr.decode()


def test_of_what_is_known_nothing_is_new(old: pathlib.Path) -> None:
    tried("book", "--news-to", old, EVENING[0], old, "-o", old.with_name("news.book"))
    assert old.with_name("news.book").read_bytes() == b"APRSBOOK 3 30\nEND 0\n"


def test_a_faulty_book_leaves_what_is_there(old: pathlib.Path) -> None:
    news, cut = old.with_name("news.book"), old.with_name("cut.book")
    tried("book", "--news-to", old, *EVENING, "-o", news)
    before = news.read_bytes()
    cut.write_bytes(old.read_bytes()[:-4])
    for arguments in ([old, cut], [cut, old], [old.with_name("no.book"), old]):
        tried("book", "--news-to", *arguments, "-o", news, status=1)
        assert news.read_bytes() == before


def test_an_old_book_is_never_written_over(old: pathlib.Path) -> None:
    before = old.read_bytes()
    tried("book", "--news-to", old, *EVENING, "-o", old, status=2)
    assert old.read_bytes() == before
    tried("book", "--news-to", old, *EVENING, "--anew", status=2)
    tried("book", "-o", old, "net.book", *EVENING, status=2)
    tried("book", "net.book", cwd=old.parent, status=2)
