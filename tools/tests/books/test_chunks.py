"""Pieces of logs: each line is in one of them, whole, and a fault is found again in its log."""
import os
import pathlib
import tempfile
from typing import IO, Iterator, List

import pytest
from hypothesis import example, given
from hypothesis import strategies as st

from aprsbook_tools.books import building, chunks, jobs
from aprsbook_tools.errors import ExitStatus, Fault
from aprsbook_tools.system import programs

LINES = st.lists(st.sampled_from([b"", b"a", b"2024-06-21T18:00:00Z RX1 c0c0", b"APRSBOOK 3 30",
                                  b"x" * 9000, b"\xff\r"]))


@given(LINES, st.booleans(), st.integers(1, 20_000))
@example([b"a", b"APRSBOOK 3 30", b"b"], True, 1)  # the cuts had no end
def test_ranges_are_the_log(lines: List[bytes], is_whole: bool, step: int) -> None:
    text = b"\n".join(lines) + b"\n" * is_whole
    with tempfile.TemporaryDirectory() as folder:
        path = os.path.join(folder, "log")
        pathlib.Path(path).write_bytes(text)
        found = [it for _, it in chunks.cut(path, step)]
        assert b"".join(b"".join(chunks.blocks(it)) for it in found) == text
        ends = [it.end for it in found]
        assert [it.start for it in found] == [0, *ends][:-1] and (ends or [0])[-1] == len(text)
        for it in found[1:]:
            assert text[it.start - 1:it.start] == b"\n"
            assert text[it.start:it.start + 8] != b"APRSBOOK"
        total = sum(map(chunks.lines_of, found))
        assert total == len(text.splitlines(True)) or b"\r" in text
        for number in range(1, total + 1):
            assert chunks.place(found, number) == (path, number)


def test_a_piece_has_what_all_heard_of_a_time(tmp_path: pathlib.Path) -> None:
    days = [f"2024-06-{day}T00:00:00Z RX1 c0c0\n".encode() for day in range(10, 30)]
    for name in "a", "b", "c":
        (tmp_path / name).write_bytes(b"".join(line * (3 << 15) for line in days))
    paths = [str(tmp_path / it) for it in "abc"]
    size = 6 << 20
    found = chunks.of(paths, size)
    for piece in found[:-1]:
        assert {it.path for it in piece} == set(paths)
        assert size // 2 < sum(it.end - it.start for it in piece) <= size * 9 // 8
    assert sum(it.end - it.start for piece in found for it in piece) == \
        sum(map(os.path.getsize, paths))


def test_a_log_that_grows_while_it_is_read(tmp_path: pathlib.Path) -> None:
    """The rest of a line that was being written is read, and no further line."""
    log = tmp_path / "log"
    log.write_bytes(b"one\ntwo\nthr")
    [(_, it)] = chunks.cut(str(log), 100)
    log.write_bytes(b"one\ntwo\nthree\nfour\n")
    assert b"".join(chunks.blocks(it)) == b"one\ntwo\nthree\n"


def test_a_result_is_that_of_its_job(tmp_path: pathlib.Path,
                                     monkeypatch: pytest.MonkeyPatch) -> None:
    monkeypatch.setattr(jobs, "version", lambda: "1")
    monkeypatch.setattr(jobs, "fold", lambda gap, books, into, *bounds: into.write(b"a book"))
    monkeypatch.setattr(jobs, "check_made", lambda *_: None)
    path = str(tmp_path / "level1.book")
    job = jobs.Fold(path, 30, ("a.book", "b.book"))
    jobs.do(job, kept=True)
    assert jobs.is_whole(job)
    assert not jobs.is_whole(jobs.Fold(path, 30, ("a.book", "b.book"), "Q1A"))
    # also as a worker reads it
    several: List[jobs.Job] = [job, jobs.Merge(path, 30, [chunks.Range("a\udcff.log", 0, 9)]),
                               jobs.Unpack(path, 30, ["a.log.gz"], 9)]
    for it in several:
        (tmp_path / "job").write_text(jobs.text_of(it, "1"))
        assert jobs.name_of(jobs.read(str(tmp_path / "job"))) == jobs.name_of(it)
    (tmp_path / "job").write_text(jobs.text_of(job, "2"))
    with pytest.raises(Fault, match="the job is for 2, and here is 1"):
        jobs.read(str(tmp_path / "job"))
    # and is made again where it was damaged
    for text in b"a booK", b"a boo", b"":
        pathlib.Path(path).write_bytes(text)
        assert not jobs.is_whole(job)
        jobs.do(job, kept=True)
        assert pathlib.Path(path).read_bytes() == b"a book"
    pathlib.Path(path + jobs.SUM).write_bytes(b"[6")
    assert not jobs.is_whole(job)


@given(st.integers(0, 300), st.integers(2, 70))
def test_groups(count: int, most: int) -> None:
    books = [str(it) for it in range(count)]
    found = building.groups(books, most)
    assert [it for group in found for it in group] == books
    assert all(0 < len(it) <= most for it in found)
    assert len(found) == -(-count // most)


def test_bounds_need_the_program_that_folds(monkeypatch: pytest.MonkeyPatch) -> None:
    """Without it each part was the whole book."""
    called: List[str] = []
    monkeypatch.setattr(programs, "is_there", lambda _: False)
    monkeypatch.setattr(programs, "write_book", lambda into, *words: called.append(words[0]))
    with tempfile.TemporaryFile() as into:
        jobs.fold(30, ["a.book"], into)
        jobs.fold(30, ["a.book"], into, "Q1A")
        jobs.fold(30, ["a.book"], into, "", "Q1A")
    assert called == ["aprsbook", "aprsbook-fold", "aprsbook-fold"]


@pytest.mark.parametrize("kind", [ZeroDivisionError, MemoryError])
def test_whatever_ends_a_feeder_is_told(monkeypatch: pytest.MonkeyPatch, kind: type) -> None:
    """Or the book of half a log was a whole one."""
    def fail(it: chunks.Range) -> Iterator[bytes]:
        yield b"a line\n"
        raise kind

    def write_book(into: IO[bytes], *words: str, given: IO[bytes]) -> None:
        assert given.read() == b"a line\n"

    monkeypatch.setattr(chunks, "blocks", fail)
    monkeypatch.setattr(programs, "write_book", write_book)
    with tempfile.TemporaryFile() as into, pytest.raises(Fault) as fault:
        chunks.merge(30, [chunks.Range("a.log", 0, 9)], into)
    assert fault.value.status == (ExitStatus.MEMORY if kind is MemoryError else ExitStatus.OUTPUT)
