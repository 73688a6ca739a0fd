"""aprs-net book: a book only grows, is written whole or not at all, and only where need is.

Each test is run with a stand-in for aprsbook, and with aprsbook itself where it is there."""
import bz2
import gzip
import lzma
import os
import pathlib
import shutil
import subprocess
from typing import Callable, List, Tuple

import pytest

from aprsbook_tools.books import book, building, executors, inputs
from clubs import ALL, Club, runs_of, without_folds, write_large
from conftest import command, started, tried, wait_for


def test_all_logs_and_books_below_a_folder(club: Club) -> None:
    club.lay("logs/a b/coast.log", "coast")
    club.lay("logs/it's/north;echo.log", "north")
    club.path("logs/hill.book").write_bytes(club.merged(30, "hill"))
    assert club.book("net.book", "logs") == ""
    assert club.read() == club.merged(30, *ALL)


def test_standard_input_is_an_input(club: Club) -> None:
    given = club.lay("given", "hill").read_bytes()
    club.lay("coast.log", "coast")
    for _ in range(2):
        tried("book", "net.book", "-", "coast.log", given=given, cwd=club.folder, env=club.env)
        assert club.read() == club.merged(30, "hill", "coast")
    done = tried("book", "net.book", "-", given=b"x\n", status=1, cwd=club.folder, env=club.env)
    assert b"standard input: line 1: " in done.stderr
    done = tried("book", "net.book", "-", given=given[:-1], status=1, cwd=club.folder, env=club.env)
    number = given.count(b"\n")
    assert done.stderr == (b"aprs-net: standard input: line %d: NoNewline: its whole lines are "
                           b"taken; aprs-net mend writes them\n" % number)


def test_nothing_is_made_again_without_need(club: Club) -> None:
    club.lay("logs/hill.log", "hill")
    club.book("net.book", "logs")
    before = os.stat(club.path("net.book"))
    assert club.book("net.book", "logs") == "" and club.runs.read_bytes() == b""
    # also where a log was touched, or is there again under another name
    shutil.copy(club.path("logs/hill.log"), club.path("logs/again.log"))
    club.book("net.book", "logs")
    after = os.stat(club.path("net.book"))
    assert (after.st_ino, after.st_mtime_ns) == (before.st_ino, before.st_mtime_ns)


@pytest.mark.parametrize("pack, ending", [
    (gzip.compress, ".gz"), (lzma.compress, ".xz"), (bz2.compress, ".bz2")])
def test_a_compressed_log_stays_in_the_book(
        club: Club, pack: Callable[[bytes], bytes], ending: str) -> None:
    club.lay("logs/2024-06-21/HILL.log", "hill")
    coast = club.lay("logs/2024-06-21/COAST.log", "coast")
    club.path(f"logs/2024-06-21/COAST.log{ending}").write_bytes(pack(coast.read_bytes()))
    coast.unlink()
    assert club.book("net.book", "logs") == ""
    assert club.read() == club.merged(30, "hill", "coast")
    # and where it was there before it was compressed
    club.path("net.book").unlink()
    club.lay("logs/2024-06-21/COAST.log", "coast")
    club.path(f"logs/2024-06-21/COAST.log{ending}").rename(club.path("kept"))
    club.book("--days", "days", "net.book", "logs")
    club.path("kept").rename(club.path(f"logs/2024-06-21/COAST.log{ending}"))
    coast.unlink()
    assert club.book("--days", "days", "net.book", "logs") == ""
    assert club.read() == club.merged(30, "hill", "coast")


def test_a_compressed_log_that_was_cut_short_is_named(club: Club) -> None:
    packed = gzip.compress(club.lay("kept", "hill").read_bytes())
    club.path("logs").mkdir()
    for cut in len(packed) // 2, len(packed) - 1:
        club.path("logs/HILL.log.gz").write_bytes(packed[:cut])
        said = club.book("net.book", "logs", status=1)
        assert "logs/HILL.log.gz: can't be unpacked to its end" in said
    assert club.read() == club.merged(30, "hill")  # its whole lines are taken


@pytest.mark.parametrize("days", [[], ["--days", "days"]])
def test_a_removed_log_stays_in_the_book(club: Club, days: List[str]) -> None:
    club.lay("logs/2024-06-21/HILL.log", "hill")
    coast = club.lay("logs/2024-06-21/COAST.log", "coast")
    club.book(*days, "net.book", "logs")
    coast.unlink()
    said = club.book(*days, "net.book", "logs")
    assert "logs/2024-06-21/COAST.log is gone: what " in said and said.count("\n") == 1
    assert club.read() == club.merged(30, "hill", "coast")
    # it is said once
    assert club.book(*days, "net.book", "logs") == ""
    shutil.rmtree(club.path("logs/2024-06-21"))
    club.lay("logs/2024-06-22/NORTH.log", "north")
    club.book(*days, "net.book", "logs")
    assert club.read() == club.merged(30, *ALL)


def test_a_log_that_is_there_and_not_named_is_not_gone(club: Club) -> None:
    club.lay("HILL.log", "hill")
    club.lay("COAST.log", "coast")
    club.book("net.book", "HILL.log")
    assert club.book("net.book", "COAST.log") == ""
    assert club.read() == club.merged(30, "hill", "coast")


@pytest.mark.parametrize("days", [[], ["--days", "days"]])
def test_an_emptied_log_stays_in_the_book(club: Club, days: List[str]) -> None:
    hill = club.lay("logs/2024-06-21/HILL.log", "hill")
    club.book(*days, "net.book", "logs")
    hill.write_bytes(b"")
    assert "logs/2024-06-21/HILL.log has become shorter" in club.book(*days, "net.book", "logs")
    assert club.read() == club.merged(30, "hill")


def test_anew_it_is_made_of_the_inputs_alone(club: Club) -> None:
    club.lay("logs/HILL.log", "hill")
    club.book("net.book", "logs")
    club.lay("logs/HILL.log", "coast")
    club.book("net.book", "logs")
    assert club.read() == club.merged(30, "hill", "coast")
    club.book("--anew", "net.book", "logs")
    assert club.read() == club.merged(30, "coast")


def test_a_log_that_goes_while_its_book_is_made(tmp_path: pathlib.Path) -> None:
    """As one that is compressed each night: the book is there, and that is no fault."""
    log, path = tmp_path / "RX1.log", str(tmp_path / "net.book")
    log.write_bytes(b"a line\n")
    pathlib.Path(path).write_bytes(b"a book")
    items = [inputs.look_at(str(log))]
    made = book.made_of(30, items)
    book.remember(path, made, {}, print)
    assert book.remembered(path) == {**made, "sums": {str(log): book.sum_of(str(log), 7)}}
    log.unlink()
    book.remember(path, made, {}, print)
    assert book.remembered(path) == {**made, "sums": {}}


def test_a_log_that_goes_before_it_is_read(tmp_path: pathlib.Path) -> None:
    said: List[str] = []
    it = inputs.Input("", str(tmp_path / "RX1.log"), 9, 1)
    book.say_what_is_gone("net.book", {"inputs": {it.path: [7, 0]}}, [it], said.append)
    plan = building.Plan(30, str(tmp_path))
    made = building.books_of_each(executors.Here(1), plan, [it], lambda *words: said.extend(words))
    assert (made, said) == ([], [it.path, "No such file or directory"])


def test_a_log_that_was_changed_is_named(club: Club) -> None:
    """It may be another receiver's of the same name: what the book has stays."""
    hill = club.lay("logs/RX1.log", "hill")
    club.book("net.book", "logs")
    hill.write_bytes(hill.read_bytes() + club.lay("more", "coast").read_bytes())
    assert club.book("net.book", "logs") == ""
    club.lay("logs/RX1.log", *ALL)
    assert "logs/RX1.log was changed, not only added to" in club.book("net.book", "logs")
    assert club.read() == club.merged(30, *ALL)


def test_without_the_program_that_folds(club: Club) -> None:
    """aprsbook itself merges then."""
    without_folds(club)
    for name in ALL:
        club.lay(f"logs/{name}.log", name)
    club.book("net.book", "logs")
    assert club.read() == club.merged(30, *ALL)


def test_another_gap(club: Club) -> None:
    club.lay("logs/HILL.log", "hill")
    gaps: List[Tuple[int, List[str]]] = [(60, ["--gap", "60"]), (60, []), (90, ["--gap", "90"])]
    for gap, words in gaps:
        assert club.book(*words, "net.book", "logs") == ""
        assert club.read() == club.merged(gap, "hill")
    said = club.book("--gap", "60", "net.book", "logs", status=1)
    assert "narrower" in said and "--anew" in said and club.read() == club.merged(90, "hill")
    club.book("--anew", "--gap", "60", "net.book", "logs")
    assert club.read() == club.merged(60, "hill")


def test_an_input_of_another_gap_is_refused(club: Club) -> None:
    club.lay("logs/HILL.log", "hill")
    club.path("logs/COAST.book").write_bytes(club.merged(60, "coast"))
    assert "other gap" in club.book("net.book", "logs/HILL.log", "logs/COAST.book", status=1)
    assert not club.path("net.book").exists()
    # below a folder it is left out
    assert "COAST.book: other gap: left out" in club.book("net.book", "logs", status=1)
    assert club.read() == club.merged(30, "hill")


def test_a_log_is_never_replaced(club: Club) -> None:
    """Also not one whose name begins with a dot, as of `merge-tree logs logs/..log`."""
    club.lay("logs/HILL.log", "hill")
    for name in "logs/..log", "logs/HILL.log", "other":
        before = club.lay(name, "coast").read_bytes()
        club.book(name, "logs", status=2)
        assert club.read(name) == before


@pytest.mark.parametrize("text", [b"", b"a letter\n", b"APRSBOOK 4 30\nEND 0\n"])
def test_what_is_no_book_is_never_replaced(club: Club, text: bytes) -> None:
    club.lay("logs/HILL.log", "hill")
    club.path("net.book").write_bytes(text)
    club.book("net.book", "logs", status=1)
    assert club.read() == text


def test_a_book_that_was_cut_short_is_refused_and_stays(club: Club) -> None:
    club.lay("logs/HILL.log", "hill")
    text = club.merged(30, "hill")[:-9]
    club.path("net.book").write_bytes(text)
    assert "Ending" in club.book("net.book", "logs", status=1) and club.read() == text


def test_empty_and_missing_inputs_are_refused(club: Club) -> None:
    club.path("none").mkdir()
    assert "no logs and no books are in none" in club.book("net.book", "none", status=1)
    club.lay("logs/HILL.log", "hill")
    club.path("logs/empty.book").write_bytes(b"")
    assert "nowhere: no file" in club.book("net.book", "nowhere", "logs", status=1)
    empty = "logs/empty.book: empty, which no book is"
    assert empty in club.book("net.book", "logs/empty.book", "logs", status=1)
    assert not club.path("net.book").exists()
    assert empty in club.book("net.book", "logs", status=1)
    assert club.read() == club.merged(30, "hill")
    club.path("logs/empty.book").unlink()
    club.path("logs/COAST.log").symlink_to("nowhere")
    club.lay("logs/NORTH.log", "north")
    assert "logs/COAST.log: no file" in club.book("net.book", "logs", status=1)
    assert club.read() == club.merged(30, "hill", "north")


def test_a_link_to_the_folder_itself(club: Club) -> None:
    club.lay("logs/HILL.log", "hill")
    club.path("logs/loop").symlink_to(".")
    club.path("logs/up").symlink_to("..")
    club.path("link").symlink_to("logs")
    assert club.book("net.book", "link") == ""
    assert club.read() == club.merged(30, "hill")


def test_leftovers_are_no_inputs_and_a_users_files_stay(club: Club) -> None:
    club.lay("logs/HILL.log", "hill")
    for name in "net.book.new.backup", "net.book.new.AAAAAA", ".net.book.abcdefgh.aprs-net-new", \
            ".net.book.abcdefgh.aprs-net-work", "net.book.tmp", "#net.book#":
        club.path(f"logs/{name}").write_bytes(b"not a book\n")
        os.utime(club.path(f"logs/{name}"), (0, 0))
    left = club.path("logs/.net.book.abcd0123.aprs-net-work")
    left.mkdir()
    (left / "piece-000000.book").write_bytes(b"a piece\n")
    os.utime(left, (0, 0))
    club.book("logs/net.book", "logs")
    assert club.read("logs/net.book") == club.merged(30, "hill")
    # that of a run that was killed goes, after a day; nothing else does
    assert club.names() == {"logs", "logs/HILL.log", "logs/net.book"} | {
        f"logs/{it}" for it in ("net.book.new.backup", "net.book.new.AAAAAA", "net.book.tmp",
                                "#net.book#", ".net.book.abcdefgh.aprs-net-work")}


def test_more_than_1024_files(club: Club) -> None:
    lines = club.lay("kept", *ALL).read_bytes().splitlines(True)
    club.path("logs").mkdir()
    for number in range(1100):
        club.path(f"logs/{number:04}.log").write_bytes(lines[number % len(lines)])
    limit = ["sh", "-c", 'ulimit -Sn 256; exec "$0" "$@"']
    done = subprocess.run([*limit, *command("book", "net.book", "logs")], cwd=club.folder,
                          env=club.env, capture_output=True)
    assert done.returncode == 0, done.stderr
    assert club.read() == club.merged(30, *ALL)


@pytest.mark.parametrize("fan", ["2", "64"])
def test_a_large_log_in_pieces(club: Club, fan: str) -> None:
    write_large(club, "logs/HILL.log", 5)
    few = "--piece", "1", "--fan", fan, "net.book", "logs"
    assert club.book(*few) == ""
    if club.bin is not None:
        assert runs_of(club) >= 6
    whole = subprocess.run(["aprsbook", "merge", "--gap", "30", club.path("logs/HILL.log")],
                           env=club.env, stdout=subprocess.PIPE, check=True).stdout
    assert club.read() == whole
    # compressed too
    with gzip.open(club.path("logs/HILL.log.gz"), "wb", 1) as packed:
        packed.write(club.path("logs/HILL.log").read_bytes())
    club.path("logs/HILL.log").unlink()
    club.book("--anew", *few)
    assert club.read() == whole and club.names() >= {"net.book", "logs/HILL.log.gz"}
    assert not [it for it in club.names() if "work" in it]


@pytest.mark.parametrize("packed", [False, True])
@pytest.mark.parametrize("at", [3, -3])
def test_a_fault_in_a_piece_is_named_as_in_the_whole_log(club: Club, at: int, packed: bool) -> None:
    lines = write_large(club, "HILL.log", 2)  # the first piece, the last, and one between
    lines[at] = b"noise\n"
    club.path("HILL.log").write_bytes(b"".join(lines))
    if packed:
        with gzip.open(club.path("HILL.log.gz"), "wb", 1) as file:
            file.write(b"".join(lines))
    name = "HILL.log.gz" if packed else "HILL.log"
    number = at + 1 if at > 0 else len(lines) + at + 1
    said = club.book("--piece", "1", "net.book", name, status=1)
    assert said == (f"aprs-net: {name}: line {number}: Moment: its whole lines are taken; "
                    f"aprs-net mend {name} -o NEW.log writes them\n")
    club.path("whole.log").write_bytes(b"".join(it for it in lines if it != b"noise\n"))
    assert club.book("whole.book", "whole.log") == "" and club.read() == club.read("whole.book")


def test_a_book_within_a_log_is_no_book(club: Club) -> None:
    """Also where a piece begins with it."""
    lines = write_large(club, "HILL.log", 3)
    book = club.merged(30, "coast")
    for at in len(lines) // 3, len(lines) * 2 // 3:
        text = b"".join([*lines[:at], book, *lines[at:]])
        club.path("HILL.log").write_bytes(text)
        said = club.book("--piece", "1", "net.book", "HILL.log", status=1)
        assert said.startswith(f"aprs-net: HILL.log: line {at + 1}: Moment: its whole lines ")


def test_a_run_that_was_killed_goes_on(club: Club) -> None:
    write_large(club, "logs/HILL.log", 4)
    words = "book", "--piece", "1", "--jobs", "1", "--work", "work", "net.book", "logs"
    run = started(*words, cwd=club.folder, env=club.env)
    wait_for(lambda: list(club.folder.glob("work/*/*.sum")), "a piece", 60)
    run.kill()
    run.wait()
    made = {it: it.stat().st_mtime_ns for it in club.folder.glob("work/*/*.sum")}
    assert made and not club.path("net.book").exists()
    club.book(*words[1:])
    assert all(it.stat().st_mtime_ns == made[it] for it in made)
    whole = subprocess.run(["aprsbook", "merge", "--gap", "30", club.path("logs/HILL.log")],
                           env=club.env, stdout=subprocess.PIPE, check=True).stdout
    assert club.read() == whole


def test_a_book_that_few_programs_read_is_named(tmp_path: pathlib.Path) -> None:
    said: List[str] = []
    for size in (1 << 30) + 1, 1 << 30:
        with open(tmp_path / "net.book", "wb") as file:
            file.truncate(size)
        book.say_what_is_large(str(tmp_path / "net.book"), said.append)
    assert len(said) == 1 and "aprsbook-fold" in said[0] and "--parts" in said[0]


def test_parts_need_the_program_that_folds(club: Club) -> None:
    club.lay("logs/HILL.log", "hill")
    club.book("--parts", "2", "--days", "days", "parts", "logs", status=2)
    without_folds(club)
    assert "aprsbook-fold" in club.book("--parts", "2", "parts", "logs", status=1)
    assert not club.path("parts").exists()


def test_parts_are_the_book(club: Club) -> None:
    for program in "aprsbook-fold", "aprsbook-table":
        if not shutil.which(program, path=club.env["PATH"]):
            pytest.skip(f"needs {program}")
    for name in ALL:
        club.lay(f"logs/{name}.log", name)
    # and a book as it is, and one that is compressed
    club.path("logs/hill.book").write_bytes(club.merged(30, "hill"))
    club.path("logs/coast.book.gz").write_bytes(gzip.compress(club.merged(30, "coast")))
    club.path("logs/coast.log").unlink()
    assert club.book("--fan", "2", "--parts", "3", "parts", "logs") == ""
    parts = sorted(club.path("parts").iterdir())
    assert [it.name for it in parts] == ["0001.book", "0002.book", "0003.book"]
    done = subprocess.run(["aprsbook-fold", *parts], env=club.env, stdout=subprocess.PIPE)
    assert done.stdout == club.merged(30, *ALL)
    # each row is in one part, and parts are about alike
    rows = [it.read_bytes().count(b"\n") - 2 for it in parts]
    total = done.stdout.count(b"\n") - 2
    assert sum(rows) == total and min(rows) > total // 6
    assert club.names() == {"logs", "parts"} | {f"parts/{it.name}" for it in parts} | {
        f"logs/{it}" for it in ("hill.log", "north.log", "hill.book", "coast.book.gz")}
    assert "is there" in club.book("--parts", "3", "parts", "logs", status=3)


def test_parts_are_files_of_their_own_and_leftovers_go(club: Club) -> None:
    """One part of one book was the user's file under another name."""
    club.path("given.book").write_bytes(club.merged(30, "hill"))
    for name in ".parts.abcd0123.aprs-net-new", ".parts.abcd0124.aprs-net-work":
        club.path(name).mkdir()
        os.utime(club.path(name), (0, 0))
    assert club.book("--parts", "1", "parts", "given.book") == ""
    assert club.read("parts/0001.book") == club.merged(30, "hill")
    assert not os.path.samefile(club.path("given.book"), club.path("parts/0001.book"))
    assert club.names() == {"given.book", "parts", "parts/0001.book"}


def test_names_that_are_no_utf_8(club: Club) -> None:
    """The programs refuse these, where they would get them."""
    inner = club.path(os.fsdecode(b"f\xff"))
    try:
        inner.mkdir()
    except OSError:
        pytest.skip("no such names here")
    club.lay(f"{inner.name}/logs/hill.log", "hill")
    (inner / "logs/coast.book").write_bytes(club.merged(30, "coast"))
    (inner / "logs/north.book.gz").write_bytes(gzip.compress(club.merged(30, "north")))
    (inner / "given.book").write_bytes(club.merged(30, "hill"))
    for more in "", "--anew --fan 2 --pass-over", "--anew --work work":
        tried("book", *more.split(), "net.book", "logs", cwd=inner, env=club.env)
        assert (inner / "net.book").read_bytes() == club.merged(30, *ALL)
    tried("book", "--gap", "60", "given.book", "logs/hill.log", cwd=inner, env=club.env)
    assert (inner / "given.book").read_bytes() == club.merged(60, "hill")
    tried("book", "--parts", "2", "parts", "logs", cwd=inner, env=club.env)
    (inner / "logs/coast.book").write_bytes(club.merged(30, "coast")[:-3])
    said = tried("book", "--anew", "net.book", "logs", cwd=inner, env=club.env, status=1).stderr
    assert said.startswith(b"aprs-net: logs/coast.book: line ")
