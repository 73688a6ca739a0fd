#!/usr/bin/env python3
"""Tries each run with ample memory at a size that is no toy.

usage: tests/programs/ample.py PROGRAM

The runs get 200,000 receptions in 70 inputs, receivers' names of 3 MB, a row of 60,000 receivers,
200,000 messages and as many objects. The inputs are logs, of which a store makes 25 sorted lists of
8,192 receptions, and books, of which each is a list. Each run has to end well and to write what is
worked out here from the formats: one that gave up at some size, as if memory were refused, would be
found. A fold, and what of it is new to a book, get a million rows in 65 books and 64 MiB. Programs
that don't lie beside the first one are left out. Needs Python 3.9, and takes a minute.
"""
import datetime
import functools
import os
import pathlib
import resource
import sys
import tempfile
from typing import Callable, Dict, Iterable, List, Optional, Sequence

import arguments
from arguments import address, beside, fail

ROWS = 200_000
INPUTS = 70
LISTENERS = 60_000
FOLDED_ROWS = 1_000_000
FOLDED_BOOKS = 65
FOLD_MEMORY = 64 << 20
NOON = datetime.datetime(2024, 5, 1, 12)
TO_APRS = address("APRS", 0xE0)


# ---- what reception n is


def call(n: int) -> str:
    """The station of reception n, which sends nothing else. Later calls have greater numbers."""
    return f"{'QRSTUVWXYZ'[n // 100_000]}{n % 100_000:05}"


def receiver(n: int) -> str:
    """The receiver of reception n, with a name of its own of 15 bytes."""
    return f"RECEIVER-{n:06}"


def moment(n: int) -> str:
    """When reception n was heard: later ones were heard earlier."""
    return (NOON - datetime.timedelta(seconds=n)).isoformat() + ".000Z"


def frame(source: str, info: str) -> str:
    """A frame to APRS without digipeaters, in hexadecimal (AX.25, section 3.12)."""
    return (TO_APRS + address(source, 0x61) + b"\x03\xf0" + info.encode()).hex()


def status(n: int) -> str:
    """The information of a status."""
    return f">Hi {n}"


def message(n: int) -> str:
    """The information of a message to N0CALL."""
    return f":N0CALL   :Hi {n}{{{n % 1000:03}"


def object_(n: int) -> str:
    """The information of an object of its own name."""
    return f";{'OP'[n // 100_000]}{n % 100_000:05}   *092345z4903.50N/07201.75W>"


# ---- inputs, and what is written of them


def write_logs(folder: pathlib.Path, info: Callable[[int], str]) -> List[str]:
    """As many logs as there are inputs, each with its share of the receptions."""
    folder.mkdir()
    paths = [folder / f"{i}.log" for i in range(INPUTS)]
    for i, path in enumerate(paths):
        lines = (
            f"{moment(n)} {receiver(n)} c000{frame(call(n), info(n))}c0\n"
            for n in range(i, ROWS, INPUTS)
        )
        path.write_text("".join(lines), encoding="utf8")
    return [str(path) for path in paths]


def write_books(path: str, logs: List[str]) -> List[str]:
    """The book of each log."""
    books = [pathlib.Path(log).with_suffix(".book") for log in logs]
    for log, each in zip(logs, books):
        each.write_text(written([path, "merge", log]), encoding="utf8")
    return [str(each) for each in books]


def row(n: int) -> str:
    """The row of reception n, a status."""
    at, name = moment(n), receiver(n)
    return f"T {at} {at} {name} {name} {frame(call(n), status(n))}\n"


@functools.lru_cache(maxsize=None)
def all_rows() -> Sequence[str]:
    """The rows of a million receptions, of which the first are those of the inputs."""
    return [row(n) for n in range(FOLDED_ROWS)]


def book_of(rows: Sequence[str], gap: int = 30) -> str:
    """The book of these rows."""
    return f"APRSBOOK 3 {gap}\n{''.join(rows)}END {len(rows)}\n"


def book(gap: int = 30) -> Iterable[str]:
    """The book of all receptions."""
    yield book_of(all_rows()[:ROWS], gap)


@functools.lru_cache(maxsize=None)
def listing() -> Sequence[str]:
    """The listing of all receptions."""
    return [f"station {call(n)} 1\nstatus {moment(n)} {receiver(n)} -:Hi {n}\n" for n in range(ROWS)]


@functools.lru_cache(maxsize=None)
def history() -> Sequence[str]:
    """The history of all receptions."""
    def line(n: int, at: str) -> str:
        return f"status {at} {at} {receiver(n)} {call(n)} - -:Hi {n}\n"
    return [line(n, moment(n)) for n in range(ROWS)]


# ---- runs


def written(command: Sequence[str], memory: Optional[int] = None) -> str:
    """What a command that ends well writes, in so many bytes of addresses where they are given."""
    limits = {resource.RLIMIT_AS: memory} if memory is not None else None
    ended, text, said = arguments.run(command, limits=limits)
    if (ended, said) != (0, ""):
        fail(f"{' '.join(command)[:120]}: status {ended}, {said!r:.200}")
    return text


def expects(command: Sequence[str], wanted: Iterable[str]) -> None:
    """The command ends well, and writes this."""
    if written(command) != "".join(wanted):
        fail(f"{' '.join(command)[:120]} writes something else")


def column(table: str, name: str) -> List[str]:
    """A column of a table, by its name."""
    names, *lines = table.splitlines()
    place = names.split("\t").index(name)
    return [line.split("\t", place + 1)[place] for line in lines]


def expects_column(command: Sequence[str], name: str, wanted: Iterable[str]) -> None:
    """The command writes a table with these values in a column, in whatever order."""
    if sorted(column(written(command), name)) != sorted(wanted):
        fail(f"{' '.join(command)[:120]} has something else as {name}")


def tries_merges(path: str, logs: List[str], scratch: pathlib.Path) -> None:
    """Books of logs, of books, and of another gap; and a check of a log that has all."""
    expects([path, "merge", *logs], book())
    whole = scratch / "all.log"
    whole.write_bytes(b"".join(pathlib.Path(it).read_bytes() for it in logs))
    expects([path, "merge", str(whole)], book())
    one = scratch / "all.book"
    one.write_text("".join(book()), encoding="utf8")
    expects([path, "merge", str(one), str(whole), str(one)], book())
    expects([path, "widen", "60", str(one)], book(60))
    expects([path, "check", str(whole)], [f"heard {ROWS} passed 0\n"])
    expects([path, "convert", "log", str(whole)], [whole.read_text(encoding="utf8")])


def tries_a_long_row(path: str, scratch: pathlib.Path) -> None:
    """One transmission that 60,000 receivers heard, in logs of 1,000 lines."""
    heard = frame("Q1RUN", ">Hi")
    logs = []
    for first in range(0, LISTENERS, 1000):
        log = scratch / f"long{first}.log"
        lines = (f"{moment(0)} {receiver(n)} c000{heard}c0\n" for n in range(first, first + 1000))
        log.write_text("".join(lines), encoding="utf8")
        logs.append(str(log))
    names = ",".join(receiver(n) for n in range(LISTENERS))
    row = f"T {moment(0)} {moment(0)} {names} {receiver(LISTENERS - 1)} {heard}\n"
    expects([path, "merge", *logs], ["APRSBOOK 3 30\n", row, "END 1\n"])


def tries_folds(fold: str, scratch: pathlib.Path) -> None:
    """A million rows in 65 books: their fold, and what of it is new to the first of them."""
    books = []
    for first in range(FOLDED_BOOKS):
        path = scratch / f"folded{first}.book"
        path.write_text(book_of(all_rows()[first::FOLDED_BOOKS]), encoding="utf8")
        books.append(str(path))
    if written([fold, *books], FOLD_MEMORY) != book_of(all_rows()):
        fail(f"the fold of {FOLDED_ROWS:,} rows in {FOLDED_BOOKS} books is another book")
    news = [it for n, it in enumerate(all_rows()) if n % FOLDED_BOOKS]
    if written([fold, "--new-to", *books], FOLD_MEMORY) != book_of(news):
        fail(f"the news of {FOLDED_ROWS:,} rows in {FOLDED_BOOKS} books are another book")


def tries_tables(table: str, inputs: Dict[str, List[str]]) -> None:
    """The four tables, each of receptions that it tells."""
    calls = [call(n) for n in range(ROWS)]
    said = [f"Hi {n}" for n in range(ROWS)]
    expects_column([table, *inputs["status"]], "text", said)
    expects_column([table, *inputs["status"]], "receivers", map(receiver, range(ROWS)))
    expects_column([table, "stations", *inputs["status"]], "source", calls)
    expects_column([table, "messages", *inputs["message"]], "text", said)
    things = [object_(n)[1:7] for n in range(ROWS)]
    expects_column([table, "things", *inputs["object"]], "name", things)


def main() -> None:
    """Tries everything in a folder that is thrown away."""
    if len(sys.argv) != 2 or not os.access(sys.argv[1], os.X_OK):
        fail(f"there is no program '{' '.join(sys.argv[1:])}'")
    path = pathlib.Path(sys.argv[1]).absolute()
    with tempfile.TemporaryDirectory() as folder:
        scratch = pathlib.Path(folder)
        logs = {
            name: write_logs(scratch / name, info)
            for name, info in (("status", status), ("message", message), ("object", object_))
        }
        tries_merges(str(path), logs["status"], scratch)
        tries_a_long_row(str(path), scratch)
        books = {name: write_books(str(path), those) for name, those in logs.items()}
        expects([str(path), "merge", *books["status"]], book())
        expects([str(path), "show", *logs["status"]], listing())
        expects([str(path), "show", *books["status"]], listing())
        others: Dict[str, Callable[[str, Dict[str, List[str]]], None]] = {
            "aprsbook-history": lambda it, inputs: expects([it, *inputs["status"]], history()),
            "aprsbook-table": tries_tables,
        }
        for name, tries in others.items():
            other = beside(path, name)
            if other is None:
                print(f"left out: {name} with ample memory (it isn't there)")
            else:
                tries(str(other), logs)
                tries(str(other), books)
        fold = beside(path, "aprsbook-fold")
        if fold is None:
            print("left out: aprsbook-fold with ample memory (it isn't there)")
        else:
            expects([str(fold), *books["status"]], book())
            tries_folds(str(fold), scratch)
    print(f"with ample memory the runs take {ROWS:,} receptions in {INPUTS} inputs")


if __name__ == "__main__":
    main()
