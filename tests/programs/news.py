#!/usr/bin/env python3
"""What random books have that an old one lacks, by `aprsbook-fold --new-to`: exactly those lines of
their fold with the old book that this lacks. With the old book they give that fold, to the last
byte; so they do a day late, twice and in any order, for whoever has taken the old book. Books of
several gaps and versions, empty ones, books that the old one has taken already, ranges of sources,
and a damaged book, which is refused as a fold of all refuses it.
usage: tests/programs/news.py PROGRAM FOLD [COUNT [SEED]]"""

import hashlib
import os
import random
import sys
import tempfile
from pathlib import Path

from folds import Answer, bounds, damaged, deal, judged, lines, older, run

Paths = list[str]


def rows_of(book: bytes) -> list[bytes]:
    """The lines of a book's rows."""
    return book.splitlines(keepends=True)[1:-1]


def lacking(book: bytes, old: bytes) -> bytes:
    """The book of those rows that the old book, of the same version, lacks."""
    known = set(rows_of(old))
    rows = [row for row in rows_of(book) if row not in known]
    return book.split(b"\n", 1)[0] + b"\n" + b"".join(rows) + f"END {len(rows)}\n".encode()


def told(old: str) -> bytes:
    """What standard error says of the old book."""
    book = Path(old).read_bytes()
    digest = hashlib.sha256(book).hexdigest()
    return f"aprsbook-fold: new to {old}: {len(rows_of(book))} rows, sha256 {digest}\n".encode()


def make_books(
    program: str, chance: random.Random, folder: Path, gap: int
) -> "tuple[Paths, str]":
    """Books of random receptions in the folder, and what went wrong, or an empty text."""
    whole = chance.random() < 0.3
    heard = lines(chance, chance.choice([0, 1, 5, 30, 200]), gap, whole)
    paths = []
    for number, log in enumerate(deal(chance, heard, chance.randrange(2, 7))):
        made = run(program, "merge", "--gap", str(gap), given="".join(log).encode())
        if made.status != 0:
            return [], f"no book: {made.said!r}"
        path = folder / f"{number}.book"
        path.write_bytes(older(chance, made.out, gap, whole))
        paths.append(str(path))
    return paths, ""


def compare_ranges(fold: str, chance: random.Random, asked: Paths, old: str, new: Paths) -> str:
    """Compares the news of a range with those of the range's rows. Returns what differs."""
    ends = [
        None if chance.random() < 0.3 else (f"N{chance.randrange(8)}CALL", chance.randrange(4))
        for _ in range(2)
    ]
    words = [*bounds(*ends), *asked]
    news, whole = run(fold, *words, "--new-to", old, *new), run(fold, *words, old, *new)
    own, checked = run(fold, *words, old), run(fold, *words, "--check", "--new-to", old, *new)
    if news != Answer(0, lacking(whole.out, own.out), b""):
        return f"{words}: {news.status}, {news.said!r}"
    return "" if checked == Answer(0, b"", told(old)) else f"{words}, checked: {checked.said!r}"


def compare_chain(fold: str, chance: random.Random, asked: Paths, old: str, new: Paths) -> str:
    """Sends what is new in one book after another, and merges it late, twice and in any order into a
    book that has taken the old one. Returns what differs, or an empty text."""
    folder = Path(old).parent
    base, sent = old, []
    for number, path in enumerate(new):
        news = folder / f"news{number}"
        news.write_bytes(run(fold, *asked, "--new-to", base, path).out)
        sent.append(str(news))
        base = str(folder / f"base{number}")
        Path(base).write_bytes(run(fold, *asked, *new[: number + 1], old).out)
    came = sent + chance.choices(sent, k=chance.randrange(3)) if sent else []
    chance.shuffle(came)
    own = folder / "own"
    own.write_bytes(run(fold, *asked, old, *chance.choices(new, k=chance.randrange(2))).out)
    for path in came:
        own.write_bytes(run(fold, *asked, str(own), path).out)
    if own.read_bytes() != run(fold, *asked, old, *new).out:
        return f"the news of {len(new)} books, come as {came}"
    again = run(fold, *asked, "--new-to", str(own), *new)
    return "what has come is new" if again.status or rows_of(again.out) else ""


def refuses(fold: str, program: str, asked: Paths, old: str, new: Paths, news: Answer) -> str:
    """Compares a refusal with that of a fold of all. Returns what differs, or an empty text."""
    whole = run(fold, *asked, old, *new)
    if judged(whole) != judged(news):
        return f"fold {judged(whole)}, news {judged(news)}"
    left = run(program, "merge", *asked, given=news.out)
    if left.status != 1 or not left.said.rstrip().endswith(b": Ending"):
        return f"what is left: {left.said!r}"
    return ""


def compare(program: str, fold: str, chance: random.Random, folder: Path) -> str:
    """Compares what is new in random books. Returns what differs, or an empty text."""
    gap = chance.choice([1, 30, 30, 30, 600, 3600])
    paths, said = make_books(program, chance, folder, gap)
    if said:
        return said
    asked, old, new = ["--gap", str(gap)], paths[0], paths[1:]
    if chance.random() < 0.3:
        Path(old).write_bytes(run(fold, *asked, *paths[: chance.randrange(2, 4)]).out)
    is_damaged = chance.random() < 0.2
    if is_damaged:
        path = Path(chance.choice(paths))
        path.write_bytes(damaged(chance, path.read_bytes()))
    news = run(fold, *asked, "--new-to", old, *new)
    if news.status != 0:
        if not is_damaged:
            return f"{news.status}, {news.said!r}"
        return refuses(fold, program, asked, old, new, news)
    whole, own = run(fold, *asked, old, *new), run(fold, *asked, old)
    if news != Answer(0, lacking(whole.out, own.out), b""):
        return f"{len(rows_of(news.out))} rows are new, {news.said!r}"
    late = folder / "late"
    late.write_bytes(news.out)
    if run(program, "merge", *asked, old, str(late)).out != whole.out:
        return "with the old book other bytes"
    if said := compare_ranges(fold, chance, asked, old, new):
        return said
    return compare_chain(fold, chance, asked, old, new)


def main() -> int:
    """Compares as many as are asked for, and returns the exit status."""
    program, fold = (os.path.abspath(it) for it in sys.argv[1:3])
    count = int(sys.argv[3]) if len(sys.argv) > 3 else 200
    seed = int(sys.argv[4]) if len(sys.argv) > 4 else 1
    for number in range(seed, seed + count):
        with tempfile.TemporaryDirectory() as name:
            said = compare(program, fold, random.Random(number), Path(name))
        if said:
            print(f"news.py: seed {number}: {said}", file=sys.stderr)
            return 1
    print(f"of {count} old books the news are what they lack")
    return 0


if __name__ == "__main__":
    sys.exit(main())
