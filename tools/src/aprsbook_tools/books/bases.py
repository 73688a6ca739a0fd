"""What news are made against: a book, by the number of its rows and its digest, which the names of
files say."""
import hashlib
import os
import re
from typing import List, NamedTuple, Optional, Sequence, Set

from aprsbook_tools.books.inputs import Input
from aprsbook_tools.errors import Fault, said

BLOCK = 1 << 20  # bytes that are read at a time
TAIL = 32  # bytes: no last line of a book is longer
END = re.compile(rb"\nEND ([0-9]+)\n\Z")
LABEL = "[0-9]+-[0-9a-f]{12}"
NAME = re.compile(
    rf".+-news-(?P<base>{LABEL})(?:-to-(?P<to>{LABEL}))?\.book(?:\.gz|\.xz|\.bz2|\.zst)?",
    re.DOTALL)


class Base(NamedTuple):
    """What news are made against: the number of a book's rows, and the SHA-256 sum of its file."""
    rows: int
    digest: str

    @property
    def label(self) -> str:
        """By which a book is known in the names of files."""
        return f"{self.rows}-{self.digest[:12]}"


def base_of(path: str) -> Base:
    """The rows and the digest of a book file."""
    digest, lines = hashlib.sha256(), 0
    try:
        with open(path, "rb") as file:
            for block in iter(lambda: file.read(BLOCK), b""):
                digest.update(block)
                lines += block.count(b"\n")
    except OSError as fault:
        raise Fault(said(fault)) from fault
    return Base(max(0, lines - 2), digest.hexdigest())


def name_of(book_path: str, base: Base, after: Optional[Base] = None) -> str:
    """The file's name where none is given: it says what the news were made against, and perhaps
    what that is with them."""
    stem = os.path.basename(book_path)
    stem = stem[:-len(".book")] if stem.endswith(".book") else stem
    return f"{stem}-news-{base.label}{f'-to-{after.label}' if after else ''}.book"


def without_base(items: Sequence[Input], known: Set[str]) -> List[str]:
    """The inputs that are news to a book that isn't there: what is known by its label, or comes of
    what is known and other news, is. `known` gets what is there now."""
    named = {it.path: NAME.fullmatch(os.path.basename(it.path)) for it in items}
    waiting = {path: found for path, found in named.items() if found}
    wanted = {found["base"] for found in waiting.values()} - known
    known |= {label for label in wanted if label.startswith("0-")}  # nothing is missing of nothing
    rows = {label.partition("-")[0] for label in wanted - known}
    for it in items:
        if it.is_book and not it.packing and it.path not in waiting and rows \
                and str(rows_of(it.path)) in rows:
            known.add(base_of(it.path).label)
    while True:
        there = [path for path, found in waiting.items() if found["base"] in known]
        if not there:
            return sorted(waiting)
        known |= {waiting.pop(path)["to"] for path in there} - {None}


def rows_of(path: str) -> Optional[int]:
    """How many rows a book file says at its end that it has; None where it says nothing."""
    try:
        with open(path, "rb") as file:
            file.seek(max(0, os.path.getsize(path) - TAIL))
            found = END.search(file.read())
    except OSError:
        return None
    return int(found[1]) if found else None
