"""What is new to each neighbour of a club: its book's rows that the neighbour wasn't sent.

Each folder in the club's is a neighbour: `sent.book` is all that it was sent, and `in` has what
came from it. What is new lies beside as a file whose name says what it was made against and what
that is with it, and stays as it is until it is said to be sent. So whatever is sent twice, or isn't
sent at all, no row is lost.
"""
import os
import shutil
from typing import List, NamedTuple, Optional, Sequence

from aprsbook_tools.books import bases, book, inputs, jobs, news
from aprsbook_tools.books.inputs import Input
from aprsbook_tools.errors import Fault
from aprsbook_tools.system import atomic, programs

SENT = "sent.book"
CAME = "in"


class Neighbour(NamedTuple):
    """A neighbour's folder."""

    folder: str

    @property
    def name(self) -> str:
        return os.path.basename(self.folder)

    @property
    def sent(self) -> str:
        """The path of the book of what it was sent, which needn't be there."""
        return os.path.join(self.folder, SENT)

    @property
    def waiting(self) -> List[str]:
        """The files that are to be sent: one, but where a run was killed."""
        return [it.path for it in sorted(os.scandir(self.folder), key=lambda it: it.name)
                if it.is_file() and bases.NAME.fullmatch(it.name)]

    @property
    def came(self) -> List[Input]:
        """The books that came from it."""
        folder = os.path.join(self.folder, CAME)
        return [it for it in inputs.below(folder) if it.is_book] if os.path.isdir(folder) else []


def neighbours_in(folder: str) -> List[Neighbour]:
    """The neighbours of a club, by name; a Fault where there are none."""
    try:
        found = [it.path for it in os.scandir(folder)
                 if it.is_dir() and it.name != CAME and it.name[0] != "."]
    except OSError as fault:
        raise Fault(f"{folder}: {fault.strerror}") from fault
    if not found:
        raise Fault(f"in {folder} is no folder of a neighbour: make one for each, such as "
                    f"{os.path.join(folder, 'CLUB')}")
    return [Neighbour(it) for it in sorted(found)]


def folded(gap: int, books: Sequence[str], path: str) -> str:
    """Writes the book of books; its path."""
    with open(path, "wb") as file:
        jobs.fold(gap, books, file)
    return path


def sent_to(neighbour: Neighbour, gap: int, folder: str) -> str:
    """The path of the book of what a neighbour was sent; one without a row before the first."""
    if not os.path.lexists(neighbour.sent):
        path = os.path.join(folder, "nothing.book")
        with open(path, "wb") as file:
            programs.write_book(file, "aprsbook", "merge", "--gap", str(gap), "--", os.devnull)
        return path
    has = inputs.gap_of(neighbour.sent)
    if has is None:
        raise Fault(f"{neighbour.sent} is no book: put back a copy, or take it away, and all is "
                    "sent again")
    if has != gap:
        raise Fault(f"{neighbour.sent} has the gap {has}, and the book {gap}: take it away, and "
                    "all is sent again")
    return neighbour.sent


def known_to(neighbour: Neighbour, sent: str, gap: int, folder: str, say: book.Say) -> str:
    """The path of the book of all that a neighbour has: what it was sent, and what came from it."""
    path = os.path.join(folder, "came.book")
    book.make(path, neighbour.came, book.Wish(gap, pass_over=True, noted=False), say)
    if not os.path.exists(path):
        return sent
    return folded(gap, [sent, path], os.path.join(folder, "known.book"))


def write(neighbour: Neighbour, path: str, say: book.Say) -> Optional[str]:
    """Writes what is new of a club's book to a neighbour; its path, or None where nothing is."""
    gap = inputs.gap_of(path)
    if gap is None:
        raise Fault(f"{path} is no book")
    wish = book.Wish(gap)
    with book.work_folder(neighbour.sent, wish, gap, []) as folder:
        sent = sent_to(neighbour, gap, folder)
        known = known_to(neighbour, sent, gap, folder, say)
        new = news.make(os.path.join(folder, "new.book"), known, [inputs.look_at(path)], wish, say)
        if not bases.base_of(new).rows:
            return None
        after = bases.base_of(folded(gap, [sent, new], os.path.join(folder, "after.book")))
        result = os.path.join(
            neighbour.folder, bases.name_of(path, bases.base_of(sent), after))
        with atomic.writing(result, [path]) as whole, open(new, "rb") as file:
            shutil.copyfileobj(file, whole.file)
    return result


def mark_sent(neighbour: Neighbour, path: str) -> None:
    """What was to be sent becomes a part of what was sent, and goes; also where a run was killed
    between."""
    gap = inputs.gap_of(path)
    if gap is None:
        raise Fault(f"{path} is no book")
    books = [it for it in (neighbour.sent, path) if os.path.lexists(it)]
    with atomic.writing(neighbour.sent, [path]) as new:
        jobs.fold(gap, books, new.file)
    os.unlink(path)
