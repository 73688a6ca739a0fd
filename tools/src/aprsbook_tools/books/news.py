"""What an old book lacks of logs and books, as a book, for whoever has the old one."""
import os
from typing import Optional, Sequence

from aprsbook_tools.books import bases, book, inputs
from aprsbook_tools.books.building import Plan
from aprsbook_tools.books.inputs import Input
from aprsbook_tools.errors import ExitStatus, Fault
from aprsbook_tools.system import atomic, packing, programs


def gap_for(old: str, wish: book.Wish) -> int:
    """The gap of the old book, which the wish has to have, if it has one."""
    if os.path.splitext(old)[1] in packing.OPENERS:
        raise Fault(f"{old} is compressed: unpack it, since it is read twice", ExitStatus.ARGUMENTS)
    if not os.path.isfile(old):
        raise Fault(f"{old}: no such book")
    gap = inputs.gap_of(old)
    if gap is None:
        raise Fault(f"{old} is no book")
    if wish.gap not in (None, gap):
        raise Fault(f"{old} has the gap {gap}, and not {wish.gap}")
    return gap


def make(path: Optional[str], old: str, items: Sequence[Input], wish: book.Wish,
         say: book.Say) -> str:
    """A file becomes the book of those rows of the inputs' book that the old one lacks, written
    whole or not at all. Its path is the result."""
    gap, base = gap_for(old, wish), bases.base_of(old)
    path = path or bases.name_of(old, base)
    atomic.check(path, [old, *(it.path for it in items)])

    def pass_over(name: str, why: str) -> None:
        say(f"{name} is passed over: {why}")

    items = book.usable(items, pass_over if wish.pass_over else None)
    with book.work_folder(path, wish, gap, items) as folder:
        books = book.books_of(Plan(gap, folder, wish.piece, wish.most), items, wish, pass_over)
        # without any, what is new is nothing: the old book alone
        program = ["aprsbook-fold", "--new-to", old]
        with atomic.writing(path, [old]) as new:
            programs.write_book(new.file, *programs.with_gap(program, gap, books or [old]))
            if bases.base_of(old) != base:
                raise Fault(f"{old} has changed meanwhile: make the news of it again")
    return path
