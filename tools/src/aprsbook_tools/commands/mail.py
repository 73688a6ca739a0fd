"""aprs-net mail: what is new to each neighbour of a club since it was sent something."""
import argparse
import os
from typing import List, Sequence

from aprsbook_tools import stderr, stdout
from aprsbook_tools.books import mail
from aprsbook_tools.books.mail import Neighbour
from aprsbook_tools.errors import ExitStatus, Fault
from aprsbook_tools.system import atomic

DESCRIPTION = """\
Each folder in FOLDER is a neighbour: FOLDER/CLUB/in has the books that came from it, and
FOLDER/CLUB/sent.book all that it was sent. What FOLDER/own.book has beyond these is written beside,
as a book, whole or not at all, and its path on standard output. Send it in any way: whoever merges
it has all, also where it comes late or twice.

A file that waits stays as it is. Once it was sent, --sent makes it a part of sent.book and takes it
away. If it can't be sent, delete it: then it is made anew. Its name says what it was made against
and what it leads to. So `aprs-net book` tells where one before it is missing.

It writes no other book: FOLDER/own.book is kept by `aprs-net book`."""
EXAMPLES = [
    ("take what came in, and write what is new to each",
     "aprs-net book --pass-over club/own.book logs club/*/in && aprs-net mail club"),
    ("what was written for this club was sent", "aprs-net mail --sent fell-club club"),
]


def add_arguments(parser: argparse.ArgumentParser) -> None:
    parser.add_argument("--book", metavar="BOOK", help="the club's book (FOLDER/own.book)")
    parser.add_argument("--sent", action="append", metavar="CLUB",
                        help="what waits for this neighbour was sent; nothing else is done")
    parser.add_argument("folder", metavar="FOLDER", help="has a folder for each neighbour")


def chosen(neighbours: Sequence[Neighbour], names: Sequence[str]) -> List[Neighbour]:
    """The neighbours of these names."""
    by_name = {it.name: it for it in neighbours}
    for name in names:
        if name not in by_name:
            raise Fault(f"--sent {name}: no neighbour is called so: there are "
                        f"{', '.join(by_name)}", ExitStatus.ARGUMENTS)
    return [by_name[it] for it in dict.fromkeys(names)]


def write(neighbour: Neighbour, book: str) -> None:
    """Writes what is new to a neighbour, unless something waits for it."""
    waiting = neighbour.waiting
    if waiting:
        stderr.note(f"{' '.join(waiting)}: still to be sent (--sent {neighbour.name} says that it "
                    "was), or to be deleted")
    else:
        made = mail.write(neighbour, book, stderr.warn)
        if made is None:
            stderr.note(f"{neighbour.folder}: nothing is new")
            return
        waiting = [made]
    stdout.write("".join(f"{it}\n" for it in waiting).encode("utf-8", "surrogateescape"))


def mark_sent(neighbour: Neighbour) -> None:
    """What waits for a neighbour was sent."""
    waiting = neighbour.waiting
    for path in waiting:
        mail.mark_sent(neighbour, path)
    if not waiting:
        stderr.note(f"{neighbour.folder}: nothing waits")


def run(args: argparse.Namespace) -> int:
    neighbours = mail.neighbours_in(args.folder)
    book = args.book or os.path.join(args.folder, "own.book")
    if args.sent:
        neighbours = chosen(neighbours, args.sent)
    elif not os.path.isfile(book):
        raise Fault(f"{book}: no such book")
    status = ExitStatus.DONE
    for it in neighbours:
        try:
            with atomic.locked(it.sent):
                if args.sent:
                    mark_sent(it)
                else:
                    write(it, book)
        except Fault as fault:  # another neighbour's may go well
            stderr.say(str(fault))
            status = ExitStatus(fault.status)
    return status
