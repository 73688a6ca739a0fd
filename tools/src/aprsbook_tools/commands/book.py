"""aprs-net book: the book of all logs and books below folders, kept up to date."""
import argparse
import os
from typing import List, Sequence

from aprsbook_tools import arguments, stderr
from aprsbook_tools.books import bases, book, executors, inputs, merged_inputs, news
from aprsbook_tools.books.chunks import MEGABYTE
from aprsbook_tools.books.inputs import Input
from aprsbook_tools.errors import ExitStatus, Fault
from aprsbook_tools.formats import book_file
from aprsbook_tools.system import atomic

DESCRIPTION = """\
BOOK becomes the book of itself and of all logs and books that are named or lie below folders that
are named (*.log, *.book, also *.gz, *.xz, *.bz2 and *.zst, behind links too; no name that begins
with a dot). It is written whole or not at all, and left as it is where nothing has changed. What it
has stays, also where a log is gone, which is said, unless --anew makes it of the inputs alone.

Logs are merged in pieces of whole lines side by side, and the books of pieces are folded: logs and
books may be larger than the memory. Runs at one time wait for each other. With --work FOLDER what
is made stays there, and a run that was cut goes on: take it away afterwards.

With --parts N the book is made in a new folder BOOK, in about so many files: 0001.book and more,
each with the rows of some stations.

With --days FOLDER it keeps a book of each day there, and makes those again whose logs have changed.
Paths say the day, as logs/2024-06-21/RX1.log, or else first lines. A day whose logs are gone keeps
its book, unless --anew sets it aside.

Of a faulty log the whole lines are taken, and what can't be read at all is left out: both are said,
and the status is 1.

With --news-to OLD all that is named are inputs, and what the book OLD lacks of them is written, as
a book, for whoever has OLD: to -o FILE, or to one whose name says OLD's rows and digest. Who has
another book than OLD may lack rows, and `aprs-net book` says so, by that name, when it takes it."""


EXAMPLES = [
    ("add tonight's logs to the club's book", "aprs-net book club.book logs/2024-06-21"),
    ("keep a book of each day, and one of all", "aprs-net book --days days net.book logs"),
    ("what another club lacks", "aprs-net book --news-to theirs.book net.book -o news.book"),
]


def add_arguments(parser: argparse.ArgumentParser) -> None:
    arguments.add_gap(parser)
    parser.add_argument("-j", "--jobs", type=arguments.whole_number(1, 1024), metavar="N",
                        default=executors.processors(),
                        help="merge so many pieces side by side (as many as there are processors)")
    arguments.add_chunks(parser, 64)
    parser.add_argument("--anew", action="store_true", help="make the book of the inputs alone")
    parser.add_argument("--pass-over", action="store_true",
                        help="name an input that can't be merged, and go on without it")
    parser.add_argument("--work", metavar="FOLDER", default="",
                        help="keep there what is made of pieces, and go on with it")
    parser.add_argument("--days", metavar="FOLDER", help="keep a book of each day there")
    parser.add_argument("--news-to", metavar="OLD",
                        help="write what the book OLD lacks of all that is named")
    parser.add_argument("-o", "--output", metavar="FILE", help="with --news-to: write there")
    parser.add_argument("book", metavar="BOOK")
    parser.add_argument("inputs", nargs="*", metavar="INPUT",
                        help="a log, a book or a folder; - is standard input")


def say(text: str) -> None:
    stderr.warn(text)


def run(args: argparse.Namespace) -> int:
    here = executors.Here(args.jobs, bool(args.work))
    wish = book.Wish(args.gap, here, args.anew, args.pass_over, args.piece * MEGABYTE, args.fan,
                     args.work, named=args.inputs)
    if args.book.endswith(".log") and not args.news_to:
        raise Fault(f"{args.book}: a book isn't called .log, or it would become an input",
                    ExitStatus.ARGUMENTS)
    if args.parts and (args.days or args.anew or args.pass_over):
        raise Fault("--parts goes without --days, --anew and --pass-over", ExitStatus.ARGUMENTS)
    if args.work and (args.days or args.pass_over):
        raise Fault("--work goes without --days and --pass-over", ExitStatus.ARGUMENTS)
    if args.output and not args.news_to:
        raise Fault("-o goes with --news-to", ExitStatus.ARGUMENTS)
    if args.news_to:
        return run_news(args, wish)
    if not args.inputs:
        raise Fault("give INPUT too: a log, a book or a folder", ExitStatus.ARGUMENTS)
    if args.days:
        return run_days(args, wish)
    with merged_inputs.spooled(args.inputs) as paths:
        # what standard input had isn't there again
        wish.noted = paths == args.inputs
        wish.once = [it for it in paths if it not in args.inputs]
        items = inputs.of(paths)
        if not items and not args.pass_over:
            raise Fault(f"no logs and no books are in {' '.join(paths)}")
        if args.parts:
            book.make_parts(args.book, items, args.parts, wish, say)
        else:
            check_named(paths)
            book.make(args.book, items, wish, lambda text: say(
                merged_inputs.as_typed(text, args.inputs, paths)))
    return ExitStatus.INPUT if wish.left else ExitStatus.DONE


def check_named(paths: Sequence[str]) -> None:
    """Refuses what was typed and isn't there."""
    for path in paths:
        if not os.path.lexists(path):
            raise Fault(f"{path}: no file")


def run_news(args: argparse.Namespace, wish: book.Wish) -> int:
    """What an old book lacks of all that is named."""
    if args.parts or args.days or args.anew or args.work:
        raise Fault("--news-to goes without --parts, --days, --anew and --work",
                    ExitStatus.ARGUMENTS)
    given = [args.book, *args.inputs]
    items = inputs.of(given)
    if not items and not args.pass_over:
        raise Fault(f"no logs and no books are in {' '.join(given)}")
    path = news.make(args.output, args.news_to, items, wish, say)
    base = bases.base_of(args.news_to)
    stderr.note(f"{path} is new to {args.news_to}: {base.rows} rows, sha256 {base.digest}")
    return 0


def run_days(args: argparse.Namespace, wish: book.Wish) -> int:
    """Books of days, and of them the book of all."""
    atomic.check(args.book)
    days = os.path.realpath(args.days)
    items: List[Input] = [
        it for it in inputs.of(args.inputs)
        if os.path.dirname(os.path.realpath(it.path)) != days
        and not atomic.is_same(it.path, args.book)]
    of_days = inputs.below(args.days) if os.path.isdir(args.days) else []
    if not items and not of_days:
        raise Fault(f"no logs and no books are in {' '.join(args.inputs)}")
    # new days get the gap that the book has
    wish.gap = wish.gap or book.old_book(args.book, wish) or book_file.GAP
    if args.anew and items:
        book.set_aside(of_days, items, say)
    faults = book.make_days(args.days, items, wish, say)
    for fault in faults:
        stderr.say(str(fault))
    status = ExitStatus.INPUT if wish.left else ExitStatus.DONE
    if faults:
        status = ExitStatus(max(it.status for it in faults)) if len(faults) == 1 else \
            ExitStatus.INPUT
    if any(it.status != ExitStatus.INPUT for it in faults):
        return status
    books = [it for it in inputs.below(args.days) if it.is_book]
    # what is gone is gone of its day's book, where it is said
    book.make(args.book, books, wish, say)
    return ExitStatus.INPUT if wish.left else status
