"""The tables of a book in a database of SQLite."""
from __future__ import annotations

import argparse
import concurrent.futures
import contextlib
import itertools

from aprsbook_tools import TYPE_CHECKING, arguments, table_output
from aprsbook_tools.books import executors, merged_inputs
from aprsbook_tools.reports import databases, table
from aprsbook_tools.reports.roster import roster_of
from aprsbook_tools.reports.table import Time
from aprsbook_tools.system import atomic, programs, temporary

if TYPE_CHECKING:
    from typing import IO, Dict, Iterator, Optional

    from aprsbook_tools.reports.table import Columns

DESCRIPTION = """\
Makes the tables transmissions, messages, stations and things of logs and books, and the views
tracks (each place) and places (the last of each), in place of those that are there; other tables of
the database stay. Numbers are numbers, and what isn't known is null. With a roster each table has
columns of tactical names behind all others."""
EXAMPLES = [
    ("a database of an evening", "aprs-net sqlite net.db net.book"),
    ("who sent how many", "sqlite3 net.db 'select source, count(*) from transmissions group by 1'"),
]


def add_arguments(parser: argparse.ArgumentParser) -> None:
    arguments.add_gap(parser)
    arguments.add_range(parser)
    arguments.add_roster(parser)
    parser.add_argument("database", metavar="DATABASE", help="the database, which may be there")
    arguments.add_inputs(parser)


def lines_of(done: "concurrent.futures.Future[bytes]", file: IO[bytes]) -> Iterator[str]:
    """The lines of a file, once a program has written it."""
    done.result()
    file.seek(0)
    yield from itertools.chain.from_iterable(programs.lines_in(file))


@contextlib.contextmanager
def tables_of(book: str, gap: Optional[int], time: Time) -> Iterator[Dict[str, Iterator[Columns]]]:
    """The tables of a book by their names. The first is read as it comes, and meanwhile programs
    write the others, one after another, into files that go away."""
    first, *others = databases.TABLES
    lines = {first: table.lines_of(databases.TABLES[first], [book], gap)}
    with contextlib.ExitStack() as files, executors.threads(1) as pool:
        for name in others:
            command = programs.with_gap(["aprsbook-table", name], gap, [book])
            file = files.enter_context(temporary.file())
            lines[name] = lines_of(pool.submit(programs.run, *command, into=file), file)
        yield {name: table.columns(databases.TABLES[name], it, table.Wanted(time))
               for name, it in lines.items()}


def run(args: argparse.Namespace) -> int:
    arguments.check_range(args)
    read = atomic.all_of(args.roster, args.inputs)
    databases.check(args.database, read)
    roster, gap = roster_of(args.roster), table_output.gap_of(args)
    with merged_inputs.book(args.inputs, gap) as book, \
            tables_of(book, gap, table_output.time_of(args)) as tables:
        databases.write(args.database, tables, read, roster)
    return 0
