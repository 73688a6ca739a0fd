"""The table of a book as CSV for a spreadsheet."""
from __future__ import annotations

import argparse

from aprsbook_tools import TYPE_CHECKING, arguments, table_output
from aprsbook_tools.formats.spreadsheet import csv_line
from aprsbook_tools.reports import table, table_files
from aprsbook_tools.reports.roster import roster_of
from aprsbook_tools.system import streams

if TYPE_CHECKING:
    from typing import Iterator, List, Sequence

    from aprsbook_tools.formats.spreadsheet import Cell

KINDS = {word: kind for kind, word in table.WORDS.items()}
FIELDS = "fields"
DESCRIPTION = """\
A table of logs and books as CSV, in which no text off the air is a formula to a spreadsheet.
`fields` takes lines of the table's fields with tabs between them, as of awk or cut. With a roster a
table has columns of tactical names behind all others."""
EXAMPLES = [
    ("all that was heard", "aprs-net csv -o heard.csv net.book"),
    ("the messages", "aprs-net csv --table messages -o messages.csv net.book"),
    ("two columns of the table",
     "aprsbook-table net.book | cut -f 2,6 | aprs-net csv --table fields"),
]


def add_arguments(parser: argparse.ArgumentParser) -> None:
    parser.add_argument(
        "--table", choices=[*KINDS, FIELDS], default="rows", metavar="TABLE",
        help="rows (each transmission), messages, stations, things (objects and items), or fields "
        "(rows)")
    arguments.add_gap(parser)
    arguments.add_range(parser)
    arguments.add_roster(parser)
    arguments.add_output(parser)
    arguments.add_inputs(parser)
    parser.set_defaults(format="csv")


def fields_of(paths: Sequence[str]) -> Iterator[List[Cell]]:
    """The fields of lines with tabs between them, as the table shows them."""
    for path in paths or ["-"]:
        with streams.opened(arguments.one_input(path)) as file:
            for line in file:
                text = line.decode("utf-8", "backslashreplace").rstrip("\r\n")
                if text:
                    yield [*map(table.text_of, text.split("\t"))]


def run(args: argparse.Namespace) -> int:
    if args.table == FIELDS:
        rows = fields_of(args.inputs)
        table_output.put_lines(args, map(csv_line, rows))
    else:
        table_files.put(args, KINDS[args.table], roster_of(args.roster))
    return 0
