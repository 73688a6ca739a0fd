"""What reports have in common: their arguments, and tables of fields with names in each format."""
from __future__ import annotations

import argparse
import os
import sys

from aprsbook_tools import TYPE_CHECKING, arguments, progress
from aprsbook_tools.books import inputs, merged_inputs
from aprsbook_tools.formats import moments
from aprsbook_tools.formats.spreadsheet import csv_line
from aprsbook_tools.reports import table
from aprsbook_tools.system import streams

if TYPE_CHECKING:
    from typing import Iterable, Iterator, List, Optional, Sequence, Type, TypeVar

    from aprsbook_tools.formats.spreadsheet import Cell

    Rows = Iterable[Sequence[Cell]]
    T = TypeVar("T")

FORMATS = ("text", "tsv", "csv", "json")
MAPS = ("gpx", "geojson", "kml")  # of reports that have places


def add_arguments(
    parser: argparse.ArgumentParser, more: Sequence[str] = (), roster_required: bool = False,
    inputs_are: str = "a log, a book or a folder"
) -> None:
    """What each report takes: the gap, a time, the roster, the format, the output, the inputs."""
    arguments.add_gap(parser)
    arguments.add_range(parser)
    arguments.add_roster(parser, roster_required)
    add_format(parser, more)
    arguments.add_output(parser)
    arguments.add_inputs(parser, inputs_are)


def add_format(parser: argparse.ArgumentParser, more: Sequence[str] = ()) -> None:
    """--format FORMAT, in `format`."""
    formats = [*FORMATS, *more]
    parser.add_argument(
        "--format", choices=formats, metavar="FORMAT",
        help=f"{', '.join(formats[:-1])} or {formats[-1]}: columns for a reader on a terminal, "
        "tabs between the fields elsewhere (tsv); in csv no text is a formula")


def format_of(args: argparse.Namespace) -> str:
    """The format that is asked for, or else that for whoever reads the output."""
    return str(args.format or ("text" if is_for_reader(args) else "tsv"))


def is_for_reader(args: argparse.Namespace) -> bool:
    """Whether a report goes to a terminal."""
    return args.output is None and sys.stdout is not None and sys.stdout.isatty()


def gap_of(args: argparse.Namespace) -> Optional[int]:
    """The gap that is asked for, or that of the books among the inputs, where they have one."""
    gap: Optional[int] = args.gap
    if gap is not None:
        return gap
    found = inputs.of(args.inputs)
    files = [it.path for it in found if os.path.isfile(it.path) and not it.fault]
    gaps = {inputs.gap_of(it) for it in files} - {None}
    return gaps.pop() if len(gaps) == 1 else None


def time_of(args: argparse.Namespace) -> table.Time:
    """The time that is asked for, as the table says moments."""
    since = moments.text_of(args.since) if args.since is not None else table.ALWAYS.since
    until = moments.text_of(args.until) if args.until is not None else table.ALWAYS.until
    return table.Time(since, until)


def items_of(kind: Type[T], args: argparse.Namespace, names: Sequence[str] = (),
             having: str = "") -> Iterator[T]:
    """The table of the inputs, as a kind with these columns, or with all of them, of the time that
    is asked for, and of those lines that have a column; counted for who waits at a terminal."""
    arguments.check_range(args)
    with merged_inputs.plain(args.inputs) as files:
        wanted = table.Wanted(time_of(args), having)
        items = table.of(kind, files, gap_of(args), names=names, wanted=wanted)
        yield from progress.counted(items, table.WORDS[kind])


def plain(cell: Cell) -> str:
    """A field of a table with tabs, in which no tab and no end of a line stands."""
    text = "" if cell is None else str(cell)
    return text.replace("\t", " ").replace("\n", " ").replace("\r", " ")


def columns_text(head: Sequence[str], rows: Rows) -> str:
    """A table for a reader: columns of one width each, with two blanks between."""
    lines: List[List[str]] = [[plain(cell) for cell in row] for row in [head, *rows]]
    widths = [max(map(len, column)) for column in zip(*lines)]
    return "".join("  ".join(map(str.ljust, line, widths)).rstrip() + "\n" for line in lines)


def json_lines(head: Sequence[str], rows: Rows) -> Iterator[str]:
    """A table as a list of objects, each on a line of its own."""
    import json  # for this format alone

    before = "[\n"
    for row in rows:
        yield before + json.dumps(dict(zip(head, row)), ensure_ascii=False)
        before = ",\n"
    yield "\n]\n" if before == ",\n" else "[]\n"


def lines_of(form: str, head: Sequence[str], rows: Rows) -> Iterator[str]:
    """A table in a format: a head line, and a line for each row."""
    if form == "json":
        yield from json_lines(head, rows)
    elif form == "text":
        yield columns_text(head, rows)
    else:
        write = csv_line if form == "csv" else tsv_line
        yield write(head)
        yield from map(write, rows)


def tsv_line(row: Sequence[Cell]) -> str:
    """The fields of a row with tabs between them."""
    return "\t".join(map(plain, row)) + "\n"


def put_table(args: argparse.Namespace, head: Sequence[str], rows: Rows, *more: str) -> None:
    """Writes a table as the options say. `more` are files that were read, beside the inputs."""
    put_lines(args, lines_of(format_of(args), head, rows), *more)


def put_lines(args: argparse.Namespace, lines: Iterable[str], *more: str) -> None:
    """Writes a report as it comes, never in place of what it was made of."""
    roster: Optional[str] = getattr(args, "roster", None)
    given = [*more, *args.inputs, *([] if roster is None else [roster])]
    octets = (it.encode("utf-8", "surrogateescape") for it in lines)
    streams.put(args.output, octets, given)
