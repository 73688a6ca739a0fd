"""A table of a book whole, in each format. Many rows are converted at once, column by column: most
columns are empty there, or stand as they are, and what is alike is converted once."""
from __future__ import annotations

import argparse
import itertools

from aprsbook_tools import TYPE_CHECKING, arguments, progress, table_output
from aprsbook_tools.books import merged_inputs
from aprsbook_tools.formats.forms import form
from aprsbook_tools.formats.spreadsheet import cell_text, quoted
from aprsbook_tools.reports import table, tactical
from aprsbook_tools.reports.roster import Roster
from aprsbook_tools.reports.table import is_escaped

if TYPE_CHECKING:
    from typing import Any, Callable, Dict, Iterable, Iterator, List, Sequence, Tuple, Type
    from aprsbook_tools.reports.table import Changes, Columns, ConvertColumn

    from aprsbook_tools.formats.spreadsheet import Cell

    Convert = Callable[[Any], Any]

TEXTS = (table.text_of, table.names, table.yes)  # what reads texts
SAME = form(r"-?(?:[1-9][0-9]{0,4}\.|0\.(?!000))[0-9]{0,9}[1-9]")
BEGIN = form(r"\n[^0-9A-Za-z\n]")  # of what begins no word and no number


def cell_of(value: Any) -> Cell:
    """A value of the table as a field of a report."""
    if isinstance(value, bool):
        return "yes" if value else "no"
    cell: Cell = ",".join(value) if isinstance(value, tuple) else value
    return cell


def csv_field(cell: Cell) -> str:
    return quoted(cell_text(cell))


def is_unlike_csv(lines: str) -> bool:
    """Whether CSV may have a line in another way: escaped, in quotes, or as a formula."""
    return any(it in lines for it in '\\",\r') or BEGIN.search(f"\n{lines}") is not None


def converter(read: Convert, write: Convert, empty: Any, changes: Changes) -> ConvertColumn:
    """What converts a column that is shown: each value is read and written, and one that is empty
    is `empty`. Texts stand as they are, unless that changes one of them."""
    are_texts = read in TEXTS and empty == ""
    return table.converter(lambda shown: write(cell_of(read(shown))), empty,
                           changes if are_texts else None)


def decimals(write: Callable[[Cell], str]) -> ConvertColumn:
    """What converts a column of degrees and the like into texts, most of which stand as they are:
    those that Python writes so too."""
    def text_of(shown: str) -> str:
        if SAME.fullmatch(shown):
            return shown
        return write(float(shown))
    return table.converter(text_of, "")


def converters(kind: Type[Any], names: Sequence[str], write: Convert, changes: Changes,
               empty: Convert) -> List[ConvertColumn]:
    """What converts the columns of a kind, and those of names, which are texts."""
    readers = [*table.readers_of(kind).values()]
    own = [converter(it, write, empty(cell_of(it(""))), changes) for it in readers]
    return [*own, *[converter(str, write, "", changes)] * len(names)]


def converted(tables: Iterable[Columns], converts: Sequence[ConvertColumn]
              ) -> Iterator[Iterator[Tuple[Any, ...]]]:
    """The rows of columns that are converted."""
    for columns in tables:
        yield zip(*(convert(it) for convert, it in zip(converts, columns)))


# how a field is written, what stands between two, and what may make a field another one
WRITERS: Dict[str, Tuple[Callable[[Cell], str], str, Changes]] = {
    "csv": (csv_field, ",", is_unlike_csv), "tsv": (table_output.plain, "\t", is_escaped)}


def lines_of(form: str, kind: Type[Any], tables: Iterable[Columns], names: Sequence[str]
             ) -> Iterator[str]:
    """A table in a format, whose columns are as the program shows them."""
    head = [*table.columns_of(kind), *names]
    if form in WRITERS:
        write, between, changes = WRITERS[form]
        yield between.join(map(write, head)) + "\n"
        own = converters(kind, names, write, changes, write)
        for at, read in enumerate(table.readers_of(kind).values()):
            if read is table.decimal:
                own[at] = decimals(write)
        for columns in tables:
            texts = [convert(it) for convert, it in zip(own, columns)]
            rows = zip(*without_empty(texts, between))
            yield "\n".join(map(between.join, rows)) + "\n"
    else:
        own = converters(kind, names, lambda cell: cell, is_escaped, lambda cell: cell)
        rows_ = (row for rows in converted(tables, own) for row in rows)
        yield from table_output.lines_of(form, head, rows_)


def without_empty(columns: Sequence[Sequence[str]], between: str) -> List[Sequence[str]]:
    """The columns, in which those that are empty, one behind another, are one that has what stands
    between them."""
    result: List[Sequence[str]] = []
    for is_empty, group in itertools.groupby(columns, table.is_empty):
        own = [*group]
        result += [[between * (len(own) - 1)] * len(own[0])] if is_empty else own
    return result


def put(args: argparse.Namespace, kind: Type[Any], roster: Roster) -> None:
    """Writes the table of the inputs as a kind, in the format that is asked for."""
    arguments.check_range(args)
    with merged_inputs.plain(args.inputs) as files:
        lines = table.lines_of(kind, files, table_output.gap_of(args))
        shown = table.columns(kind, lines, table.Wanted(table_output.time_of(args)))
        counted = progress.counted(shown, table.WORDS[kind], size=lambda columns: len(columns[0]))
        names = tactical.names_of(kind, roster)
        form = table_output.format_of(args)
        table_output.put_lines(
            args, lines_of(form, kind, tactical.named(kind, roster, counted), names))
