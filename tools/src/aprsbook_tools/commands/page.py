"""A page of a net or an event: a map with tracks, messages, who was heard when and by whom."""
import argparse
import functools
from typing import Any, Dict

from aprsbook_tools import arguments, table_output
from aprsbook_tools.books import merged_inputs
from aprsbook_tools.page import basemap, options, repeats
from aprsbook_tools.page.options import brought, files_of, page_of
from aprsbook_tools.reports.roster import read_roster, text_of
from aprsbook_tools.serving import desk_options
from aprsbook_tools.serving.entries import Journals
from aprsbook_tools.system import atomic, streams

DESCRIPTION = """A page of logs and books in one file that asks for nothing else: open it as it is,
mail it, or put it on a web server. The same inputs in any order give the same bytes. All that came
off the air is text in the page, in which no script runs but its own."""


EXAMPLES = [
    ("the page of an evening, for any browser",
     "aprs-net page --title 'Fell race' -o race.html logs/2024-06-21"),
    ("with a course, and who is expected",
     "aprs-net page --course course.gpx --roster expected.txt -o race.html net.book"),
]


def add_arguments(parser: argparse.ArgumentParser) -> None:
    options.add_options(parser)
    desk_options.add_desks(parser, "voice traffic, names, and what of the alarms is dealt with")
    arguments.add_gap(parser)
    arguments.add_output(parser)
    arguments.add_inputs(parser)


def with_desks(said: Dict[str, Any], journals: Journals) -> Dict[str, Any]:
    """What a page is told, with what desks have written down."""
    lines = [{"at": it.moment / 1000, "from": it.sender, "to": it.addressee, "id": it.number,
              "text": it.text, "desk": it.desk} for it in journals.lines]
    more: Dict[str, Any] = {"lines": lines, "marks": journals.text}
    if journals.names:
        more["roster"] = text_of(desk_options.named_by(journals, read_roster(said["roster"])))
    return {**said, **more}


def run(args: argparse.Namespace) -> int:
    if args.output and args.output != "-":
        atomic.check(args.output, [*args.inputs, *files_of(args)])
    said, gap = brought(args), table_output.gap_of(args)
    if args.desks is not None:
        said = with_desks(said, desk_options.read(args.desks))
    below = functools.partial(basemap.of, args)
    with merged_inputs.spooled(args.inputs) as named, \
            merged_inputs.plain(named, repeats.MOST) as files, \
            merged_inputs.book_of(files, gap) as book, \
            page_of(book, gap, said, below, repeats=repeats.of_files(files)) as pieces:
        streams.put(args.output, pieces, [*args.inputs, *files_of(args)])
    return 0
