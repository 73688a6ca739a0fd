"""Every place, or the last one of each station, object and item."""
from __future__ import annotations

import argparse

from aprsbook_tools import arguments, table_output
from aprsbook_tools.reports import track_files
from aprsbook_tools.reports.roster import roster_of
from aprsbook_tools.reports.table import Row
from aprsbook_tools.reports.tracks import COLUMNS, each_thing

DESCRIPTION = """\
A line for each place of a station, an object or an item, by kind, name and the moment when it was
first heard. In GPX, GeoJSON and KML each place is a point."""
EXAMPLES = [
    ("where each was last, on a terminal", "aprs-net places --last net.book"),
    ("the same as points for a map", "aprs-net places --last --format geojson -o net.geojson logs"),
]


def add_arguments(parser: argparse.ArgumentParser) -> None:
    parser.add_argument("--last", action="store_true", help="the last place of each alone")
    arguments.add_title(parser, "the name of the file's content")
    table_output.add_arguments(parser, table_output.MAPS)


def run(args: argparse.Namespace) -> int:
    roster = roster_of(args.roster)
    things = each_thing(table_output.items_of(Row, args, COLUMNS, "latitude"))
    places = ([it.now] if args.last else [*it.places] for it in things)
    form = table_output.format_of(args)
    if form in track_files.POINTS:
        table_output.put_lines(args, track_files.POINTS[form](places, roster, args.title))
    else:
        lines = (track_files.line_of(it, roster) for own in places for it in own)
        table_output.put_table(args, track_files.HEAD, lines)
    return 0
