"""Places and tracks, also as GPX, GeoJSON or KML."""
from __future__ import annotations

import argparse

from aprsbook_tools import arguments, table_output
from aprsbook_tools.reports import track_files
from aprsbook_tools.reports.roster import roster_of
from aprsbook_tools.reports.table import Row
from aprsbook_tools.reports.tracks import COLUMNS, each_thing

DESCRIPTION = """\
Where each station, object and item was over time. A place counts from the moment when it was first
heard, and a kill ends a segment of a track. In GPX and KML the last place of each is a point, and
what moved has a track; GeoJSON has a point for each place, and lines that end at the date line. Any
other format has a line for each place."""
EXAMPLES = [
    ("the tracks of an evening, for a GPS or a map",
     "aprs-net tracks --format gpx -o net.gpx net.book"),
    ("those of the last hour, with tactical names",
     "aprs-net tracks --format kml --from -1h --roster expected.txt -o net.kml logs"),
]


def add_arguments(parser: argparse.ArgumentParser) -> None:
    arguments.add_title(parser, "the name of the file's content")
    table_output.add_arguments(parser, table_output.MAPS)


def run(args: argparse.Namespace) -> int:
    roster = roster_of(args.roster)
    things = each_thing(table_output.items_of(Row, args, COLUMNS, "latitude"))
    form = table_output.format_of(args)
    if form in track_files.TRACKS:
        table_output.put_lines(args, track_files.TRACKS[form](things, roster, args.title))
    else:
        head = track_files.head_of(roster)
        lines = (line[:len(head)] for line in track_files.lines_of(things, roster))
        table_output.put_table(args, head, lines)
    return 0
