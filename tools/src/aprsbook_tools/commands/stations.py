"""Each station, with its last position and status."""
from __future__ import annotations

import argparse

from aprsbook_tools import arguments, table_output
from aprsbook_tools.reports import table_files, track_files
from aprsbook_tools.reports.roster import roster_of
from aprsbook_tools.reports.table import Station

DESCRIPTION = """\
A line for each station: how many transmissions it sent, its last position with when and by whom it
was heard, and its last status. In GPX, GeoJSON and KML the last position of each is a point. With
--from or --to those whose last position or status is of that time. Who was heard last without
either is in `aprs-net last-heard`."""
EXAMPLES = [
    ("each station with its last position", "aprs-net stations net.book"),
    ("the same as points for a map", "aprs-net stations --format kml -o net.kml net.book"),
]


def add_arguments(parser: argparse.ArgumentParser) -> None:
    arguments.add_title(parser, "the name of the file's content")
    table_output.add_arguments(parser, table_output.MAPS)


def run(args: argparse.Namespace) -> int:
    roster = roster_of(args.roster)
    form = table_output.format_of(args)
    if form in track_files.POINTS:
        places = track_files.places_of_stations(table_output.items_of(Station, args))
        table_output.put_lines(args, track_files.POINTS[form](places, roster, args.title))
    else:
        table_files.put(args, Station, roster)
    return 0
