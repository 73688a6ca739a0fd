"""Each message, with its answer."""
from __future__ import annotations

import argparse

from aprsbook_tools import table_output
from aprsbook_tools.reports import table_files
from aprsbook_tools.reports.roster import roster_of
from aprsbook_tools.reports.table import Message

DESCRIPTION = """\
A line for each message: from whom, to whom, its number and text, when it was heard first and last,
by which gate it came, and its outcome by any answer (acknowledged, rejected, unanswered,
unnumbered). The class says what it is: message, bulletin, announcement, weather-bulletin, query,
telemetry or answer. A message that was sent again under its number within half an hour is one line.
With a roster there are columns of tactical names."""
EXAMPLES = [
    ("who waits for an answer", "aprs-net messages --format tsv net.book | grep unanswered"),
    ("the messages of this evening, for a program",
     "aprs-net messages --from 18:00 --format json logs"),
]


def add_arguments(parser: argparse.ArgumentParser) -> None:
    table_output.add_arguments(parser)


def run(args: argparse.Namespace) -> int:
    table_files.put(args, Message, roster_of(args.roster))
    return 0
