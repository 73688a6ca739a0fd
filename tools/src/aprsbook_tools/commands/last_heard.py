"""Each station with the moment and the receiver that heard it last."""
from __future__ import annotations

import argparse

from aprsbook_tools import table_output
from aprsbook_tools.reports import last_heard
from aprsbook_tools.reports.roster import roster_of

HEAD = ["last", "receiver", "call", "transmissions", "name", "passed"]
DESCRIPTION = """\
Each station of logs and books: when and by whom it was heard last, how many transmissions it sent,
its tactical name, and how many frames of others it passed on, as a gate does. What is silent the
longest stands first. Where one receiver's clock differs from those that agree, that is said and
allowed for; the moments that are shown are its own."""
EXAMPLES = [
    ("who is silent the longest", "aprs-net last-heard --roster expected.txt logs"),
    ("who was heard in the last two hours, for a spreadsheet",
     "aprs-net last-heard --from -2h --format csv -o heard.csv logs"),
]


def add_arguments(parser: argparse.ArgumentParser) -> None:
    table_output.add_arguments(parser)


def run(args: argparse.Namespace) -> int:
    roster = roster_of(args.roster)
    stations = sorted(last_heard.of_inputs(args), key=lambda it: it.order)
    table_output.put_table(
        args,
        HEAD,
        [
            [it.last, it.receiver, it.call, it.transmissions, roster.name_of(it.call), it.passed]
            for it in stations
        ],
    )
    return 0
