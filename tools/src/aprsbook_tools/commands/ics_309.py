"""The communications log of a net, as the form ICS 309 has it."""
from __future__ import annotations

import argparse

from aprsbook_tools import TYPE_CHECKING, arguments, table_output
from aprsbook_tools.formats import moments
from aprsbook_tools.formats.forms import form
from aprsbook_tools.reports.roster import Expected, Roster, call_of, roster_of
from aprsbook_tools.reports.table import Message
from aprsbook_tools.serving import desk_options
from aprsbook_tools.serving.entries import Journals

if TYPE_CHECKING:
    from typing import Iterable, Iterator, List, Sequence, Tuple

    from aprsbook_tools.formats.spreadsheet import Cell

HEAD = ["time", "from", "number", "to", "message", "state"]
NAMES = ["from_name", "to_name"]
# how the form says a state of the table
ANSWERS = {"acknowledged": "ack", "rejected": "rej", "unanswered": "no ack"}
DESK = "desk"  # the column of the desk that wrote a line down
BULLETIN = form("BLN|NWS-")


class Spoken(Message):
    """A line of voice traffic, and the desk that wrote it down."""

    desk: str = ""


def station_of(text: str) -> Expected:
    """A call, or a call with -* for any SSID; another addressee as it is."""
    return Expected(call_of(text) or text.upper())


DESCRIPTION = """\
A line for each message at the moment when it was first heard (UTC): from whom, its number, to whom,
whether it was acknowledged (ack), rejected (rej) or not answered (no ack), and its text. A message
that was sent again under its number within half an hour is one line. Messages and answers count
that a gate passed to the air. Queries and definitions of telemetry are left out. Without a format
it is the form on paper."""
EXAMPLES = [
    ("the form of an evening", "aprs-net ics-309 --net 'Fell race' --from 18:00 logs"),
    ("what a station sent or got, for a spreadsheet",
     "aprs-net ics-309 --station q1net --format csv -o log.csv net.book"),
]


def add_arguments(parser: argparse.ArgumentParser) -> None:
    parser.add_argument(
        "--station", type=station_of, metavar="CALL", help="those that this station sent or got"
    )
    parser.add_argument("--net", default="", metavar="NAME", help="the net's name, for the form")
    desk_options.add_desks(parser, "voice traffic, and tactical names")
    table_output.add_arguments(parser)


def spoken(journals: Journals, args: argparse.Namespace) -> Iterator[Message]:
    """The voice traffic that desks have written down, of the time that is asked for."""
    for it in journals.lines:
        if arguments.is_within(args, it.moment):
            first, text = moments.text_of(it.moment), " ".join(it.text.split())
            said = Spoken(first=first, source=it.sender, addressee=it.addressee, id=it.number,
                          text=text)
            said.desk = it.desk
            yield said


def chosen(messages: Sequence[Message], args: argparse.Namespace) -> List[Message]:
    """The traffic of a station, by its first moment."""

    def is_asked(it: Message) -> bool:
        station = args.station
        return it.is_traffic and (
            station is None or station.is_of(it.source) or station.is_of(it.addressee))

    return in_order(filter(is_asked, messages))


def in_order(messages: Iterable[Message]) -> List[Message]:
    """Messages by their first moment; at one moment bulletins come last, as on the page."""
    return sorted(messages, key=lambda it: (it.first, BULLETIN.match(it.addressee) is not None))


def table_of(messages: Sequence[Message], roster: Roster, has_desks: bool = False
             ) -> Tuple[List[str], List[List[Cell]]]:
    """The log as a table, with the state as the table has it, with desks and tactical names."""
    rows: List[List[Cell]] = [
        [it.first, it.source, it.said_number, it.addressee, it.text, it.final_state]
        for it in messages]
    for row, it in zip(rows, messages):
        row += [getattr(it, DESK, "")] if has_desks else []
        row += [roster.name_of(of) for of in (it.source, it.addressee) if roster.has_names]
    return [*HEAD, *([DESK] if has_desks else []), *(NAMES if roster.has_names else [])], rows


def form_of(messages: Sequence[Message], roster: Roster, net: str) -> str:
    """The log as a form on paper."""
    rows = [["TIME (UTC)", "FROM", "NO.", "TO", "", "MESSAGE"]]
    for it in messages:
        time = f"{it.first[:10]} {it.first[11:19]}"
        rows.append(
            [
                time,
                roster.said(it.source),
                it.said_number,
                roster.said(it.addressee),
                ANSWERS.get(it.final_state, ""),
                it.text,
            ]
        )
    widths = [
        max(least, *map(len, column)) for least, column in zip([19, 9, 5, 9, 6, 0], zip(*rows))
    ]
    lines = ["  ".join(map(str.ljust, row, widths)).rstrip() for row in rows]
    return "\n".join(
        [
            "ICS 309  COMMUNICATIONS LOG",
            f"Radio net: {net}".rstrip(),
            "Operator:",
            "",
            *lines,
            "",
            f"Messages: {len(messages)}    Prepared by:",
            "",
        ]
    )


def run(args: argparse.Namespace) -> int:
    roster = roster_of(args.roster)
    messages = [*table_output.items_of(Message, args)]
    if args.desks is not None:
        journals = desk_options.read(args.desks)
        messages += spoken(journals, args)
        roster = desk_options.named_by(journals, roster)
    messages = chosen(messages, args)
    if args.format in (None, "text"):
        table_output.put_lines(args, [form_of(messages, roster, args.net)])
    else:
        table_output.put_table(args, *table_of(messages, roster, args.desks is not None))
    return 0
