"""For the keeper of a digipeater: heard direct, hops, hours, who repeats whom, and who is late."""
from __future__ import annotations

import argparse
import json
import re

from aprsbook_tools import TYPE_CHECKING, arguments, table_output
from aprsbook_tools.books import merged_inputs
from aprsbook_tools.books.receptions import Reception, receptions_of
from aprsbook_tools.errors import ExitStatus, Fault
from aprsbook_tools.formats import book_file, log_file, moments
from aprsbook_tools.formats.forms import form
from aprsbook_tools.geo import Spot
from aprsbook_tools.records import NamedTuple
from aprsbook_tools.reports import digipeater_stats
from aprsbook_tools.reports.roster import Roster, call_of, roster_of

if TYPE_CHECKING:
    from typing import Callable, Dict, Iterator, List, Sequence, Tuple

    from aprsbook_tools.formats.spreadsheet import Cell

    Part = Tuple[List[str], Callable[["Asked"], List[List[Cell]]]]

AT = form(rf"(?:({log_file.RECEIVER})=)?(-?[0-9.]+),(-?[0-9.]+)", re.ASCII)
CALL_AT = form(rf"(?:({log_file.RECEIVER})=)?([A-Za-z0-9-]+)", re.ASCII)


class Asked(NamedTuple):
    """What a part is made of."""

    receptions: Sequence[Reception]
    roster: Roster
    at: Dict[str, Spot]
    gap: int  # seconds


def direct(it: Asked) -> List[List[Cell]]:
    return [
        [
            of.receiver,
            of.call,
            of.direct,
            of.frames,
            moments.text_of(of.last),
            it.roster.name_of(of.call),
        ]
        for of in digipeater_stats.direct_of(it.receptions)
    ]


def hops(it: Asked) -> List[List[Cell]]:
    return [[*of] for of in digipeater_stats.hops_of(it.receptions)]


def hours(it: Asked) -> List[List[Cell]]:
    return [
        [receiver, moments.text_of(hour)[:13], n, own]
        for receiver, hour, n, own in digipeater_stats.hours_of(it.receptions)
    ]


def repeats(it: Asked) -> List[List[Cell]]:
    rows = ((of.row, 1) for of in it.receptions)
    return [[*of] for of in digipeater_stats.repeats_of(rows)]


def delays(it: Asked) -> List[List[Cell]]:
    return [
        [of.receiver, of.digipeater, of.late, of.frames, round(of.delay / 1000, 1)]
        for of in digipeater_stats.delays_of(it.receptions, 1000 * it.gap)
    ]


def farthest(it: Asked) -> List[List[Cell]]:
    return [
        [
            of.receiver,
            of.call,
            round(of.metres / 1000, 1),
            round(of.degrees) % 360,
            moments.text_of(of.moment),
            it.roster.name_of(of.call),
        ]
        for of in digipeater_stats.farthest_of(it.receptions, it.at)
    ]


PARTS: Dict[str, Part] = {
    "direct": (["receiver", "call", "direct", "frames", "last", "name"], direct),
    "hops": (["receiver", "hops", "frames"], hops),
    "hours": (["receiver", "hour", "frames", "direct"], hours),
    "repeats": (["digipeater", "from", "frames"], repeats),
    "delays": (["receiver", "digipeater", "late", "frames", "seconds"], delays),
    "farthest": (["receiver", "call", "km", "degrees", "moment", "name"], farthest),
}


DESCRIPTION = """\
For the keeper of a digipeater, of logs: `direct` has the stations that each receiver heard itself;
`hops` how many frames came over so many digipeaters; `hours` the frames of each hour (UTC);
`repeats` who repeated whom, each frame once; `delays` who repeated frames later than the gap, up to
three times as late, so that a book has them twice and `passed` late moments; `farthest` the
farthest place of each that was heard direct. What a station passed on of others counts in `hours`
alone. A book has one copy of each transmission, so logs are read."""
EXAMPLES = [
    ("all of yesterday's logs", "aprs-net keeper logs/2024-06-21"),
    ("the farthest stations of a digipeater that stands there",
     "aprs-net keeper --part farthest --at HILL=54.53,-3.55 hill.log"),
]


def add_arguments(parser: argparse.ArgumentParser) -> None:
    parser.add_argument("--part", choices=list(PARTS), help="this part alone")
    parser.add_argument(
        "--at",
        action="append",
        default=[],
        metavar="[RECEIVER=]PLACE",
        help="where a receiver is, or all are: degrees north and east, such as "
        "54.5,-3.5, or a call whose last place that is",
    )
    table_output.add_arguments(parser, inputs_are="a log, or a folder of logs")


def spots_of(said: Sequence[str], receptions: Sequence[Reception]) -> Dict[str, Spot]:
    """The places of receivers: those that have one of their own, and that of all others."""
    last = digipeater_stats.last_spots(receptions)
    own: Dict[str, Spot] = {}
    rest: Dict[str, Spot] = {}
    for text in said:
        found = AT.fullmatch(text)
        if found:
            try:
                spot = Spot(float(found[2]), float(found[3]))
            except ValueError:
                raise Fault(f"--at {text}: no degrees", ExitStatus.ARGUMENTS) from None
            if abs(spot.north) > 90 or abs(spot.east) > 180:
                raise Fault(f"--at {text}: no place on the earth", ExitStatus.ARGUMENTS)
        else:
            found = CALL_AT.fullmatch(text)
            call = call_of(found[2]) if found else None
            if found is None or call is None:
                raise Fault(f"--at {text}: no degrees and no call", ExitStatus.ARGUMENTS)
            if call not in last:
                raise Fault(f"--at {text}: the logs have no place of {call}")
            spot = last[call]
        if found[1]:
            own[found[1]] = spot
        else:
            rest = {it.row.receiver: spot for it in receptions}
    return {**rest, **own}


def parts_of(asked: Asked) -> Dict[str, Tuple[List[str], List[List[Cell]]]]:
    """Each part, with its head line; how far it was only where a place is known."""
    return {name: (head, lines(asked)) for name, (head, lines) in PARTS.items()
            if name != "farthest" or asked.at}


def lines_of(form: str, parts: Dict[str, Tuple[List[str], List[List[Cell]]]]) -> Iterator[str]:
    """All parts: an object of JSON with a list for each, or one table after another."""
    if form == "json":
        tables = {name: [dict(zip(head, row)) for row in rows]
                  for name, (head, rows) in parts.items()}
        yield json.dumps(tables, ensure_ascii=False, indent=1) + "\n"
        return
    between = ""
    for name, (head, rows) in parts.items():
        yield f"{between}{name}\n\n"
        yield from table_output.lines_of("csv" if form == "csv" else "text", head, rows)
        between = "\n"


def run(args: argparse.Namespace) -> int:
    arguments.check_range(args)
    with merged_inputs.spooled(args.inputs) as paths:
        receptions = [it for it in receptions_of(paths) if arguments.is_within(args, it.moment)]
    asked = Asked(receptions, roster_of(args.roster), spots_of(args.at, receptions),
                  args.gap or book_file.GAP)
    if args.part:
        head, lines = PARTS[args.part]
        table_output.put_table(args, head, lines(asked))
    else:
        table_output.put_lines(args, lines_of(table_output.format_of(args), parts_of(asked)))
    return 0
