"""Who of those expected wasn't heard, and since when."""
from __future__ import annotations

import argparse

from aprsbook_tools import TYPE_CHECKING, table_output
from aprsbook_tools.errors import ExitStatus
from aprsbook_tools.reports import last_heard
from aprsbook_tools.reports.last_heard import Heard
from aprsbook_tools.reports.roster import Expected, base_of, roster_of

if TYPE_CHECKING:
    from typing import Dict, Iterable, List, Optional

    from aprsbook_tools.formats.spreadsheet import Cell

NEVER = "never"
HEAD = ["last", "receiver", "call", "transmissions", "heard_as", "name", "group", "passed"]
DESCRIPTION = """\
A line for each entry of the roster: when and by whom it was heard last, its call, how many
transmissions it sent, the call that was heard last, and how many frames of others it passed on. Who
was never heard stands first, then the longest silent, also where a receiver's clock is wrong, which
is said. A line of the roster is a call, or a call with -* for any SSID, and a name; or CSV of call,
name, group and bib."""
EXAMPLES = [
    ("who isn't there", "aprs-net roster --roster expected.txt logs"),
    ("the same in a script, which goes on if all were heard in the last half hour",
     "aprs-net roster --fail --from -30m --roster expected.txt logs && ./start"),
]


def add_arguments(parser: argparse.ArgumentParser) -> None:
    parser.add_argument(
        "--fail", action="store_true", help="end with status 5 where somebody was never heard"
    )
    table_output.add_arguments(parser, roster_required=True)


def lines_of(expected: Iterable[Expected], stations: Iterable[Heard]) -> List[List[Cell]]:
    """What was heard of each entry; who was never heard stands first, then the longest silent."""
    by_base: Dict[str, List[Heard]] = {}
    for it in stations:
        by_base.setdefault(base_of(it.call), []).append(it)
    found = [(it, last_of(it, by_base.get(base_of(it.call), []))) for it in expected]
    found.sort(key=lambda it: it[1].order[0] if it[1] else "")
    return [line_of(*it) for it in found]


def last_of(entry: Expected, stations: Iterable[Heard]) -> Optional[Heard]:
    """The station of an entry that was heard last, with all that those of the entry sent; None
    where none was heard."""
    own = [it for it in stations if entry.is_of(it.call)]
    if not own:
        return None
    return last_heard.joined(own)


def line_of(entry: Expected, last: Optional[Heard]) -> List[Cell]:
    """An entry, and what was heard of it."""
    if last is None:
        return [NEVER, "", entry.call, 0, "", entry.name, entry.group, 0]
    return [last.last, last.receiver, entry.call, last.transmissions, last.call, entry.name,
            entry.group, last.passed]


def run(args: argparse.Namespace) -> int:
    expected = roster_of(args.roster).expected
    rows = lines_of(expected, last_heard.of_inputs(args))
    table_output.put_table(args, HEAD, rows)
    is_missing = any(it[0] == NEVER for it in rows)
    return ExitStatus.FOUND if args.fail and is_missing else ExitStatus.DONE
