"""What the desks of a net have written down, as commands are told where that is."""
import argparse

from aprsbook_tools import stderr
from aprsbook_tools.reports.roster import Expected, Roster, call_of
from aprsbook_tools.serving import entries
from aprsbook_tools.serving.entries import Journals


def add_desks(parser: argparse.ArgumentParser, more: str) -> None:
    """--desks LOGS, in `desks`."""
    parser.add_argument("--desks", metavar="LOGS", help="also what the desks of `aprs-net serve` "
                        f"have written down: {more}")


def read(folder: str) -> Journals:
    """The journals of a folder; that some of their lines are no entries is said."""
    journals, others = entries.read(folder)
    if others:
        stderr.warn(f"{folder}: lines of desks that are no entries: {others}")
    return journals


def named_by(journals: Journals, roster: Roster) -> Roster:
    """A roster with the tactical names that desks gave."""
    names = {call: " ".join(name.split()) for call, name in journals.names.items()
             if call_of(call) == call}
    others = [it for it in roster.expected if it.call not in names]
    return Roster([*others, *(Expected(call, name) for call, name in names.items())])
