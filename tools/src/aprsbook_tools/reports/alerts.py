"""What a net's control wants to be told: who is silent, what isn't answered, who is in distress."""
from __future__ import annotations

from aprsbook_tools import TYPE_CHECKING
from aprsbook_tools.formats import moments
from aprsbook_tools.records import NamedTuple
from aprsbook_tools.reports.last_heard import Heard
from aprsbook_tools.reports.roster import Roster, base_of
from aprsbook_tools.reports.table import Message, Row

if TYPE_CHECKING:
    from typing import Dict, Iterable, List, Optional, Sequence

MINUTE = 60_000  # milliseconds
EMERGENCY = "emergency"
COLUMNS = ("first", "last", "source", "latitude", "longitude", "says", "text")  # that are read


class Alert(NamedTuple):
    """Something to tell: its kind, whom it is about, since when, and in words. Two alerts `about`
    one thing since one moment are the same."""

    kind: str
    call: str
    since: str
    words: str

    @property
    def about(self) -> str:
        return f"{self.kind} {self.call}"

    def is_since(self, since: str) -> bool:
        """Whether it is the one that began at a moment, or less than a minute apart: where a wrong
        clock is allowed for, moments move a little. An emergency is told rather twice."""
        if self.kind == EMERGENCY or self.since == since:
            return self.since == since
        try:
            apart = moments.milliseconds(self.since) - moments.milliseconds(since)
        except ValueError:  # never
            return False
        return abs(apart) < MINUTE


def is_before(moment: str, now: int, minutes: int) -> bool:
    """Whether a moment is so many minutes ago, or more."""
    return moments.milliseconds(moment) <= now - minutes * MINUTE


def clock(moment: str) -> str:
    return f"{moment[11:19]} UTC"


def silent(stations: Sequence[Heard], roster: Roster, now: int, minutes: int) -> List[Alert]:
    """Who wasn't heard for so long: those expected, or all that were heard without a roster."""
    if roster.is_given:
        by_base: Dict[str, List[Heard]] = {}
        for of in stations:
            by_base.setdefault(base_of(of.call), []).append(of)
        asked = [
            (it.call, [of.last for of in by_base.get(base_of(it.call), []) if it.is_of(of.call)],
             it.name)
            for it in roster.expected
        ]
    else:
        asked = [(it.call, [it.last], "") for it in stations]
    alerts = []
    for call, heard, name in asked:
        last = max(heard, default="")
        if last and not is_before(last, now, minutes):
            continue
        who = f"{name} ({call})" if name else call
        words = f"{who} wasn't heard since {clock(last)}" if last else f"{who} was never heard"
        alerts.append(Alert("silent", call, last or "never", words))
    return alerts


def unanswered(messages: Iterable[Message], roster: Roster, now: int, minutes: int) -> List[Alert]:
    """Messages that nobody has answered for so long. A query is answered in other ways."""
    return [
        Alert(
            "unanswered",
            f"{it.source} {it.addressee} {it.said_number}",
            it.first,
            f"{roster.said(it.addressee)} hasn't acknowledged message {it.said_number} of "
            f"{roster.said(it.source)}, {clock(it.first)}: {it.text}",
        )
        for it in messages
        if it.is_traffic and it.final_state == "unanswered" and is_before(it.first, now, minutes)
    ]


def emergencies(rows: Iterable[Row], roster: Roster) -> List[Alert]:
    """Stations whose last Mic-E report says an emergency, since the first that did without another
    in between."""
    since: Dict[str, Optional[Row]] = {}
    for row in sorted((it for it in rows if it.says), key=lambda it: (it.last, it.first)):
        if row.says != EMERGENCY:
            since[row.source] = None
        elif since.get(row.source) is None:
            since[row.source] = row
    return [
        Alert(
            EMERGENCY,
            call,
            row.first,
            f"{roster.said(call)} reports an emergency, {clock(row.first)}{where(row)}",
        )
        for call, row in sorted(since.items())
        if row
    ]


def where(row: Row) -> str:
    """The place and the comment of a row, in words."""
    place = ""
    if row.latitude is not None and row.longitude is not None:
        place = f", at {row.latitude:.5f}, {row.longitude:.5f}"
    return place + (f": {row.text}" if row.text else "")
