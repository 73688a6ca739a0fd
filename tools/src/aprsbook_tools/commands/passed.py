"""Who came by each checkpoint, and when."""
from __future__ import annotations

import argparse
import itertools
import re

from aprsbook_tools import TYPE_CHECKING, arguments, stderr, table_output
from aprsbook_tools.errors import ExitStatus, Fault
from aprsbook_tools.formats import moments
from aprsbook_tools.reports.checkpoints import (
    FASTEST, Checkpoint, Visit, all_visits, nearest_to, read_checkpoints, ways_of)
from aprsbook_tools.reports.roster import Roster, roster_of
from aprsbook_tools.reports.table import Row
from aprsbook_tools.reports.tracks import COLUMNS, Thing, things_of
from aprsbook_tools.system import user_text

if TYPE_CHECKING:
    from typing import Dict, List, Sequence, Tuple

    from aprsbook_tools.formats.spreadsheet import Cell

FEW = 20  # places that are named
HEAD = [
    "checkpoint",
    "turn",
    "came",
    "went",
    "kind",
    "name",
    "lap",
    "metres",
    "by",
    "bib",
    "tactical",
]


DESCRIPTION = """\
A line for each time that a station, an object or an item was within a checkpoint's circle: its turn
there, when it came and went, its lap, and the metres from the checkpoint where it was nearest. `by`
is `heard` where a place within the circle was heard, and `between` where only the straight way
between two places leads through. Places with digits left out don't count, nor those that nothing
on the ground could have reached (--fastest), which are named. A line of POINTS is a name, degrees
north and east, and the circle's metres, such as `Tarn 54.5183 -3.5216 150`, or CSV of these."""
EXAMPLES = [
    ("who passed each checkpoint", "aprs-net passed --points points.txt net.book"),
    ("the times of each runner, for a spreadsheet",
     "aprs-net passed --matrix --points points.txt --format csv net.book"),
]


def add_arguments(parser: argparse.ArgumentParser) -> None:
    parser.add_argument("--points", metavar="POINTS", required=True,
                        help="the file of checkpoints")
    parser.add_argument(
        "--matrix",
        action="store_true",
        help="a line for each who passed, by bib, with the time at each checkpoint; ~ marks what "
        "lies between two beacons",
    )
    parser.add_argument(
        "--segments",
        action="store_true",
        help="in the matrix, the time since the checkpoint before in place of the clock's",
    )
    parser.add_argument(
        "--apart",
        type=arguments.duration(1, 1440, "m"),
        default=15,
        metavar="MINUTES",
        help="no way leads between places so far apart in time (15)",
    )
    parser.add_argument(
        "--fastest",
        type=arguments.whole_number(0, 100_000),
        default=FASTEST,
        metavar="KMH",
        help=f"no way is faster than so many kilometres an hour ({FASTEST}), but for what flies; "
        "0: any may be",
    )
    table_output.add_arguments(parser)


def bib_of(thing: Thing, roster: Roster) -> str:
    entry = roster.entry_of(thing.name) if thing.kind == "station" else None
    return entry.bib if entry else ""


def tactical_of(thing: Thing, roster: Roster) -> str:
    return roster.name_of(thing.name) if thing.kind == "station" else ""


def lines_of(
    visits: Sequence[Visit], points: Sequence[Checkpoint], roster: Roster
) -> List[List[Cell]]:
    """A line for each visit."""
    lines: List[List[Cell]] = []
    turns: Dict[int, int] = {}
    for it in visits:
        turns[it.checkpoint] = turns.get(it.checkpoint, 0) + 1
        lines.append(
            [
                points[it.checkpoint].name,
                turns[it.checkpoint],
                moments.text_of(it.came),
                moments.text_of(it.went),
                it.thing.kind,
                it.thing.name,
                it.lap,
                round(it.metres),
                "heard" if it.was_heard else "between",
                bib_of(it.thing, roster),
                tactical_of(it.thing, roster),
            ]
        )
    return lines


def in_natural_order(text: str) -> Tuple[int, List[Tuple[int, str]]]:
    """Numbers by their value, and no text last."""
    parts = re.findall(r"\d+|\D+", text)
    return (0 if text else 1), [(int(it), "") if it.isdecimal() else (-1, it) for it in parts]


def clocks_of(visits: Sequence[Visit]) -> List[str]:
    """When each visit began, with the day where there are several."""
    came = [moments.text_of(it.came) for it in visits]
    is_one_day = len({it[:10] for it in came}) < 2
    return [it[11:19] if is_one_day else f"{it[:10]} {it[11:19]}" for it in came]


def segments_of(visits: Sequence[Visit]) -> List[str]:
    """For each visit the time since the one before, of the same thing; 0:00:00 of the first."""
    last: Dict[Tuple[str, str], int] = {}
    took = [""] * len(visits)
    for number, it in sorted(enumerate(visits), key=lambda one: one[1].came):
        # whole seconds, as the clock's are shown
        key, came = (it.thing.kind, it.thing.name), it.came // 1000
        seconds = came - last.get(key, came)
        took[number] = f"{seconds // 3600}:{seconds // 60 % 60:02}:{seconds % 60:02}"
        last[key] = came
    return took


def matrix_of(
    visits: Sequence[Visit], points: Sequence[Checkpoint], roster: Roster, times: Sequence[str]
) -> Tuple[List[str], List[List[Cell]]]:
    """A line for each who passed; a column for each checkpoint and lap, with the visits' times."""
    columns = sorted(
        {(it.lap, it.checkpoint) for it in visits} | {(1, k) for k in range(len(points))}
    )
    laps = max((lap for lap, _ in columns), default=1)
    names = [points[k].name + (f" {lap}" if laps > 1 else "") for lap, k in columns]
    cells: Dict[Tuple[str, str], Dict[Tuple[int, int], str]] = {}
    things: Dict[Tuple[str, str], Thing] = {}
    for it, time in zip(visits, times):
        key = it.thing.kind, it.thing.name
        things[key] = it.thing
        cells.setdefault(key, {})[it.lap, it.checkpoint] = time if it.was_heard else f"~{time}"
    lines: List[List[Cell]] = []
    for key, thing in sorted(
        things.items(), key=lambda it: (in_natural_order(bib_of(it[1], roster)), it[0])
    ):
        line: List[Cell] = [bib_of(thing, roster), thing.name, tactical_of(thing, roster)]
        lines.append(line + [cells[key].get(it, "") for it in columns])
    return distinct(["bib", "name", "tactical", *names]), lines


def distinct(names: Sequence[str]) -> List[str]:
    """Names of columns, of which JSON takes each once: one that is there already gets a number."""
    found: List[str] = []
    for name in names:
        numbered = (f"{name} #{number}" for number in itertools.count(2))
        found.append(next(it for it in itertools.chain([name], numbered) if it not in found))
    return found


def say_what_is_wild(things: Sequence[Thing], fastest: float) -> None:
    """Names places that nothing could have reached."""
    found = [place for it in things for way in ways_of(it, fastest) for place in way.wild]
    for it in found[:FEW]:
        north, east = it.spot
        stderr.warn(f"{it.name}, {it.row.first}: {north:.4f}, {east:.4f} isn't reached by "
                    f"{fastest} km/h, and is left out")
    if len(found) > FEW:
        stderr.warn(f"places more that are left out so: {len(found) - FEW}")


def say_who_is_near(
    things: Sequence[Thing], points: Sequence[Checkpoint], visits: Sequence[Visit]
) -> None:
    """Says of checkpoints that nobody passed who was nearest, as where degrees are swapped."""
    passed = {it.checkpoint for it in visits}
    for number, at in enumerate(points):
        near = nearest_to(things, at) if number not in passed else None
        if near:
            stderr.note(f"nobody passed {at.name}: {near[1].name} was nearest, {near[0]:,.0f} m "
                        f"away, at {near[1].row.first}")


def run(args: argparse.Namespace) -> int:
    if args.segments and not args.matrix:
        raise Fault("--segments goes with --matrix", ExitStatus.ARGUMENTS)
    roster = roster_of(args.roster)
    points = read_checkpoints(args.points, user_text.read(args.points))
    things = things_of(table_output.items_of(Row, args, COLUMNS, "latitude"))
    visits = all_visits(things, points, args.apart * 60_000, args.fastest)
    say_what_is_wild(things, args.fastest)
    say_who_is_near(things, points, visits)
    if args.matrix:
        times = (segments_of if args.segments else clocks_of)(visits)
        head, lines = matrix_of(visits, points, roster, times)
    else:
        head, lines = HEAD, lines_of(visits, points, roster)
    table_output.put_table(args, head, lines, args.points)
    return 0
