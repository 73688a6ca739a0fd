"""aprs-net clocks: by how much receivers' clocks differ, and where one was set."""
import argparse
import contextlib
import functools
import os
import tempfile
from typing import IO, Callable, Dict, List, Sequence, Tuple

from aprsbook_tools import arguments, stderr, table_output
from aprsbook_tools.books import inputs, merged_inputs, one_name
from aprsbook_tools.errors import ExitStatus, Fault, said
from aprsbook_tools.formats import book_file, log_file
from aprsbook_tools.reports import clock_offsets, table
from aprsbook_tools.reports.roster import roster_of

DESCRIPTION = """\
For each two receivers that heard the same transmissions: by how many seconds the first is ahead of
the other, in the median, how many transmissions that are, and from when to when by each clock. What
was sent again with the same text is left out. Where the difference changes, as when a clock is set
or drifts, there is a line for each span, and the change lies between two of them.

The status is 5 where the difference is more than the gap in any span, since a book then has rows
twice, and 1 where no two receivers heard the same. What is wrong is mended by aprs-net shift."""
EXAMPLES = [
    ("how receivers' clocks differ", "aprs-net clocks logs/2024-06-21"),
    ("mend one that was two hours ahead", "aprs-net shift -7200 coast.log -o mended.log"),
]


def add_arguments(parser: argparse.ArgumentParser) -> None:
    parser.add_argument("--step", type=arguments.duration(1, 3600, "s"), default=5,
                        metavar="SECONDS", help="a change of more than so much is told (5)")
    table_output.add_arguments(parser, inputs_are="a log, or a folder of logs")


NAMES = ["name", "other_name"]  # of receivers whose names are calls of the roster
Places = Dict[str, Dict[int, int]]
Within = Callable[[int], bool]  # whether a moment is of the time that is asked for


def split(items: List[inputs.Input], folder: str, within: Within
          ) -> Tuple[Dict[str, str], Places]:
    """A log of each receiver, in a folder, and the place of each moment in it."""
    paths: Dict[str, str] = {}
    places: Places = {}
    for it in items:
        if it.fault:
            raise Fault(f"{it.path}: {it.fault}")
        lines: Dict[str, List[bytes]] = {}
        with inputs.unpacking(it.path) as file:
            add_lines(it.path, file, lines, places, within)
        for receiver, of_receiver in lines.items():
            # receivers whose names differ in case alone have files of their own everywhere
            path = paths.setdefault(receiver, os.path.join(folder, f"{len(paths):06}.log"))
            with open(path, "ab") as log:
                log.writelines(of_receiver)
    return paths, places


def add_lines(path: str, file: IO[bytes], lines: Dict[str, List[bytes]], places: Places,
              within: Within) -> None:
    for line, read in log_file.lines_in(file, path):
        if not within(read.moment):
            continue
        lines.setdefault(read.receiver, []).append(read.write())
        of_receiver = places.setdefault(read.receiver, {})
        of_receiver.setdefault(read.moment, len(of_receiver))


def spans_of(paths: Sequence[str], step: int, within: Within = lambda _: True
             ) -> List[clock_offsets.Span]:
    """The spans of each two receivers of logs; a change of more than so many seconds ends one."""
    items = inputs.of(paths)
    if not items:
        raise Fault(f"no logs are in {' '.join(paths)}")
    for it in items:
        if it.is_book:
            raise Fault(f"{it.path}: a book has no longer what each receiver's clock said: give "
                        "the logs")
    one_name.say_where_two_are(items, stderr.warn_once)
    with contextlib.ExitStack() as stack:
        try:
            folder = stack.enter_context(tempfile.TemporaryDirectory())
            logs, places = split(items, folder, within)
        except OSError as fault:
            raise Fault(said(fault), ExitStatus.OUTPUT) from fault
        # a gap of a second: the copies of a transmission stay apart where they can
        heard = {receiver: table.rows([path], 1) for receiver, path in sorted(logs.items())}
        pairs = clock_offsets.pairs(heard, places)
    return [span for (one, other), frames in pairs.items()
            for span in clock_offsets.spans(one, other, frames, step * 1000)]


def run(args: argparse.Namespace) -> int:
    arguments.check_range(args)
    roster = roster_of(args.roster)
    within = functools.partial(arguments.is_within, args)
    with merged_inputs.spooled(args.inputs) as paths:
        found = spans_of(paths, args.step, within)
    head = [*clock_offsets.COLUMNS, *(NAMES if roster.has_names else [])]
    rows = [[*it.words(), roster.name_of(it.one), roster.name_of(it.other)] for it in found]
    table_output.put_table(args, head, [row[:len(head)] for row in rows])
    gap = args.gap or book_file.GAP
    if not found:
        stderr.warn("no two receivers heard the same frame")
        return ExitStatus.INPUT
    for receiver in clock_offsets.wrong(found, gap):
        stderr.warn(f"{receiver} differs by more than the gap, {gap} seconds")
    return ExitStatus.FOUND if any(abs(it.ahead) > gap for it in found) else ExitStatus.DONE
