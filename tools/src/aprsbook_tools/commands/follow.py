"""The book and the page of a net that runs."""
import argparse
import functools
import os
from typing import List

from aprsbook_tools import arguments, stderr
from aprsbook_tools.books import inputs, merged_inputs, net_logs
from aprsbook_tools.errors import ExitStatus, Fault, words_of
from aprsbook_tools.page import basemap, options, repeats
from aprsbook_tools.system import atomic
from aprsbook_tools.system.clock import CLOCK

DESCRIPTION = """Makes OUT/net.book and OUT/index.html of the logs of today and yesterday (UTC).
These are LOGS/DAY/NAME.log such as `aprs-net log` writes, also compressed (.log.gz). Both stay as
they are where nothing has changed, and where none of these logs is there. Only whole lines are
read: standard error says how many others stand in a log, and the page names a log that can't be
read."""


EXAMPLES = [
    ("a page that a web server hands out, made anew each minute",
     "aprs-net follow --every 60 --live 60 --title 'Tuesday net' logs page"),
    ("that of a day, once", "aprs-net follow --day 2024-06-21 logs page"),
]


def add_arguments(parser: argparse.ArgumentParser) -> None:
    arguments.add_every(parser)
    net_logs.add_days(parser)
    options.add_options(parser)
    arguments.add_gap(parser, variable=True)
    parser.add_argument("logs", metavar="LOGS", help="the folder of the logs")
    parser.add_argument("out", metavar="OUT", help="the folder of the book and the page")


def is_page(path: str) -> bool:
    """Whether a file that is there may be a page of this command: it names the program, or is
    empty."""
    with open(path, "rb") as file:
        octets = file.read()
    return not octets or b"aprsbook" in octets


def check_outputs(place: str, text: str, read: List[str]) -> None:
    """Refuses to replace what this command didn't make."""
    for it in place, text:
        atomic.check(it, read, is_named=False)
    if os.path.exists(text) and not is_page(text):
        raise Fault(f"{text} is no page of aprs-net, and isn't replaced: take it away",
                    ExitStatus.OUTPUT)
    if os.path.exists(place) and os.path.getsize(place) and inputs.gap_of(place) is None:
        raise Fault(f"{place} is no book, and isn't replaced: take it away",
                    ExitStatus.OUTPUT)


def make(args: argparse.Namespace) -> bool:
    """Makes both once; whether each log could be read."""
    said = options.brought(args)
    found = net_logs.gather(args.logs, net_logs.days_of(args))
    for note in found.notes:
        stderr.warn(note)
    read = [*found.paths, *options.files_of(args)]
    os.makedirs(args.out, exist_ok=True)
    place, text = (os.path.join(args.out, name) for name in ("net.book", "index.html"))
    check_outputs(place, text, read)
    with atomic.writing(place, read, is_named=False) as new:
        merged_inputs.write_book(new.file, [], args.gap, found.log)
    below = functools.partial(basemap.of, args)
    repeated = repeats.of_log(found.log)
    with options.page_of(place, args.gap, said, below, found.notes, repeated) as pieces, \
            atomic.writing(text, read, is_named=False) as new:
        new.file.writelines(pieces)
    return not found.is_faulty


def run(args: argparse.Namespace) -> int:
    args.gap = arguments.gap_of(args)
    if args.every is None:
        return 0 if make(args) else ExitStatus.INPUT
    while True:
        try:
            make(args)
        except (Fault, OSError) as fault:  # the next turn may go well
            stderr.say(words_of(fault))
        CLOCK.wait(args.every)
