"""aprs-net shift: a log whose receiver's clock was wrong, with its moments moved."""
import argparse
import re
from typing import IO, Iterator

from aprsbook_tools import arguments
from aprsbook_tools.errors import Fault
from aprsbook_tools.formats import log_file
from aprsbook_tools.system import atomic, streams

DESCRIPTION = """\
Moves the moments of a log by SECONDS, which are whole, and below 0 where the clock was ahead; with
--from or --to, or a receiver's name, those of a part. Nothing else of a line is changed. A line
that is none of a log, or whose new moment isn't from 1970 to 2099, ends it with status 1, and no
log is written then where -o says one."""


def seconds(text: str) -> int:
    if not re.fullmatch(r"[+-]?[0-9]{1,10}", text):
        raise argparse.ArgumentTypeError("not a whole number of seconds")
    return int(text)


EXAMPLES = [
    ("a log whose receiver's clock was two hours ahead",
     "aprs-net shift -7200 coast.log -o mended.log"),
    ("what it wrote before its clock was set",
     "aprs-net shift 3600 --to 2024-06-21T18:30 coast.log -o mended.log"),
]


def add_arguments(parser: argparse.ArgumentParser) -> None:
    arguments.add_range(parser, "moves what stands in the log")
    parser.add_argument("--receiver", type=arguments.receiver, metavar="NAME",
                        help="of this receiver alone")
    arguments.add_output(parser)
    parser.add_argument("seconds", type=seconds, metavar="SECONDS")
    arguments.add_log(parser)


def shifted(file: IO[bytes], args: argparse.Namespace) -> Iterator[bytes]:
    """The lines of the new log."""
    name = streams.name_of(args.log)
    for number, (line, read) in enumerate(log_file.lines_in(file, name), 1):
        if arguments.is_within(args, read.moment) and args.receiver in (None, read.receiver):
            try:
                line = log_file.moved(line, read, args.seconds)
            except ValueError as fault:
                words = f"its moment can't be moved so: {fault}"
                raise Fault(f"{name}: line {number}: {words}") from fault
        yield line


def run(args: argparse.Namespace) -> int:
    arguments.check_range(args)
    with streams.opened(args.log) as file:
        lines = streams.read_of(shifted(file, args), streams.name_of(args.log))
        streams.put(args.output, lines, atomic.all_of(args.log))
    return 0
