"""aprs-net import: a log of what other programs have written down."""
import argparse
from typing import IO, Dict, Iterator, List, Tuple

from aprsbook_tools import arguments, stderr
from aprsbook_tools.books import net_logs
from aprsbook_tools.errors import ExitStatus, Fault
from aprsbook_tools.formats import kiss, log_file
from aprsbook_tools.formats.zones import Zones
from aprsbook_tools.imports import (
    Found, Options, Reader, Refused, direwolf_csv, files, lines, packets)
from aprsbook_tools.system import atomic, streams

READERS: Dict[str, Tuple[Reader, str]] = {
    "monitor": (lines.monitor, "lines with a time and SOURCE>DESTINATION,PATH:INFORMATION"),
    "direwolf": (lines.monitor, "what Dire Wolf prints with -T %Y-%m-%dT%H:%M:%S"),
    "direwolf-csv": (direwolf_csv.read, "its log in CSV, of positions and statuses alone"),
    "aprx": (lines.aprx, "aprx's rf.log"),
    "aprs-fi": (lines.aprs_fi, "raw packets of aprs.fi, tried on lines made by hand"),
    "yaac": (lines.yaac, "YAAC's log of raw packets, tried on lines made by hand"),
    "xastir": (lines.xastir, "Xastir's tnc.log"),
    "atest": (files.atest, "what atest -h prints of a recording"),
    "pcap": (files.pcap, "a capture of AX.25 packets, as Wireshark's"),
    "book": (files.book, "a book: the greatest reception of each transmission"),
}
FORMATS = "\n".join(f"  {name:<13} {words}" for name, (_, words) in READERS.items())
DESCRIPTION = f"""\
Writes a log of what another program has written down, in FORMAT:

{FORMATS}

A time has the zone that stands with it, such as Z, UTC, +02:00 or UTC+2, or else that of --zone, or
UTC. A zone by its letters is known where --zone Europe/Berlin has it, or by --zone CEST=+02:00; a
line with another one is refused. What the other program sent itself is left out, and goes to
--sent;
so does what came over the Internet alone. What can't be taken is said with its line; the status is
1 where a moment couldn't be told."""


EXAMPLES = [
    ("what Dire Wolf printed, whose computer had local time",
     "aprs-net import direwolf --zone Europe/Berlin --name HILL -o a.log dw.txt"),
    ("a recording, by Dire Wolf's decoder",
     "atest -h net.wav | aprs-net import atest --start 2024-06-21T18:00 -o tape.log"),
]


def add_arguments(parser: argparse.ArgumentParser) -> None:
    parser.add_argument("--name", type=arguments.receiver, metavar="NAME",
                        help="the receiver's name, where it isn't that of the text, or TEXT")
    parser.add_argument("--zone", action="append", default=[], metavar="ZONE",
                        help="UTC, +02:00 or Europe/Berlin; or what letters mean, as CEST=+02:00")
    parser.add_argument("--date", type=net_logs.day_of, metavar="DAY",
                        help="the day of times that stand without one, as 2024-06-21")
    parser.add_argument("--sent", metavar="FILE", help="a log of what the other program sent")
    parser.add_argument("--igate", action="store_true",
                        help="a feed of APRS-IS: the receiver is the gate that heard the frame")
    parser.add_argument("--stamp", action="store_true",
                        help="a line without a time has the moment at which it is read")
    parser.add_argument("--bytes", choices=list(packets.ESCAPES), dest="escapes",
                        help="a byte that can't be printed stands as <0x0a> (direwolf), as \\x0a "
                        "(aprsbook) or as it is (raw)")
    parser.add_argument("--start", type=arguments.moment, metavar="MOMENT",
                        help="when a recording began, as 2024-06-21T18:00")
    arguments.add_output(parser)
    parser.add_argument("format", choices=list(READERS), metavar="FORMAT")
    arguments.add_log(parser, "INPUT")


class Count:
    """What was taken, refused and left out."""

    def __init__(self) -> None:
        self.taken = 0
        self.refused = 0
        self.untimed = 0
        self.own: List[bytes] = []

    def say(self, found: Refused) -> None:
        self.refused += 1
        self.untimed += found.untimed
        stderr.warn(f"line {found.number}: {found.words}: {found.text[:100]!r}")


def found_in(file: IO[bytes], args: argparse.Namespace, options: Options) -> Iterator[Found]:
    """What the text has; a fault has its name."""
    try:
        yield from READERS[args.format][0](file, options)
    except Fault as fault:
        raise Fault(f"{streams.name_of(args.input)}: {fault.words}", fault.status) from fault


def written(file: IO[bytes], args: argparse.Namespace, options: Options,
            count: Count) -> Iterator[bytes]:
    """The lines of the log."""
    for found in found_in(file, args, options):
        if isinstance(found, Refused):
            count.say(found)
            continue
        line = log_file.of_frame(found.moment, found.receiver, kiss.wrap(found.frame)).write()
        if found.own:
            count.own.append(line)
        else:
            count.taken += 1
            yield line


def run(args: argparse.Namespace) -> int:
    try:
        zones = Zones(args.zone, args.date or "")
    except ValueError as fault:
        raise Fault(f"--zone: {fault}", ExitStatus.ARGUMENTS) from fault
    options = Options(args.name, zones, args.escapes, args.igate, args.stamp, args.start)
    inputs, count = atomic.all_of(args.input), Count()
    for path in atomic.all_of(args.output, args.sent):
        atomic.check(path, inputs)
    if args.output and args.sent and atomic.is_same(args.output, args.sent):
        raise Fault(f"{args.sent} is the log itself: --sent needs another file",
                    ExitStatus.ARGUMENTS)
    with streams.opened(args.input) as file:
        lines = streams.read_of(written(file, args, options, count), streams.name_of(args.input))
        streams.put(args.output, lines, inputs, args.stamp)
    if zones.doubtful:
        stderr.warn(f"times of an hour that comes twice: {len(zones.doubtful)}, as "
                    f"{zones.doubtful[0]}: until times go back they are taken for the first")
    if args.sent:
        atomic.write(args.sent, b"".join(count.own), inputs)
    elif count.own:
        stderr.note(f"frames that the station itself sent, left out: {len(count.own)}")
    elif not count.taken and not count.refused:
        stderr.warn(f"nothing was found that {args.format} has of what was heard")
    return ExitStatus.INPUT if count.untimed else 0
