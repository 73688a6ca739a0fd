"""aprs-net log: a log of a receiver, for days on end."""
import argparse
import contextlib
import errno
import os
import re
import tempfile
from typing import Callable, Iterator, Optional, Tuple

from aprsbook_tools import arguments, stderr
from aprsbook_tools.errors import ExitStatus, Fault, said
from aprsbook_tools.formats import ax25, kiss, log_file
from aprsbook_tools.formats.log_file import Logs
from aprsbook_tools.frame_sources import serial, source, tcp
from aprsbook_tools.frame_sources.aprs_is import AprsIs
from aprsbook_tools.frame_sources.stamping import Clock
from aprsbook_tools.frame_sources.stdin import StandardInput
from aprsbook_tools.frame_sources.writer import Writer
from aprsbook_tools.imports import feed
from aprsbook_tools.serving import push_options

DESCRIPTION = """\
Reads a KISS stream, over TCP, of a serial port or from standard input, or a feed of APRS-IS, and
writes FOLDER/DAY/NAME.log: a line for each frame, stamped with the moment at which it ended, in
milliseconds of UTC.

A line is written at once, and is on the disk after 5 seconds (--sync): a power failure takes no
more. A torn one, which a crash left, is taken off the log before the next; a link, and a file that
is no log, isn't touched. While a log can't be written, as on a full disk, the last 10,000 frames
are held, and written once there is room; the status is 1 where any was lost. What ended is opened
again, also a serial port that was unplugged. All this, and a clock that was set, is said.

Of APRS-IS nothing is taken but what a gate heard on the air: the receivers' names are the gates',
all in the log of NAME. Nothing is sent but the login."""


def call(text: str) -> str:
    found = ax25.spelled(text)
    if found is None:
        raise argparse.ArgumentTypeError("no call, such as Q0CALL-7")
    return found


def place(text: str, port: Optional[int] = None) -> tcp.Place:
    try:
        return tcp.place(text, port)
    except ValueError as fault:
        raise argparse.ArgumentTypeError(str(fault))


def server(text: str) -> tcp.Place:
    """A server of APRS-IS, whose port may be left out."""
    return place(text, 14580)


def seconds(text: str) -> float:
    """Seconds, which may be a part of one, or a time such as 15m."""
    with contextlib.suppress(ValueError):
        if 0 < float(text) < 1e6:
            return float(text)
    return arguments.duration(1, 1_000_000, "s")(text)


def sync_seconds(text: str) -> float:
    return 0.0 if re.fullmatch("0+", text) else seconds(text)


EXAMPLES = [
    ("a log of Dire Wolf, which listens at port 8001",
     "aprs-net log --connect localhost:8001 RX1 logs"),
    ("of a TNC at a serial port", "aprs-net log --serial /dev/ttyUSB0 --baud 9600 RX2 logs"),
    ("of what gates heard around a place, from APRS-IS",
     "aprs-net log --aprs-is HOST --call Q0CALL --filter r/54.5/-3.5/50 FEED logs"),
]


def add_arguments(parser: argparse.ArgumentParser) -> None:
    where = parser.add_mutually_exclusive_group()
    where.add_argument("--connect", type=place, metavar="HOST:PORT", help="a KISS TNC over TCP")
    where.add_argument("--serial", metavar="DEVICE", help="a TNC in KISS mode, as /dev/ttyUSB0")
    where.add_argument("--aprs-is", type=server, metavar="HOST",
                       help="a server of APRS-IS; HOST:PORT for another port than 14580")
    parser.add_argument("--baud", type=int, choices=serial.speeds(), default=9600,
                        metavar="BAUD", help="the serial port's speed (9600)")
    parser.add_argument("--filter", default="", metavar="FILTER",
                        help="what APRS-IS is asked for, such as r/54.5/-3.5/50")
    parser.add_argument("--call", type=call, metavar="CALL", help="the call of the login")
    parser.add_argument("--idle", type=seconds, metavar="SECONDS",
                        help="connect again where nothing came for so long: the other end may be "
                        "gone without a word (900; of APRS-IS 90)")
    parser.add_argument("--ports", action="store_true",
                        help="the TNC has several radios: that of port 1 is NAME-1, and so on")
    parser.add_argument("--own", action="append", type=call, default=[], metavar="CALL",
                        help="a station of one's own: what it sent, as the TNC tells it, is kept "
                        "apart, in NAME.own")
    parser.add_argument("--sync", type=sync_seconds, default=log_file.SYNC, metavar="SECONDS",
                        help="what was written is on the disk after so long (5); 0: each frame at "
                        "once, which wears an SD card")
    parser.add_argument("--push", metavar="URL",
                        help="also bring the lines to a server, as `aprs-net push` does")
    push_options.add_server(parser)
    parser.add_argument("name", type=arguments.receiver, metavar="NAME", help="the receiver's name")
    parser.add_argument("folder", metavar="FOLDER")


def say(text: str) -> None:
    stderr.say_at_once(f"aprs-net: {text}")


def refusal(args: argparse.Namespace) -> Optional[str]:
    """Why the arguments can't be, in words."""
    if args.ports and len(args.name) > 13:
        return "with --ports, NAME has at most 13 letters"
    if args.aprs_is and not args.call:
        return "--aprs-is needs --call CALL, for its login"
    if args.filter and not args.aprs_is:
        return "--filter is for --aprs-is"
    if not re.fullmatch("[ -~]*", args.filter):
        return "--filter is one line of ASCII"
    try:
        os.makedirs(args.folder, exist_ok=True)
        with tempfile.TemporaryFile(dir=args.folder):
            pass
    except OSError as fault:
        # a full disk may get room: until then frames are held
        if fault.errno not in (errno.ENOSPC, errno.EDQUOT):
            return f"{args.folder} is no folder to write to: {fault.strerror}"
    return None


def source_of(args: argparse.Namespace) -> source.Source:
    if args.connect:
        return tcp.Tcp(args.connect, args.idle or tcp.IDLE)
    if args.serial:
        return serial.Serial(args.serial, args.baud)
    if args.aprs_is:
        return AprsIs(args.aprs_is, args.call, args.filter, args.idle or 90)
    return StandardInput()


# what a piece of input has: receivers and frames that stand between two FEND
Cut = Callable[[bytes], Iterator[Tuple[str, bytes]]]


def cutting(args: argparse.Namespace) -> Tuple[Cut, Callable[[], None]]:
    """What cuts the input into frames, and what begins anew."""
    if args.aprs_is:
        lines = feed.Lines(say)
        return lines.feed, lines.restart
    framer = kiss.Framer(say)

    def cut(octets: bytes) -> Iterator[Tuple[str, bytes]]:
        for framed in framer.feed(octets):
            port = kiss.port_of(framed)
            yield f"{args.name}-{port}" if args.ports and port else args.name, framed
    return cut, framer.restart


def push_beside(args: argparse.Namespace) -> None:
    """Brings the lines to a server as they are written."""
    from aprsbook_tools.serving import pushing
    pusher = push_options.pusher_of(args, args.push, args.folder, push_options.DAYS)
    pushing.push_beside(pusher, push_options.EACH, push_options.say)


def run(args: argparse.Namespace) -> int:
    words = refusal(args)
    if words:
        raise Fault(words, ExitStatus.ARGUMENTS)
    logs, clock = Logs(args.folder, say, args.sync), Clock(say)
    writer = Writer(logs, say)
    cut, restart = cutting(args)
    if args.push:
        push_beside(args)

    def take(octets: bytes) -> None:
        for receiver, framed in cut(octets):
            for moment, name, frame in clock.stamp(receiver, framed):
                own = ax25.direct_source(kiss.unwrap(frame[1:-1])) in args.own
                line = log_file.of_frame(moment, name, frame)
                writer.put(args.name if args.aprs_is else name, line, "own" if own else "log")

    waiting = source.Waiting()
    waiting.heed()
    writer.start()
    try:
        well, why = source.listen(source_of(args), waiting, take, restart, say)
    except OSError as fault:
        well, why = False, said(fault)
    if not well:
        say(why)
    writer.lost += clock.lost + len(clock.waiting)
    status = writer.end(waiting)
    return status if well else ExitStatus.INPUT
