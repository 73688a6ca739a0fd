"""aprs-net serve: a net that runs, for all its sites and desks."""
import argparse
import asyncio
import os
import re
import webbrowser
from typing import TYPE_CHECKING, Callable, List, Tuple

from aprsbook_tools import arguments, stderr
from aprsbook_tools.books import net_logs
from aprsbook_tools.errors import ExitStatus, Fault
from aprsbook_tools.frame_sources import serial, tcp
from aprsbook_tools.reports.roster import read_roster
from aprsbook_tools.system import programs, user_text

if TYPE_CHECKING:
    from aprsbook_tools.serving.loggers import Logger
    from aprsbook_tools.serving.net import Settings

DESCRIPTION = """\
Hands out a page that follows the logs below LOGS, and tells each page at once what is new in them,
whoever wrote it. It logs the TNCs that are named, takes the lines that `aprs-net push` brings from
other sites, and keeps what desks write down for one another. What it acknowledges is on the disk.

Without --tokens it listens to this machine alone, and anybody there may do all. For others it needs
--tokens, whose file `aprs-net token` makes, and --tls. With --plain nothing is encrypted, as where
a band forbids it: everybody can read what is sent, also a desk's token. That of a site isn't sent.
"""

Named = Tuple[str, str]  # what is before the last =, and a receiver's name


def named(text: str) -> Named:
    found = re.fullmatch(r"(.+)=([^=]+)", text)
    if not found:
        raise argparse.ArgumentTypeError(f"{text!r} has no =NAME")
    return found[1], arguments.receiver(found[2])


def tnc(text: str) -> Tuple[tcp.Place, str]:
    where, name = named(text)
    return place(where), name


def place(text: str) -> tcp.Place:
    try:
        return tcp.place(text, 8080)
    except ValueError as fault:
        raise argparse.ArgumentTypeError(str(fault))


EXAMPLES = [
    ("one machine with its TNC, and its page in the browser",
     "aprs-net serve --tnc localhost:8001=RX1 --open logs"),
    ("a base to which sites push, and its desks",
     "aprs-net serve --listen 0.0.0.0:8443 --tokens FILE --tls FILE FILE logs"),
]


def add_arguments(parser: argparse.ArgumentParser) -> None:
    add_sources(parser)
    add_access(parser)
    add_page(parser)
    add_bounds(parser)
    parser.add_argument("logs", metavar="LOGS", help="the folder of the logs")


def add_sources(parser: argparse.ArgumentParser) -> None:
    parser.add_argument("--tnc", action="append", type=tnc, default=[], dest="tncs",
                        metavar="HOST:PORT=NAME", help="a KISS TNC over TCP that is logged here")
    parser.add_argument("--serial", action="append", type=named, default=[], dest="serials",
                        metavar="DEVICE=NAME", help="a TNC in KISS mode at a serial port")
    parser.add_argument("--baud", type=int, choices=serial.speeds(), default=9600,
                        metavar="BAUD", help="the serial ports' speed (9600)")


def add_access(parser: argparse.ArgumentParser) -> None:
    parser.add_argument("--listen", type=place, default=tcp.Place("127.0.0.1", 8080),
                        metavar="HOST:PORT", help="where it listens (127.0.0.1:8080)")
    parser.add_argument("--host", action="append", default=[], dest="hosts", metavar="NAME",
                        help="one more name by which it is asked")
    parser.add_argument("--tokens", metavar="FILE", help="who may do what")
    parser.add_argument("--tls", nargs=2, metavar=("CERTIFICATE", "KEY"),
                        help="files in PEM, by which all is encrypted")
    parser.add_argument("--plain", action="store_true", help="encrypt nothing")
    parser.add_argument("--behind-proxy", action="store_true",
                        help="a web server of this machine is before it, as nginx, and encrypts")


def add_page(parser: argparse.ArgumentParser) -> None:
    arguments.add_title(parser, "the net's title")
    arguments.add_roster(parser)
    parser.add_argument("--course", action="append", default=[], metavar="FILE", dest="courses",
                        help="GPX, KML or GeoJSON, drawn below all else")
    parser.add_argument("--tiles", action="append", default=[], metavar="FILE",
                        help="a map of tiles, .pmtiles or .mbtiles: pages draw the first, or the "
                        "one that a desk sets")
    parser.add_argument("--silent", type=arguments.duration(0, 1_000_000, "m"), default=30,
                        metavar="MINUTES",
                        help="a station that wasn't heard for so long is marked (30)")
    parser.add_argument("--open", action="store_true", help="open the page in a browser")
    parser.add_argument("--page", metavar="FILE", help="aprsbook.html, where it lies elsewhere")
    net_logs.add_days(parser)


def add_bounds(parser: argparse.ArgumentParser) -> None:
    parser.add_argument("--connections", type=arguments.whole_number(1, 60_000), default=500,
                        metavar="N", help="so many at most (500)")
    parser.add_argument("--each", type=arguments.whole_number(1, 60_000), default=200,
                        metavar="N", help="so many of one address (200)")
    parser.add_argument("--each-token", type=arguments.whole_number(1, 60_000), default=16,
                        metavar="N", help="so many of who show one token (16)")
    parser.add_argument("--quota", type=arguments.whole_number(1, 1024), default=256, metavar="MB",
                        help="so large a log of a day, or a journal, may become by pushing (256)")


def say(text: str) -> None:
    stderr.say_at_once(f"aprs-net serve: {text}")


def run(args: argparse.Namespace) -> int:
    try:
        import tornado
    except ImportError:
        raise Fault("Tornado isn't there: apt install python3-tornado",
                    ExitStatus.MISSING)
    assert tornado
    from aprsbook_tools.serving import server
    server.check(args.listen, args.tls, args.tokens, args.plain, args.behind_proxy)
    programs.find("aprsbook")  # which judges lines
    programs.open_many_files()
    os.makedirs(args.logs, exist_ok=True)
    asyncio.run(serve(args))
    return 0


def begin_loggers(args: argparse.Namespace, on_write: Callable[[str], object]) -> "List[Logger]":
    from aprsbook_tools.serving.loggers import Logger
    tncs = [(tcp.Tcp(to, tcp.IDLE), name) for to, name in args.tncs]
    serials = [(serial.Serial(to, args.baud), name) for to, name in args.serials]
    return [Logger(source, name, args.logs, on_write, say).begin()
            for source, name in [*tncs, *serials]]


async def serve(args: argparse.Namespace) -> None:
    from aprsbook_tools.page import reader_page
    from aprsbook_tools.serving import server
    from aprsbook_tools.serving.application import application
    from aprsbook_tools.serving.hub import Hub
    from aprsbook_tools.serving.net import Net
    from aprsbook_tools.serving.store import Store
    from aprsbook_tools.serving.tokens import Tokens
    loop = asyncio.get_running_loop()
    tls, tokens = server.context_of(args.tls), Tokens(args.tokens, say)
    settings, page = settings_of(args), reader_page.read(args.page)
    hub = Hub(args.logs, net_logs.days_of(args) if args.days else None)
    store = Store(args.logs, args.quota << 20, say, hub.look_at)
    net = Net(store, hub, tokens, page, settings, args.connections, say)
    net.is_secure = tls is not None or args.behind_proxy
    bounds = server.Bounds(args.connections, args.each, args.each_token)
    its = server.server_of(application(net), tls, bounds, args.behind_proxy)
    net.know = its.know
    port = server.listen(its, args.listen)
    net.hosts = server.hosts_of(args.listen, port, args.hosts, net.is_secure)
    if args.behind_proxy:
        net.hosts += [it.lower() for it in args.hosts]
    hub.look()
    loggers = begin_loggers(args, lambda path: loop.call_soon_threadsafe(hub.look_at, path))
    looking = asyncio.ensure_future(hub.run(net.hear_of_day, say))
    where = args.hosts[0] if args.behind_proxy and args.hosts else net.hosts[0]
    address = f"{'https' if net.is_secure else 'http'}://{where}/"
    say_where(args, address)
    await server.until_signal()
    looking.cancel()
    its.stop()
    hub.end()
    await asyncio.sleep(0.1)  # so that listeners end well
    await its.close_all_connections()
    for it in loggers:
        await loop.run_in_executor(None, it.end)
    await loop.run_in_executor(None, store.end)


def settings_of(args: argparse.Namespace) -> "Settings":
    """What the command is told of the net, until a desk sets something else."""
    from aprsbook_tools.page import event_page
    from aprsbook_tools.serving.net import Settings
    from aprsbook_tools.serving.tile_archives import archives_of
    return Settings(args.title, args.silent, roster_of(args),
                    [event_page.read_map(it) for it in args.courses], archives_of(args.tiles))


def roster_of(args: argparse.Namespace) -> str:
    if not args.roster:
        return ""
    text = user_text.read(args.roster)
    for it in read_roster(text).words_of_faults():
        say(f"{args.roster}: {it}")
    return text


def say_where(args: argparse.Namespace, address: str) -> None:
    """Says where the page is, and opens it where that is wanted."""
    more: List[str] = []
    if not args.tokens:
        more.append("anybody of this machine may do all")
    if args.plain:
        more.append("nothing is encrypted: everybody can read what is sent, also desks' tokens")
    say("; ".join([f"the page is at {address}", *more]))
    if args.open:
        webbrowser.open(address)
