"""aprs-net push: brings a receiver's logs to a server."""
import argparse

from aprsbook_tools import arguments
from aprsbook_tools.errors import ExitStatus
from aprsbook_tools.serving import push_options


DESCRIPTION = """\
Brings the lines of LOGS/DAY/NAME.log, as `aprs-net log` writes them, to `aprs-net serve`, for days
on end. Without a link they wait in the log. It goes on where the server stands, also after it was
killed, writes no file, and keeps nothing but the logs. What is acknowledged is on the server's
disk. The token isn't sent: marks show that it is here."""


EXAMPLES = [
    ("a site's log, for days on end",
     "aprs-net push --token hill.token https://net.example:8443/ HILL logs"),
    ("what is there, once", "aprs-net push --once http://localhost:8080/ HILL logs"),
]


def seconds(text: str) -> float:
    try:
        if 0.05 <= float(text) <= 86_400:
            return float(text)
    except ValueError:
        pass
    raise argparse.ArgumentTypeError("no number of seconds from 0.05 to 86400")


def add_arguments(parser: argparse.ArgumentParser) -> None:
    push_options.add_server(parser)
    parser.add_argument("--each", type=seconds, default=push_options.EACH, metavar="SECONDS",
                        help=f"how often it looks for new lines ({push_options.EACH})")
    parser.add_argument("--days", type=arguments.whole_number(1, 400), default=push_options.DAYS,
                        metavar="N",
                        help=f"the logs of the last N days that there are ({push_options.DAYS})")
    parser.add_argument("--once", action="store_true",
                        help="end once all are there, with status 1 where lines weren't taken")
    parser.add_argument("url", metavar="URL", help="such as https://net.example:8443/")
    parser.add_argument("name", type=arguments.receiver, metavar="NAME", help="the receiver's name")
    parser.add_argument("logs", metavar="LOGS", help="the folder of the logs")


def run(args: argparse.Namespace) -> int:
    from aprsbook_tools.serving import pushing
    pusher = push_options.pusher_of(args, args.url, args.logs, args.days)
    if args.once:
        pushing.push_once(pusher)
        more = f"; not taken: {pusher.left_out}" if pusher.left_out else ""
        push_options.say(f"lines pushed: {pusher.added}; there before: {pusher.known}{more}")
        return ExitStatus.INPUT if pusher.left_out else ExitStatus.DONE
    pushing.push_on(pusher, args.each, push_options.say)
    return ExitStatus.DONE
