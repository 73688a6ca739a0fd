"""Where a receiver's logs are pushed, as `aprs-net push` and `aprs-net log --push` are told it."""
import argparse
import os
from typing import TYPE_CHECKING

from aprsbook_tools import stderr
from aprsbook_tools.system import user_text

if TYPE_CHECKING:
    from aprsbook_tools.serving import pushing

EACH = 0.2  # seconds from one look for new lines to the next
DAYS = 7  # the logs of so many days are looked at


def add_server(parser: argparse.ArgumentParser) -> None:
    """--token FILE and --ca FILE, in `token` and `ca`."""
    parser.add_argument("--token", metavar="FILE", help="a file with the receiver's token; "
                        "without it, the variable APRS_NET_TOKEN")
    parser.add_argument("--ca", metavar="FILE", help="the certificate that the server has, in PEM")


def say(text: str) -> None:
    stderr.say_at_once(f"aprs-net push: {text}")


def token_of(args: argparse.Namespace) -> str:
    """The token of a file, or of the variable APRS_NET_TOKEN; none where neither is there. A line
    as that of the server's file is read by its last word."""
    text = user_text.read(args.token) if args.token else \
        os.environ.get("APRS_NET_TOKEN", "")
    return (text.split() or [""])[-1]


def pusher_of(args: argparse.Namespace, url: str, logs: str, days: int
              ) -> "pushing.Pusher":
    from aprsbook_tools.serving import pushing
    server = pushing.Server(url, token_of(args), args.ca)
    return pushing.Pusher(server, args.name, logs, days, say)
