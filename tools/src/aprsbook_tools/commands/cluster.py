"""aprs-net cluster: the book of logs and books, made by the workers of a Dask cluster."""
import argparse
import os

from aprsbook_tools import arguments, stderr
from aprsbook_tools.books import book, cluster, inputs
from aprsbook_tools.books.chunks import MEGABYTE
from aprsbook_tools.errors import Fault

DESCRIPTION = """\
BOOK becomes the book of itself and of logs and books, as with aprs-net book, and the workers of a
Dask cluster do the work. ADDRESS is its scheduler's, as tcp://10.0.0.1:8786, or tls:// as Dask's
configuration says. Whoever reaches a scheduler's port can run anything on all workers: let it
listen on 127.0.0.1, behind a tunnel, or with TLS.

The work folder has one path on all machines, as the logs do. Workers have aprs-net,
aprsbook and aprsbook-fold of one version in their PATH. A job is done again by another worker where
one is killed, frozen or full, and a run that was cut goes on where it was. Take WORK away when BOOK
is there. The status is 1 where a log is faulty, and 3 or 6 where another run may go on."""


EXAMPLES = [
    ("a book by the workers of a cluster",
     "aprs-net cluster --scheduler tcp://10.0.0.1:8786 --work work net.book logs"),
]


def add_arguments(parser: argparse.ArgumentParser) -> None:
    parser.add_argument("--scheduler", metavar="ADDRESS", required=True,
                        help="where the cluster's scheduler listens")
    parser.add_argument("--work", metavar="FOLDER", required=True,
                        help="a folder that all machines have under one path")
    arguments.add_gap(parser)
    arguments.add_chunks(parser, 256)
    parser.add_argument("--patience", type=arguments.duration(1, 86_400, "s"), default=60,
                        metavar="SECONDS", help="give a job to another worker after so long (60), "
                        "and longer for a large one")
    parser.add_argument("book", metavar="BOOK")
    parser.add_argument("inputs", nargs="+", metavar="INPUT", help="a log, a book or a folder")


def say(text: str) -> None:
    stderr.warn(text)


def run(args: argparse.Namespace) -> int:
    names = {os.path.abspath(it): it for it in args.inputs}
    engine = cluster.Cluster(args.scheduler, args.patience, say)
    wish = book.Wish(args.gap, engine, piece=args.piece * MEGABYTE, most=args.fan, work=args.work,
                     noted=False)
    items = inputs.of(names)
    if not items:
        raise Fault(f"no logs and no books are in {' '.join(args.inputs)}")
    try:
        if args.parts:
            book.make_parts(args.book, items, args.parts, wish, say)
        else:
            book.make(args.book, items, wish, say)
    except Fault as fault:
        # as they were typed
        for path, name in names.items():
            if fault.words.startswith((f"{path}:", os.path.join(path, ""))):
                fault.words = name + fault.words[len(path):]
                break
        raise
    return 0
