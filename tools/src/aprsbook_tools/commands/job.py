"""aprs-net job: does a job of a book that is made by many machines."""
import argparse

from aprsbook_tools.books import jobs
from aprsbook_tools.books.chunks import FaultyLog
from aprsbook_tools.errors import ExitStatus, Fault

DESCRIPTION = """\
Workers of aprs-net cluster run this: it makes a file of others, as JOB says, unless that is there
whole. The status is 1 where a log is faulty, and 3 where another worker may have more luck."""


EXAMPLES = [
    ("do a job again, by hand", "aprs-net job work/000001.job"),
]


def add_arguments(parser: argparse.ArgumentParser) -> None:
    parser.add_argument("job", metavar="JOB", help="a file that aprs-net cluster wrote")


def run(args: argparse.Namespace) -> int:
    try:
        jobs.do(jobs.read(args.job), kept=True)
    except (FaultyLog, MemoryError):
        raise
    except Fault as fault:
        if fault.status == ExitStatus.INPUT:
            fault.status = ExitStatus.OUTPUT
        raise
    except Exception as fault:  # of this machine, and of no log
        raise Fault(f"{type(fault).__name__}: {fault}", ExitStatus.OUTPUT) from fault
    return 0
