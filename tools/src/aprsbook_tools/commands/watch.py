"""Tells of a net that runs: silent stations, unanswered messages, emergencies."""
import argparse
import contextlib
import json
import os
import shlex
import subprocess
import time
from typing import Dict, List, Optional, Set, Tuple, Union

from aprsbook_tools import arguments, stderr, stdout
from aprsbook_tools.books import merged_inputs, net_logs
from aprsbook_tools.errors import ExitStatus, Fault, words_of
from aprsbook_tools.reports import alerts, last_heard, receiver_clocks, table
from aprsbook_tools.reports.alerts import Alert
from aprsbook_tools.reports.roster import Roster, roster_of
from aprsbook_tools.reports.table import Message, Row
from aprsbook_tools.system import atomic
from aprsbook_tools.system.clock import CLOCK

PATIENCE = 60  # seconds that the user's command may take
Told = Set[Tuple[str, str]]  # what alerts were about, and since when

DESCRIPTION = """\
Tells, once each, of the logs LOGS/DAY/NAME.log: who of those expected (or of all that were heard)
is silent, which message isn't answered, and who reports an emergency in Mic-E. Where a receiver's
clock differs from those that agree, that is said and allowed for. It is told on standard output, or
to COMMAND: the last of its arguments is what happened in words. The variables APRS_NET_KIND
(silent, unanswered, emergency), APRS_NET_CALL, APRS_NET_SINCE and APRS_NET_WORDS have it too. No
shell reads these words. Where COMMAND fails, it is told again in the next turn."""
EXAMPLES = [
    ("tell on the screen who is silent for 20 minutes, each minute",
     "aprs-net watch --silent 20 --every 60 --roster expected.txt logs"),
    ("tell a program of emergencies",
     "aprs-net watch --emergency --every 30 --run 'notify-send APRS' logs"),
]


def add_arguments(parser: argparse.ArgumentParser) -> None:
    minutes = arguments.duration(1, 100_000, "m")
    parser.add_argument(
        "--silent", type=minutes, metavar="MINUTES", help="tell who is silent so long"
    )
    parser.add_argument(
        "--unanswered",
        type=minutes,
        metavar="MINUTES",
        help="tell of messages that nobody answered for so long",
    )
    parser.add_argument("--emergency", action="store_true", help="tell of emergencies in Mic-E")
    arguments.add_roster(parser)
    parser.add_argument(
        "--run", dest="command", metavar="COMMAND", help="a command and its first arguments"
    )
    arguments.add_every(parser)
    parser.add_argument("--state", metavar="FILE", help="keeps what was told, from run to run")
    parser.add_argument(
        "--moment",
        type=arguments.moment,
        metavar="MOMENT",
        help="ages count to this moment, and not to the clock's",
    )
    net_logs.add_days(parser)
    arguments.add_gap(parser, variable=True)
    parser.add_argument("logs", metavar="LOGS", help="the folder of the logs")


def now_of(args: argparse.Namespace) -> int:
    said: Optional[int] = args.moment
    return said if said is not None else time.time_ns() // 1_000_000


def alerts_of(args: argparse.Namespace) -> List[Alert]:
    """All that is to be told now."""
    roster, now = roster_of(args.roster), now_of(args)
    log = net_logs.gather(args.logs, net_logs.days_of(args)).log
    with merged_inputs.book([], args.gap, log) as book:
        ahead = receiver_clocks.of_book(book, args.gap)
        if not ahead:
            return alerts_in(book, args, roster, now)
    with merged_inputs.book([], args.gap, net_logs.put_right(log, ahead)) as book:
        return alerts_in(book, args, roster, now)


def alerts_in(book: str, args: argparse.Namespace, roster: Roster, now: int) -> List[Alert]:
    """What is to be told of a book whose moments are right."""
    found: List[Alert] = []
    if args.emergency:
        found += alerts.emergencies(table.of(Row, [book], args.gap, names=alerts.COLUMNS), roster)
    if args.unanswered:
        messages = table.of(Message, [book], args.gap)
        found += alerts.unanswered(messages, roster, now, args.unanswered)
    if args.silent:
        stations = last_heard.heard_of(last_heard.tables_of([book], args.gap))
        found += alerts.silent(stations, roster, now, args.silent)
    return found


def tell(alert: Alert, command: Optional[str]) -> bool:
    """Tells of an alert; whether that went well."""
    fault = fault_of_output(alert) if command is None else fault_of_command(alert, command)
    if fault:
        stderr.warn(fault)
    return not fault


def fault_of_output(alert: Alert) -> str:
    """Tells of an alert on standard output; why that can't be, or nothing."""
    try:
        stdout.write(f"{alert.kind}: {alert.words}\n".encode("utf-8", "surrogateescape"))
    except Fault as fault:
        return fault.words
    return ""


def given(text: str) -> Union[str, bytes]:
    """A text as a command is given it: in UTF-8, whatever the locale is."""
    return text if os.name == "nt" else text.encode("utf-8", "surrogateescape").replace(b"\0", b"")


def fault_of_command(alert: Alert, command: str) -> str:
    """Tells a command of an alert; why that can't be, or nothing."""
    said = {
        "APRS_NET_KIND": alert.kind,
        "APRS_NET_CALL": alert.call,
        "APRS_NET_SINCE": alert.since,
        "APRS_NET_WORDS": alert.words,
    }
    environment: Dict[str, Union[str, bytes]] = {**os.environ}
    environment.update((name, given(it)) for name, it in said.items())
    try:
        done = subprocess.run(
            [*shlex.split(command), given(f"{alert.kind}: {alert.words}")],
            env=environment,
            stdin=subprocess.DEVNULL,
            timeout=PATIENCE,
        )
    except subprocess.TimeoutExpired:
        return f"{command}: took longer than {PATIENCE} seconds"
    except OSError as refusal:
        return f"{command}: {refusal.strerror or refusal}"
    return f"{command}: ended with status {done.returncode}" if done.returncode else ""


def is_told(it: object) -> bool:
    """Whether something of a state is what an alert was about, and since when."""
    return isinstance(it, list) and len(it) == 2 and all(isinstance(text, str) for text in it)


def read_state(path: Optional[str]) -> Told:
    """What was told before. What an older version kept, a list of texts, is told again."""
    if path is None or not os.path.exists(path):
        return set()
    told = None
    if os.path.isfile(path):  # who opens a pipe waits for ever
        with contextlib.suppress(ValueError), open(path, encoding="utf-8") as file:
            told = json.load(file)
    if not isinstance(told, list) or not all(isinstance(it, str) or is_told(it) for it in told):
        raise Fault(f"{path} isn't what was told before, and isn't replaced", ExitStatus.ARGUMENTS)
    return {(it[0], it[1]) for it in told if not isinstance(it, str)}


def turn(args: argparse.Namespace, told: Told) -> Tuple[Told, bool]:
    """Tells what is new: what is told now, and whether all could be. What is over and comes again
    is told again."""
    now: Told = set()
    went_well = True
    moments: Dict[str, List[str]] = {}
    for about, since in told:
        moments.setdefault(about, []).append(since)
    for alert in alerts_of(args):
        before = moments.get(alert.about, [])
        if any(map(alert.is_since, before)) or tell(alert, args.command):
            now.add((alert.about, alert.since))
        else:
            went_well = False
    return now, went_well


def turn_of_state(args: argparse.Namespace, told: Told) -> bool:
    """A turn of those runs that share what was told; whether all could be told. `told` is what this
    run told, also where that can't be written."""
    atomic.check(args.state, [args.logs])
    with atomic.locked(args.state):
        now, went_well = turn(args, read_state(args.state) | told)
        told.clear()
        told.update(now)
        atomic.write(args.state, json.dumps(sorted(now), indent=0).encode(), [args.logs])
    return went_well


def check(args: argparse.Namespace) -> None:
    """Refuses options that would never tell anything."""
    if not (args.silent or args.unanswered or args.emergency):
        raise Fault("nothing to tell: --silent, --unanswered or --emergency", ExitStatus.ARGUMENTS)
    if args.command is not None:
        try:
            words = shlex.split(args.command)
        except ValueError as fault:
            raise Fault(f"--run {args.command}: {fault}", ExitStatus.ARGUMENTS) from fault
        if not words:
            raise Fault("--run: no command", ExitStatus.ARGUMENTS)


def run(args: argparse.Namespace) -> int:
    check(args)
    args.gap = arguments.gap_of(args)
    read_state(args.state)  # refuses at once what is none
    told: Told = set()
    if args.every is None:
        went_well = turn_of_state(args, told) if args.state else turn(args, told)[1]
        refused = ExitStatus.OUTPUT if args.command is None else ExitStatus.INPUT
        return ExitStatus.DONE if went_well else refused
    while True:
        try:
            if args.state:
                turn_of_state(args, told)
            else:
                told, _ = turn(args, told)
        except BrokenPipeError:
            raise
        except (Fault, OSError) as fault:  # the next turn may go well
            stderr.say(words_of(fault))
        CLOCK.wait(args.every)
