"""Arguments that more than one command has."""
from __future__ import annotations

import argparse
import os
import re
import time

from aprsbook_tools import TYPE_CHECKING
from aprsbook_tools.errors import ExitStatus, Fault
from aprsbook_tools.formats import forms, limits, moments
from aprsbook_tools.formats.forms import form

if TYPE_CHECKING:
    from typing import Callable, Optional, Sequence

SECONDS = {"s": 1, "m": 60, "h": 3600, "d": 86_400}
DURATION = form(r"([0-9]{1,9})([smhd]?)", re.ASCII)
CLOCK = form(r"\d\d:\d\d(:\d\d)?Z?", re.ASCII)
BEGIN = form(
    r"(\d{4}-\d\d-\d\d(?:T\d\d(?::\d\d(?::\d\d(?:\.\d{3})?)?)?)?)(Z|[+-]\d\d:\d\d)?", re.ASCII)
WHOLE = "0000-01-01T00:00:00.000Z"  # what completes the beginning of a moment
NO_MOMENT = ("is no moment in UTC, such as 2024-06-21T18:00, or with an offset such as +02:00, "
             "18:00 of today, or -2h")


def whole_number(least: int, most: int) -> Callable[[str], int]:
    """What reads a whole number from `least` to `most`."""
    def read(text: str) -> int:
        if not re.fullmatch(r"[+-]?[0-9]{1,12}", text) or not least <= int(text) <= most:
            raise argparse.ArgumentTypeError(f"not a whole number from {least} to {most}")
        return int(text)
    return read


def duration(least: int, most: int, unit: str) -> Callable[[str], int]:
    """What reads a time from `least` to `most` units, s, m, h or d; another one may stand behind
    it, as 90s, 30m, 2h or 1d."""
    def read(text: str) -> int:
        found = DURATION.fullmatch(text)
        seconds = int(found[1]) * SECONDS[found[2] or unit] if found else -1
        count, rest = divmod(seconds, SECONDS[unit])
        if not found or rest or not least <= count <= most:
            raise argparse.ArgumentTypeError(f"not from {least}{unit} to {most}{unit}")
        return count
    return read


def today() -> str:
    import datetime  # for a clock's time alone

    return f"{datetime.datetime.now(datetime.timezone.utc):%Y-%m-%d}"


def moment(text: str) -> int:
    """A moment in milliseconds: its beginning in UTC or with an offset, as 2024-06-21T18:00, a
    clock of today, as 18:00, or before now, as -2h."""
    ago = DURATION.fullmatch(text[1:]) if text.startswith("-") else None
    if ago:
        now = time.time_ns() // 1_000_000
        return max(0, now - 1000 * int(ago[1]) * SECONDS[ago[2] or "s"])
    try:
        return beginning(f"{today()}T{text}" if CLOCK.fullmatch(text) else text)
    except ValueError:
        raise argparse.ArgumentTypeError(f"{text!r} {NO_MOMENT}") from None


def beginning(text: str) -> int:
    """The first millisecond of a day, an hour, a minute or a second; ValueError of others."""
    found = BEGIN.fullmatch(text)
    if not found:
        raise ValueError(text)
    result = moments.milliseconds(found[1] + WHOLE[len(found[1]):])
    if found[2] in (None, "Z"):
        return result
    hours, minutes = int(found[2][1:3]), int(found[2][4:])
    if hours > 14 or minutes > 59:
        raise ValueError(text)
    result -= (1 if found[2][0] == "+" else -1) * (60 * hours + minutes) * 60_000
    if not 0 <= result < moments.END:
        raise ValueError(text)
    return result


def receiver(text: str) -> str:
    """The name of a receiver."""
    if not re.fullmatch(forms.RECEIVER, text):
        hint = "; where a TNC is stands behind --connect or --serial" if re.search("[:/]", text) \
            else ""
        raise argparse.ArgumentTypeError(f"not 1 to 16 letters, digits, - and _{hint}")
    return text


def typed(text: str) -> str:
    """A text that was typed in UTF-8, also where the locale has no such characters."""
    try:
        text.encode()
    except UnicodeEncodeError:
        return os.fsencode(text).decode("utf-8", "surrogateescape")
    return text


def add_title(parser: argparse.ArgumentParser, words: str) -> None:
    """--title TITLE, in `title`."""
    parser.add_argument("--title", default="APRS net", type=typed, help=words)


seconds_of_gap = duration(1, limits.GREATEST_GAP, "s")


def add_gap(parser: argparse.ArgumentParser, variable: bool = False) -> None:
    """--gap SECONDS, in `gap`; None where it isn't given: then the programs take theirs, 30."""
    more = "; also as the variable APRS_NET_GAP" if variable else ""
    parser.add_argument("--gap", type=seconds_of_gap, metavar="SECONDS",
                        help=f"between copies of a transmission lie at most so many (30){more}")


def gap_of(args: argparse.Namespace) -> Optional[int]:
    """The gap that is asked for, also by the variable APRS_NET_GAP."""
    said = os.environ.get("APRS_NET_GAP")
    gap: Optional[int] = args.gap
    if gap is not None or not said:
        return gap
    try:
        return seconds_of_gap(said)
    except argparse.ArgumentTypeError as fault:
        raise Fault(f"APRS_NET_GAP: {fault}", ExitStatus.ARGUMENTS) from fault


def add_range(parser: argparse.ArgumentParser, of: str = "what was first heard") -> None:
    """--from and --to MOMENT, in `since` and `until`."""
    parser.add_argument("--from", dest="since", type=moment, metavar="MOMENT",
                        help=f"{of} from this moment on, such as 2024-06-21T18:00, 18:00 of today, "
                        "or -2h (UTC)")
    parser.add_argument("--to", dest="until", type=moment, metavar="MOMENT",
                        help=f"{of} before this moment")


def check_range(args: argparse.Namespace) -> None:
    """Refuses a time that ends before it begins."""
    if args.since is not None and args.until is not None and args.since >= args.until:
        raise Fault("--from isn't before --to", ExitStatus.ARGUMENTS)


def is_within(args: argparse.Namespace, at: int) -> bool:
    """Whether a moment is of the time that is asked for."""
    return (args.since is None or at >= args.since) and (args.until is None or at < args.until)


def add_roster(parser: argparse.ArgumentParser, required: bool = False) -> None:
    """--roster FILE, in `roster`."""
    parser.add_argument("--roster", metavar="FILE", required=required,
                        help="who is expected: calls, or calls with -* for any SSID, and names")


def add_inputs(parser: argparse.ArgumentParser, words: str = "a log, a book or a folder") -> None:
    """INPUT.., in `inputs`; standard input where there are none."""
    parser.add_argument("inputs", nargs="*", metavar="INPUT",
                        help=f"{words}; - is standard input, which is read without one")


def add_log(parser: argparse.ArgumentParser, name: str = "LOG") -> None:
    """One input, in the name's small letters; None for standard input."""
    parser.add_argument(name.lower(), nargs="?", metavar=name, help="or else standard input",
                        type=one_input)


def one_input(text: str) -> Optional[str]:
    return None if text == "-" else text


def add_output(parser: argparse.ArgumentParser) -> None:
    """-o FILE, in `output`; standard output where it isn't given."""
    parser.add_argument("-o", "--output", metavar="FILE",
                        help="write there, whole or not at all; otherwise to standard output")


def add_every(parser: argparse.ArgumentParser) -> None:
    """--every SECONDS, in `every`."""
    parser.add_argument("--every", type=duration(1, 86_400, "s"), metavar="SECONDS",
                        help="again and again, with so many seconds between; otherwise once")


def add_chunks(parser: argparse.ArgumentParser, megabytes: int) -> None:
    """How a book is made of chunks of logs: --piece, --fan and --parts."""
    parser.add_argument("--piece", type=whole_number(1, 1000), default=megabytes, metavar="MB",
                        help=f"merge so many megabytes of logs at once ({megabytes})")
    parser.add_argument("--fan", type=whole_number(2, 1000), default=64, metavar="N",
                        help="fold at most so many books at once (64)")
    parser.add_argument("--parts", type=whole_number(1, 9999), default=0, metavar="N",
                        help="make a folder of about so many parts, by stations")


def is_standard_input(paths: Sequence[str]) -> bool:
    """Whether standard input is what is read, and nothing else."""
    return list(paths) in ([], ["-"])
