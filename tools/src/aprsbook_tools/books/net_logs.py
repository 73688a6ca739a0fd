"""The logs of a net that runs: whole lines alone, and what was left out in words."""
import argparse
import contextlib
import datetime
import io
import os
import re
from dataclasses import dataclass, field
from typing import Iterator, List, Mapping, Sequence, Tuple

from aprsbook_tools.books import inputs
from aprsbook_tools.errors import ExitStatus, Fault
from aprsbook_tools.formats import log_file
from aprsbook_tools.system import packing

DAY = datetime.timedelta(days=1)


@dataclass
class Gathered:
    """The whole lines of logs as one log, and what was left out of each."""

    log: bytes = b""
    paths: List[str] = field(default_factory=list)
    notes: List[str] = field(default_factory=list)
    is_faulty: bool = False  # whether a log couldn't be read to its end


def today() -> str:
    return f"{datetime.datetime.now(datetime.timezone.utc):%Y-%m-%d}"


def last_days() -> List[str]:
    """Yesterday and today, in UTC."""
    now = datetime.datetime.now(datetime.timezone.utc)
    return [f"{now - DAY:%Y-%m-%d}", f"{now:%Y-%m-%d}"]


def day_of(text: str) -> str:
    if not re.fullmatch(r"\d{4}-\d\d-\d\d", text, re.ASCII):
        raise argparse.ArgumentTypeError(f"{text!r} is no day, such as 2024-06-21")
    return text


def add_days(parser: argparse.ArgumentParser) -> None:
    """--day DAY.., in `days`."""
    parser.add_argument(
        "--day",
        dest="days",
        action="append",
        type=day_of,
        metavar="DAY",
        help="the logs of this day, such as 2024-06-21, in place of today's and "
        "yesterday's; also as the variable APRS_NET_DAYS",
    )


def days_of(args: argparse.Namespace) -> List[str]:
    """The days that are asked for, or yesterday and today."""
    said = os.environ.get("APRS_NET_DAYS", "").split()
    try:
        return args.days or [day_of(it) for it in said] or last_days()
    except argparse.ArgumentTypeError as fault:
        raise Fault(f"APRS_NET_DAYS: {fault}", ExitStatus.ARGUMENTS) from fault


def folders_of(folder: str, days: Sequence[str]) -> Iterator[Tuple[str, str]]:
    """These days' folders at any depth below a folder, as of other machines whose logs came here;
    within other days' folders nobody looks."""
    for at, folders, files in inputs.walk(folder):
        day = os.path.basename(at)
        if day in days and at != folder:
            inputs.say_what_is_misnamed(at, files)
            yield day, at
        folders[:] = [it for it in folders if it in days or not inputs.DAY.fullmatch(it)]


def logs_of(folder: str, days: Sequence[str]) -> List[Tuple[str, str]]:
    """The day and the path of each log, FOLDER/DAY/NAME.log or FOLDER/HOST/DAY/NAME.log, also a
    compressed one."""
    if not os.path.isdir(folder):
        return []
    found = []
    for day, at in sorted(folders_of(folder, days), key=lambda it: (days.index(it[0]), it[1])):
        for name in sorted(os.listdir(at)):
            path = os.path.join(at, name)
            if inputs.is_input(path) and not inputs.look_at(path).is_book:
                found.append((day, path))
    return found


def octets_of(path: str) -> Tuple[bytes, str]:
    """What a log has, unpacked, and why that isn't all of it."""
    parts: List[bytes] = []
    why = ""
    if os.path.exists(path) and not inputs.is_file(path):
        return b"", "can't be read to its end (no file)"
    try:
        with inputs.opened(path) as file:
            while not parts or parts[-1]:
                parts.append(file.read(log_file.BLOCK))
    except packing.faults(OSError) as fault:
        words = isinstance(fault, OSError) and fault.strerror or fault
        why = f"can't be read to its end ({words})"
    return b"".join(parts), why


def whole_lines(octets: bytes) -> Tuple[bytes, int, bool]:
    """The lines of a log that are whole, how many others end in a line feed, and whether one is
    left without an end."""
    kept = inputs.whole_lines(octets)
    is_unended = bool(octets) and not octets.endswith(b"\n")
    return b"".join(kept), octets.count(b"\n") - len(kept), is_unended


def put_right(log: bytes, ahead: Mapping[str, float]) -> bytes:
    """A log whose lines are whole, with the moments of receivers whose clocks are so many seconds
    ahead put right, to the second."""
    def lines() -> Iterator[bytes]:
        for line in io.BytesIO(log):
            read = log_file.read_whole(line)
            if read is not None and read.receiver in ahead:
                with contextlib.suppress(ValueError):  # before 1970 or after 2099
                    line = log_file.moved(line, read, -round(ahead[read.receiver]))
            yield line
    return b"".join(lines())


def gather(folder: str, days: List[str]) -> Gathered:
    """The whole lines of the logs of these days. A last line without an end is being written today,
    and was torn on another day."""
    if os.path.exists(folder) and not os.path.isdir(folder):
        raise Fault(f"{folder} is no folder: give that of the logs, which has one for each day",
                    ExitStatus.ARGUMENTS)
    found = logs_of(folder, days)
    result, parts, now = Gathered(), [], today()
    for day, path in found:
        octets, fault = octets_of(path)
        lines, torn, unended = whole_lines(octets)
        torn += unended and day != now
        words = [fault] if fault else []
        if torn:
            words.append(f"lines left out: {torn}")
        if words:
            result.notes.append(f"{path}: {'; '.join(words)}")
        result.is_faulty = result.is_faulty or bool(fault)
        if octets or not fault:
            result.paths.append(path)
        parts.append(lines)
    if not result.paths:
        raise Fault(
            f"in {folder} is no log of {' '.join(days)}"
            + "".join(f"; {note}" for note in result.notes)
        )
    result.log = b"".join(parts)
    return result
