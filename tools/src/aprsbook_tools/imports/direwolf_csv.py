"""Dire Wolf's log in CSV, which has no frames but what it read of them.

So positions and statuses become frames anew, addressed to APZCSV: who reads the book sees that.
"""
import csv
from typing import IO, Dict, Iterator, List, Optional

from aprsbook_tools.errors import Fault
from aprsbook_tools.formats import ax25, moments
from aprsbook_tools.imports import Found, Heard, Options, Refused, packets
from aprsbook_tools.system import long_lines

DESTINATION = "APZCSV"
POSITIONS = frozenset("!=/@`'")
NEEDED = ("utime", "source", "heard", "dti", "symbol", "latitude", "longitude", "comment")


def degrees(text: str, width: int, ends: str) -> str:
    """Degrees as a position report has them: degrees, minutes with two decimals, and a letter."""
    if not abs(float(text)) <= (90 if width == 2 else 180):
        raise ValueError(f"{text} is no place on the earth")
    hundredths = round(abs(float(text)) * 6000)
    whole, rest = divmod(hundredths, 6000)
    return f"{whole:0{width}}{rest // 100:02}.{rest % 100:02}{ends[float(text) < 0]}"


def position(row: Dict[str, str]) -> bytes:
    """A position report without a time."""
    symbol = row["symbol"]
    if len(symbol) != 2 or not row["latitude"] or not row["longitude"]:
        raise ValueError("no position")
    latitude, longitude = degrees(row["latitude"], 2, "NS"), degrees(row["longitude"], 3, "EW")
    text = f"!{latitude}{symbol[0]}{longitude}{symbol[1]}"
    if row.get("course") and row.get("speed"):
        course = round(float(row["course"])) or 360
        text += f"{course:03}/{min(round(float(row['speed'])), 999):03}"
    if row.get("altitude"):
        text += f"/A={round(float(row['altitude']) / 0.3048):06}"
    return (text + row["comment"]).encode("utf-8", "surrogateescape")[:ax25.MOST]


def frame(row: Dict[str, str]) -> Optional[bytes]:
    """The frame of a line; None of another kind than a position or a status."""
    if row["dti"] in POSITIONS:
        information = position(row)
    elif row["dti"] == ">":
        information = (">" + row["comment"]).encode("utf-8", "surrogateescape")[:ax25.MOST]
    else:
        return None
    heard = row["heard"].rstrip("?")  # a guess, where the last address is WIDE1 or the like
    by = "" if heard in ("", row["source"]) else f",{heard}*"
    return ax25.frame(row["source"], DESTINATION + by, information)


def row_of(names: List[str], line: bytes) -> Dict[str, str]:
    """A line by the names of the columns; ValueError of one that was cut short."""
    text = line.decode("utf-8", "surrogateescape")
    try:
        [fields] = csv.reader([text], strict=True)
    except (csv.Error, ValueError):
        fields = []
    if len(fields) != len(names) or "\0" in text:
        raise ValueError(f"no whole line of {len(names)} fields")
    return dict(zip(names, fields))


class Untimed(ValueError):
    """A line whose moment can't be told."""


def moment_of(row: Dict[str, str]) -> int:
    """When a row was heard."""
    try:
        moment = int(row["utime"]) * 1000
        moments.text_of(moment)
    except (ValueError, OverflowError) as fault:
        raise Untimed(str(fault)) from fault
    return moment


def heard_of(row: Dict[str, str], options: Options) -> Heard:
    """A row's frame; ValueError of one that isn't made anew."""
    moment = moment_of(row)
    made = frame(row)
    if made is None:
        raise ValueError(f"a report that begins with {row['dti']!r} isn't made anew")
    return Heard(moment, packets.receiver(options.name or "TEXT"), made)


def read(file: IO[bytes], options: Options) -> Iterator[Found]:
    """Dire Wolf's log in CSV, of positions and statuses. A text there has no end of a line, so that
    a line that was cut short takes none of the next ones in."""
    head = file.readline(long_lines.LONGEST)
    names = head.decode("utf-8-sig", "replace").strip().split(",")
    for column in NEEDED:
        if column not in names:
            raise Fault(f"no log of Dire Wolf in CSV: it has no column {column}")
    for number, line in enumerate(long_lines.bounded(file), 2):
        line = line.rstrip(b"\r\n")
        if not line or line == head.strip():  # of another day's log
            continue
        try:
            yield heard_of(row_of(names, line), options)
        except (ValueError, OverflowError) as fault:
            yield Refused(number, str(fault), line, untimed=isinstance(fault, Untimed))
