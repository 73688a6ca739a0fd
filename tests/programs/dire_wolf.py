#!/usr/bin/env python3
"""Compares the table of random frames with what Dire Wolf's decode_aprs says of them (Debian: apt
install direwolf), column by column, and says of each difference why it is there. It fails where a
difference has no reason among those of docs/formats.md.

usage: tests/programs/dire_wolf.py PROGRAM [COUNT [SEED]]   PROGRAM is aprsbook-table; 20,000 frames without a COUNT
"""
from __future__ import annotations

import random
import re
import subprocess
import sys
from collections import Counter
from typing import Callable, Dict, Iterator, List, NamedTuple, Optional, Tuple

from random_reports import START, STEP, Heard, ax25, heard, log_line
from table import table_of
from table_reading import Line

COLOUR = re.compile(r"\x1b\[[0-9;]*[mJ]")
KINDS = [
    ("mic-e", r"MIC-E,"),
    ("object", r"(Killed )?Object, \"|Weather Report with Object"),
    ("item", r"(Killed )?Item, \""),
    ("ack", r"ACK message [^\"]* for \""),
    ("rej", r"REJ message [^\"]* for \""),
    ("message", r"APRS Message [^\"]*for \"|Announcement|Bulletin|Group Bulletin|Telemetry .* Message"),
    ("status", r"Status Report"),
    ("telemetry", r"Telemetry,"),
    ("weather", r"Positionless Weather Report"),
    ("position", r"Position( with time)?,|Weather Report,"),
]
# what a number of theirs is called, and how much of ours it is: at least, and at most
MILES = 1.15078
NUMBERS: Dict[str, Tuple[str, Callable[[float], float], float]] = {
    "course": (r"course (\d+)", lambda x: x, 0),
    "speed_knots": (r"(\d+) MPH", lambda x: x * MILES, 1.2),
    "altitude_m": (r"alt (-?\d+) ft", lambda x: x / 0.3048, 0.51),
    "range_miles": (r"range=([\d.]+)", lambda x: x, 0.051),
    "phg_watts": (r"(\d+) W height", lambda x: x, 0),
    "phg_height_ft": (r"height=(\d+)", lambda x: x, 0),
    "phg_gain_db": (r"(\d+)dBi", lambda x: x, 0),
    "wind_from": (r"direction (\d+)", lambda x: x, 0),
    "wind_mph": (r"wind ([\d.]+) mph", lambda x: x, 0.051),
    "gust_mph": (r"gust (\d+)", lambda x: x, 0),
    "temperature_f": (r"temperature (-?\d+)", lambda x: x, 0),
    "rain_hour": (r"rain ([\d.]+) in last hour", lambda x: x / 100, 0.006),
    "rain_day": (r"rain ([\d.]+) in last 24", lambda x: x / 100, 0.006),
    "rain_midnight": (r"rain ([\d.]+) since", lambda x: x / 100, 0.006),
    "humidity": (r"humidity (\d+)", lambda x: x, 0),
    "pressure_tenths": (r"barometer ([\d.]+)", lambda x: x * 0.00295333727, 0.011),
    "luminosity": (r"(\d+) watts", lambda x: x, 0),
    "telemetry_sequence": (r"Seq=(\d+)", lambda x: x, 0),
    **{f"a{i}": (rf"A{i}=(-?[\d.]+)", lambda x: x, 0.0001) for i in range(1, 6)},
}


class Differs(NamedTuple):
    column: str
    ours: str
    theirs: str
    frame: Heard
    line: Line


# ---- what Dire Wolf says


def said_by_dire_wolf(frames: List[Heard]) -> List[str]:
    """What decode_aprs prints of each frame after the frame itself."""
    asked = [" ".join(f"{byte:02x}" for byte in b"\0" + ax25(frame)) for frame in frames]
    given = "\n".join(asked) + "\n"
    done = subprocess.run(["decode_aprs"], input=given.encode(), stdout=subprocess.PIPE, check=True)
    text = COLOUR.sub("", done.stdout.decode("latin-1"))
    starts, at = [], 0
    for line in asked:
        starts.append(text.index(f"\n{line}\n", at))
        at = starts[-1] + 1
    parts = [text[start:end] for start, end in zip(starts, starts[1:] + [len(text)])]
    return [part.partition("-------------------\n")[2].partition("\n")[2] for part in parts]


def degrees(text: str) -> Optional[Tuple[float, float]]:
    at = re.search(r"^([NS]) (\d+) (-?[\d.]+), ([EW]) (\d+) (-?[\d.]+)", text, re.MULTILINE)
    if not at:
        return None
    north = int(at[2]) + float(at[3]) / 60
    east = int(at[5]) + float(at[6]) / 60
    return (-north if at[1] == "S" else north), (-east if at[4] == "W" else east)


def read(text: str) -> Line:
    """The columns of what decode_aprs prints of a frame."""
    line: Line = {"kind": "raw"}
    for kind, pattern in KINDS:
        if re.search(rf"^({pattern})", text, re.MULTILINE):
            line["kind"] = kind
            break
    name = re.search(r"(?:Object|Item), \"(.*)\", ", text) or re.search(r" for \"(.*)\",", text)
    if name and line["kind"] in ("object", "item", "message", "ack", "rej"):
        line["name"] = name[1].rstrip(" ")
    number = re.search(r"^(?:APRS M|ACK m|REJ m)essage ([^\"]*) for \"", text, re.MULTILINE)
    if number:
        line["id"] = number[1]
    if line["kind"] in ("object", "item"):
        line["state"] = "killed" if re.search(r"^Killed", text, re.MULTILINE) else "live"
    at = degrees(text)
    if at:
        line["latitude"], line["longitude"] = f"{at[0]:.6f}", f"{at[1]:.6f}"
    # what is said in the comment isn't read again
    values = "\n".join(part.partition('"')[0] if part.startswith("wind ") or "gust " in part or "temperature " in part
                       else part for part in text.split("\n"))
    for column, (pattern, _, _) in NUMBERS.items():
        found = re.search(pattern, values)
        if found:
            line[column] = found[1]
    bits = re.findall(r"D[1-8]=([01])", text)
    if len(bits) == 8:
        line["bits"] = "".join(bits)
    return line


# ---- both compared


def unshown(text: str) -> str:
    return re.sub(r"\\x([0-9a-f]{2})", lambda it: chr(int(it[1], 16)), text)


def is_same(column: str, ours: str, theirs: str) -> bool:
    if column in ("latitude", "longitude"):
        return abs(float(ours) - float(theirs)) < 3e-6
    if column in NUMBERS:
        # theirs are of single precision
        _, scale, apart = NUMBERS[column]
        number = scale(float(ours))
        return abs(number - float(theirs)) <= max(apart, abs(number) * 1e-6)
    return ours == theirs


def differences(frame: Heard, line: Line, theirs: Line) -> Iterator[Differs]:
    if line["kind"] != theirs["kind"]:
        yield Differs("kind", line["kind"], theirs["kind"], frame, line)
        return
    columns = ["name", "id", "state", "latitude", "longitude", *NUMBERS, "bits"]
    if line["kind"] == "raw":
        columns = ["latitude", "longitude", "course", "speed_knots", "altitude_m"] if frame.info[:1] == b"$" else []
    for column in columns:
        ours, other = line.get(column, ""), theirs.get(column, "")
        if column == "name":
            ours = unshown(ours)
        # theirs have the digits more of a comment
        ours = line.get(f"finer_{column}", "") or ours
        if ours == other == "" or (ours != "" and other != "" and is_same(column, ours, other)):
            continue
        yield Differs(column, ours, other, frame, line)


# ---- why

WEATHER = ["wind_from", "wind_mph", "gust_mph", "temperature_f", "rain_hour", "rain_day", "rain_midnight",
           "humidity", "pressure_tenths", "luminosity"]
# the letters of a weather report in the standard's order
ORDER = "csgtrpPhbLl#"
PLACES = {"h": 2, "b": 5}


def comment_of(line: Line) -> str:
    return unshown(line.get("text", ""))


def in_order(text: str, is_compressed: bool) -> bool:
    """Whether weather is as the standard has it: the wind, the other fields in order, none broken."""
    begin = "" if is_compressed else r"^_[0-9]{8}c[0-9]{3}s[0-9]{3}|^([0-9]{3}|\.{3}| {3})/([0-9]{3}|\.{3}| {3})"
    start = re.match(begin, text)
    if not start:
        return False
    text, last = text[start.end() :], 1
    while text and text[0] in ORDER:
        places = text[1 : 1 + PLACES.get(text[0], 3)]
        if ORDER.index(text[0]) <= last or not re.match(r"([0-9]+|\.+| +)\Z|-[0-9]{2}\Z", places):
            return False
        if places[:1] == "-" and text[0] != "t":
            return False
        last, text = ORDER.index(text[0]), text[1 + len(places) :]
    return last > 1


def why_kind(it: Differs) -> str:
    info, theirs = it.frame.info, it.theirs
    if info[:1] == b"}":
        return "a passed frame (17): decode_aprs doesn't read it"
    if it.ours == "message" and theirs in ("ack", "rej"):
        return "`ack` without an id of one to five letters or digits (14): text here"
    if it.ours != "raw":
        return "?"
    if theirs in ("object", "item", "message", "ack", "rej") and re.match(rb"[;:)] *[*!_:]", info):
        return "a name of spaces alone (11, 14): raw here"
    if theirs in ("position", "object") and re.match(rb"([/@]|;.{9}[*_])(?![0-9]{6}[z/h])", info, re.DOTALL):
        return "a timestamp of another form (6): raw here"
    if theirs == "object" and info[10:11] not in (b"*", b"_"):
        return "an object neither live nor killed (11): raw here"
    if theirs == "item":
        return "an item with `_` in its name (11): raw here"
    if theirs in ("message", "ack", "rej", "object"):
        return "a name of a byte outside 20 to 7E (11, 14): raw here"
    if theirs == "mic-e":
        return "Mic-E out of its ranges (10): raw here"
    if theirs == "telemetry":
        return "telemetry of another form (13): raw here"
    if theirs == "weather":
        return "weather without eight digits (12): raw here"
    return "a position of another form (6, 9): raw here"


def why_weather(it: Differs) -> str:
    text = comment_of(it.line)
    if it.line["kind"] == "item":
        return "weather of an item (12): not read there"
    if it.column == "wind_mph" and it.ours and it.theirs and abs(int(it.ours) * MILES - float(it.theirs)) < 0.06:
        return "wind in `DIR/SPD`: miles an hour by 1.1 here, knots there"
    if it.line.get("compressed") == "yes" and it.column in ("wind_from", "wind_mph"):
        return "wind of a compressed position (9, 12)"
    if it.column == "wind_from" and it.theirs and int(it.theirs) > 360:
        return "a direction above 360 (7): none here"
    if re.match(r"[0-9]{3}/[^0-9]", text):
        return "a wind of which the speed is left open (12): none there"
    if not in_order(text, it.line.get("compressed") == "yes"):
        return "weather out of the standard's order, or broken (12)"
    return "?"


def why_sentence(it: Differs) -> str:
    if not it.theirs:
        return "`$GPGLL`, or a sentence without a checksum, decimals of minutes or a speed (6): not read there"
    if it.column == "course" and it.ours == "360" and it.theirs == "0":
        return "a course of 0 in a sentence (6): 360 here"
    if it.line["latitude"] == "":
        return "a sentence of another talker, or with a place of another form (6): nothing here"
    return "?" if it.ours else "a number of a sentence of another form, or an altitude in feet (6): nothing here"


def why(it: Differs) -> str:
    info, text = it.frame.info, comment_of(it.line)
    if it.column == "kind":
        return why_kind(it)
    if it.line["kind"] == "raw":
        return why_sentence(it)
    if it.column in WEATHER:
        return why_weather(it)
    if it.line["kind"] == "telemetry" and info.startswith(b"T#MIC"):
        return "`T#MIC` without a comma (13): the first value is the number there"
    if it.column in ("longitude", "latitude") and it.line.get("ambiguity", "0") != "0":
        return "digits of the longitude where the latitude leaves them out (6): 0 here"
    if it.column in ("longitude", "latitude") and it.line.get("compressed") == "yes":
        return "`!DAO!` after a compressed position (1.2): of plain ones alone here"
    if it.column in ("longitude", "latitude") and re.search(r"!([A-VX-Z][0-9 ]{2}|[a-vx-z][!-{ ]{2})!", text):
        return "`!DAO!` of another datum (1.2): none here"
    if it.column in ("longitude", "latitude") and abs(float(it.ours) + float(it.theirs or "nan")) < 3e-6:
        return "`!DAO!` at 0 degrees (1.2): to the side of the letter here"
    if it.column in ("longitude", "latitude") and len(text) < 7:
        return "`!DAO!` in a comment of fewer than seven bytes (1.2): not read there"
    if it.column in ("telemetry_sequence", "a1", "a2", "a3", "a4", "a5", "bits") and text.count("|") > 2:
        return "telemetry of a comment with more than two bars (1.2)"
    if it.column == "state":
        return "a killed object with weather (11): not said there"
    if it.column == "id":
        return "an id of other bytes than letters and digits, or before CR (14)"
    if "\0" in text:
        return "a byte 0: the text ends there"
    return why_of_comment(it, text)


def why_of_comment(it: Differs, text: str) -> str:
    """Of course, speed, altitude, range and transmitter."""
    is_weather = it.line.get("symbol", "")[-1:] == "_"
    if is_weather and it.column in ("course", "speed_knots") and not it.ours:
        return "a weather station doesn't move (7, 12)"
    if it.column == "course" and (not it.ours or it.ours == "360"):
        return "a course of 0, or above 360 (7): unknown here; 360 is 0 there"
    if is_weather and not it.theirs:
        return "PHG, RNG and altitude of a weather station (7): not read there"
    if text[3:4] == "/" and not re.match(r"[0-9]{3}/[0-9]{3}", text):
        return "seven bytes with `/` among them that are no course and speed (7)"
    if it.column in ("altitude_m", "speed_knots", "range_miles") and it.line.get("compressed") == "yes":
        return "c, s or T outside `!` to `{` (9): nothing here"
    if it.column.startswith("phg") or it.column == "range_miles":
        if re.match(r"PHG0", text):
            return "a transmitter of 0 watts (7): not said there"
        if not re.match(r"PHG[0-9]{3}[0-8]|RNG[0-9]{4}", text):
            return "PHG and RNG of other bytes than the standard's (7): none here"
    return "?"


def main() -> None:
    program = sys.argv[1]
    count = int(sys.argv[2]) if len(sys.argv) > 2 else 20_000
    n = random.Random(int(sys.argv[3]) if len(sys.argv) > 3 else 1)
    frames = [heard(n) for _ in range(count)]
    lines = [log_line(START + i * STEP, frame) for i, frame in enumerate(frames)]
    rows = {row["first"]: row for row in table_of(program, lines)}
    table = [rows[f"{START + i * STEP:%Y-%m-%dT%H:%M:%S.000Z}"] for i in range(count)]
    reasons: Counter[str] = Counter()
    examples: Dict[str, Differs] = {}
    same = 0
    for frame, line, text in zip(frames, table, said_by_dire_wolf(frames)):
        found = {why(it): it for it in differences(frame, line, read(text))}
        same += not found
        reasons.update(found.keys())
        examples = {**found, **examples}
    print(f"{count} frames, {same} of them without a difference")
    for reason, number in reasons.most_common():
        it = examples[reason]
        print(f"{number:6} {reason}\n       {it.column}: {it.ours!r}, {it.theirs!r} there, of {it.frame.info!r}")
    if "?" in reasons:
        sys.exit("dire_wolf.py: a difference has no reason")


if __name__ == "__main__":
    main()
