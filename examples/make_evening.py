#!/usr/bin/env python3
"""Writes the logs of three receivers on one evening: a fell race with a small net that looks after it.
The stations are made up: no real call begins with Q. The same program gives the same logs.

usage: make_evening.py FOLDER    writes FOLDER/hill.log, coast.log and north.log

What there is to find in them: plain and compressed positions, one of them ambiguous; objects, two of
them killed at the end; items; messages that were acknowledged, rejected and never answered, and one
without a number; statuses; Mic-E and telemetry, which stay raw; copies over digipeaters within seconds; a
byte that KISS escapes; and in hill.log a frame that was cut short.
"""
import datetime
import math
import random
import sys
from typing import Callable, Dict, Iterator, List, Tuple, Union

DAY = datetime.datetime(2024, 6, 21)
Place = Tuple[float, float]  # degrees north and east
Information = Union[str, bytes]
Sent = Tuple[datetime.datetime, str, Information]  # at a moment, by a station
Report = Callable[[datetime.datetime, float, float], str]

# Which receivers hear a station directly, which digipeater repeats it, and which hear that.
AIR: Dict[str, Tuple[str, str, str]] = {
    "Q1NET": ("coast hill", "Q1DIG", "coast north"),
    "Q1DIG": ("coast hill north", "", ""),
    "Q1BAY": ("coast", "", ""),
    "Q1RUN-7": ("hill", "Q1DIG", "coast hill north"),
    "Q1FEL-9": ("hill north", "Q1DIG", "north"),
    "Q1VAN-9": ("coast", "Q1DIG", "coast hill"),
    "Q1MED-7": ("hill", "Q1DIG", "coast"),
    "Q1SEA-8": ("coast", "Q1BAY", "coast hill"),
    "Q1MIC-9": ("north", "Q1DIG", "north hill"),
    "Q1WX-13": ("north", "", ""),
}
# Of a hundred transmissions, so many reach a receiver that can hear the station, or the digipeater.
DIRECT, REPEATED = 80, 55


def at(clock: str) -> datetime.datetime:
    """The moment of a time of that evening, such as 18:30:00 or 1830."""
    digits = clock.replace(":", "").ljust(6, "0")
    return DAY + datetime.timedelta(
        hours=int(digits[:2]), minutes=int(digits[2:4]), seconds=int(digits[4:])
    )


def plain(lat: float, lon: float, symbol: str, ambiguity: int = 0) -> str:
    """A position as degrees, minutes and hundredths; the last digits of the minutes may be left out."""

    def part(value: float, width: int, marks: str) -> str:
        hundredths = round(abs(value) * 6000)
        digits = "%0*d%02d.%02d" % (width, hundredths // 6000, hundredths // 100 % 60, hundredths % 100)
        shown = list(digits)
        for place in (-1, -2, -4, -5)[:ambiguity]:
            shown[place] = " "
        return "".join(shown) + marks[value < 0]

    return part(lat, 2, "NS") + symbol[0] + part(lon, 3, "EW") + symbol[1]


def base91(number: int) -> str:
    return "".join(chr(33 + number // 91**place % 91) for place in (3, 2, 1, 0))


def compressed(lat: float, lon: float, symbol: str, course: int, knots: float) -> str:
    """A position in base 91, with course and speed, of a tracker with a fix."""
    speed = round(math.log(knots + 1) / math.log(1.08))
    return (
        symbol[0]
        + base91(round(380926 * (90 - lat)))
        + base91(round(190463 * (180 + lon)))
        + symbol[1]
        + chr(33 + course // 4)
        + chr(33 + speed)
        + "_"
    )


def along(points: List[Place], share: float) -> Place:
    """The place after a share of the way through points that are equally far apart in time."""
    place = share * (len(points) - 1)
    leg = min(int(place), len(points) - 2)
    (south, west), (north, east) = points[leg], points[leg + 1]
    rest = place - leg
    return south + (north - south) * rest, west + (east - west) * rest


HARBOUR = (54.5492, -3.5936)
SHED = (54.5581, -3.5247)
BRIDGE = (54.5306, -3.4789)
SUMMIT = (54.5136, -3.4431)
FINISH = (54.5208, -3.5139)
PARKING = (54.5186, -3.5288)
FIRST_AID = (54.5450, -3.5550)
RACE = [HARBOUR, SHED, BRIDGE, SUMMIT, FINISH]
ROAD = [HARBOUR, (54.5350, -3.5500), BRIDGE, (54.5190, -3.5240)]
SEA = [(54.5540, -3.6130), (54.5660, -3.6420), (54.5480, -3.6240)]
MEDIC = [("18:12:20", SHED, 0), ("19:02:20", BRIDGE, 0), ("19:41:20", SUMMIT, 2)]
OBJECTS = [
    ("18:15:05", "START", "*", HARBOUR, "off at 1830"),
    ("18:16:05", "CP1 SHED", "*", SHED, ""),
    ("18:17:05", "CP2 BECK", "*", BRIDGE, "water"),
    ("18:18:05", "CP3 TOP", "*", SUMMIT, "cut-off 2000"),
    ("18:19:05", "FINISH", "*", FINISH, "soup"),
    ("18:36:40", "START", "_", HARBOUR, ""),
    ("20:26:30", "CP3 TOP", "_", SUMMIT, ""),
]
ITEMS = [
    ("18:21:30", "FIRST AID", "!", FIRST_AID, "/+", "until 2030"),
    ("18:23:30", "PARKING", "!", PARKING, "\\P", ""),
    ("20:10:20", "FIRST AID", "_", FIRST_AID, "/+", ""),
]
SAID: List[Tuple[str, str, Information]] = [
    ("18:03:00", "Q1NET", ">211803zFell race net opens, all welcome"),
    ("18:04:10", "Q1NET", ":BLN1RACE :Start 1830, cut-off at the summit 2000"),
    ("18:37:10", "Q1NET", ":Q1VAN-9  :Water is low at CP2{01"),
    ("18:37:14", "Q1VAN-9", ":Q1NET    :ack01"),
    ("18:52:00", "Q1SEA-8", b">\xc0 bient\xf4t, watching the harbour mouth"),
    ("19:08:25", "Q1NET", ":Q1MED-7  :Runner 118 hurt a knee near CP3{02"),
    ("19:09:05", "Q1NET", ":Q1MED-7  :Runner 118 hurt a knee near CP3{02"),
    ("19:09:09", "Q1MED-7", ":Q1NET    :ack02"),
    ("19:10:30", "Q1MED-7", ":Q1NET    :Going up from CP2{A1"),
    ("19:10:34", "Q1NET", ":Q1MED-7  :ackA1"),
    ("19:22:50", "Q1NET", ":Q1FEL-9  :Can you take the signs down at CP1?{03"),
    ("19:22:55", "Q1FEL-9", ":Q1NET    :rej03"),
    ("19:44:10", "Q1MED-7", ">211944zWith 118, walking down, no help needed"),
    ("20:04:00", "Q1NET", ":BLN1RACE :First home in 92 minutes, well run"),
    ("20:12:00", "Q1NET", ":Q1SEA-8  :All are off the shore path, thank you{04"),
    ("20:12:25", "Q1NET", ":Q1SEA-8  :All are off the shore path, thank you{04"),
    ("20:14:30", "Q1NET", ":Q1SEA-8  :All are off the shore path, thank you{04"),
    ("20:29:00", "Q1NET", ">212029zNet closed, 73"),
]


def moving(sender: str, points: List[Place], begin: str, end: str, minutes: float,
           report: Report) -> Iterator[Sent]:
    """A report of the place each few minutes."""
    first, last = at(begin), at(end)
    now = first
    while now <= last:
        lat, lon = along(points, (now - first) / (last - first))
        yield now, sender, report(now, lat, lon)
        now += datetime.timedelta(minutes=minutes)


def on_the_move() -> Iterator[Sent]:
    """Runners, the van and the boat."""
    yield from moving(
        "Q1RUN-7", RACE, "18:30:11", "20:02:11", 11.5,
        lambda now, lat, lon: "!" + compressed(lat, lon, "/[", 116, 5) + "leader",
    )
    yield from moving(
        "Q1FEL-9", RACE, "18:40:24", "20:25:24", 21,
        lambda now, lat, lon: "/" + now.strftime("%H%M%Sh") + plain(lat, lon, "/[") + "sweeper",
    )
    yield from moving(
        "Q1VAN-9", ROAD, "18:05:37", "20:20:37", 27,
        lambda now, lat, lon: "=" + plain(lat, lon, "/v") + "096/022 water and blankets",
    )
    yield from moving(
        "Q1SEA-8", SEA, "18:10:48", "19:40:48", 30,
        lambda now, lat, lon: "@" + now.strftime("%d%H%Mz") + compressed(lat, lon, "/s", 28, 6) + "boat",
    )
    for clock, place, ambiguity in MEDIC:
        yield at(clock), "Q1MED-7", "!" + plain(*place, "/+", ambiguity) + "medic on foot"
    # Mic-E: the latitude, 54 38.50 north, stands in the destination (see `destination`)
    for clock in "18:20:09", "19:05:09", "19:50:09":
        yield at(clock), "Q1MIC-9", '`y4:n"O>/visiting'


def at_home() -> Iterator[Sent]:
    """Net control, the weather station and the digipeaters."""
    yield at("18:02:15"), "Q1NET", "=" + plain(54.5481, -3.5897, "/-") + "net control 145.500"
    for clock, wind in ("18:00:30", "220/004g009t061"), ("19:15:30", "231/009g017t055"):
        yield at(clock), "Q1WX-13", "!" + plain(54.5833, -3.4817, "/_") + wind + "h74b10132"
    yield at("19:16:10"), "Q1WX-13", "T#008,128,061,074,000,000,00000000"
    for clock in "18:01:02", "19:31:02":
        yield at(clock), "Q1DIG", "!" + plain(54.5430, -3.4560, "I#") + "hill digipeater"
        later = at(clock) + datetime.timedelta(minutes=7)
        yield later, "Q1BAY", "!" + plain(54.5108, -3.6156, "1#") + "bay fill-in"


def placed() -> Iterator[Sent]:
    """Objects of net control and items of the van: name, state and place."""
    for clock, name, state, place, about in OBJECTS:
        stamp = at(clock).strftime("%d%H%Mz")
        yield at(clock), "Q1NET", ";" + name.ljust(9) + state + stamp + plain(*place, "/E") + about
    for clock, name, state, place, symbol, about in ITEMS:
        yield at(clock), "Q1VAN-9", ")" + name + state + plain(*place, symbol) + about


def said() -> Iterator[Sent]:
    """Messages and statuses."""
    for clock, sender, information in SAID:
        yield at(clock), sender, information


def evening() -> Iterator[Sent]:
    """All transmissions: moment, sender, information."""
    for part in on_the_move, at_home, placed, said:
        yield from part()


def destination(sender: str) -> str:
    return {"Q1MIC-9": "UT3XUP", "Q1NET": "APDW17"}.get(sender, "APRS")


def address(text: str, flags: int, last: int) -> bytes:
    """Seven octets: six of the callsign, then the C or H bit, two reserved bits, the SSID, the end."""
    call, _, ssid = text.partition("-")
    return bytes(2 * b for b in call.ljust(6).encode()) + bytes([32 * flags + 2 * int(ssid or 0) + last])


def frame(sender: str, hops: List[str], information: Information) -> bytes:
    """A UI frame; a hop with a star has repeated it."""
    addresses = [(destination(sender), 7), (sender, 3)]
    addresses += [(hop.rstrip("*"), 7 if hop.endswith("*") else 3) for hop in hops]
    last = len(addresses) - 1
    field = b"".join(address(text, flags, int(i == last)) for i, (text, flags) in enumerate(addresses))
    return field + b"\x03\xf0" + (information if isinstance(information, bytes) else information.encode())


def line(moment: datetime.datetime, receiver: str, heard: bytes) -> str:
    escaped = heard.replace(b"\xdb", b"\xdb\xdd").replace(b"\xc0", b"\xdb\xdc")
    return "%s %s c000%sc0\n" % (moment.strftime("%Y-%m-%dT%H:%M:%SZ"), receiver.upper(), escaped.hex())


def receptions() -> Iterator[Tuple[datetime.datetime, str, bytes]]:
    """What each receiver heard: moment, receiver, frame."""
    chance = random.Random(7)
    for moment, sender, information in sorted(evening(), key=lambda sent: sent[0]):
        direct, digipeater, repeated = AIR[sender]
        path = ["WIDE1-1", "WIDE2-1"] if sender == "Q1NET" else ["WIDE1-1"] if digipeater else []
        for receiver in direct.split():
            if chance.randrange(100) < DIRECT:
                yield moment, receiver, frame(sender, path, information)
        for receiver in repeated.split():
            if chance.randrange(100) < REPEATED:
                later = moment + datetime.timedelta(seconds=chance.randrange(1, 4))
                yield later, receiver, frame(sender, [digipeater + "*"] + path[1:], information)
    # what was left of a frame after the line between modem and computer failed for a moment
    cut = frame("Q1RUN-7", ["WIDE1-1"], "!")[:11]
    yield at("19:17:43"), "hill", cut


def main() -> None:
    if len(sys.argv) != 2:
        sys.exit(__doc__)
    heard = sorted(receptions())
    for receiver in "hill", "coast", "north":
        with open("%s/%s.log" % (sys.argv[1], receiver), "w") as out:
            out.writelines(line(*reception) for reception in heard if reception[1] == receiver)


main()
