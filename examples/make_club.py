#!/usr/bin/env python3
"""Writes the logs of a club's three receivers on one evening, of which old-book.txt was made. The stations
are made up: no real call begins with Q. The same program gives the same logs.

usage: make_club.py FOLDER    writes FOLDER/rx1.log, rx2.log and rx3.log

Twelve stations send a position or a status every few minutes, and some messages; a digipeater repeats
them within seconds. Now and then a station sends the same again after exactly 30 or 31 seconds: that is
one transmission, or two. A few frames hold bytes that KISS escapes.
"""
import datetime
import random
import sys
from typing import Iterator, List, Tuple

START = datetime.datetime(2023, 11, 8, 18)
MINUTES = 240
RECEIVERS = ["RX1", "RX2", "RX3"]
STATIONS = [("Q2CLB", 0), ("Q2DIG", 1)] + [("Q2%c%c%c" % (65 + i, 75 + i, 90 - i), i) for i in range(10)]


def address(call: str, ssid: int, flags: int, last: int) -> bytes:
    return bytes(2 * b for b in call.ljust(6).encode()) + bytes([32 * flags + 2 * ssid + last])


def frame(source: Tuple[str, int], hops: List[Tuple[str, int, bool]], information: bytes) -> bytes:
    """A UI frame; each hop is a callsign, an SSID and whether it has repeated the frame."""
    addresses = [("APRS", 0, 7), (*source, 3)] + [(call, ssid, 7 if h else 3) for call, ssid, h in hops]
    last = len(addresses) - 1
    octets = [address(*it, last=int(i == last)) for i, it in enumerate(addresses)]
    return b"".join(octets) + b"\x03\xf0" + information


def information(station: int, count: int, chance: random.Random) -> bytes:
    """What a station sends: at home always the same place, on the road another, or a status or message."""
    kind = chance.randrange(8)
    if kind == 0:
        return b">Evening round, no. %d" % count
    if kind == 1:
        return b":Q2CLB    :Report %d of %s{%d" % (count, STATIONS[station][0].encode(), count)
    if kind == 2:
        return b">" + bytes([0xC0, 0xDB]) + b" odd bytes"
    moved = station % 3 * count
    north, west = 5412 * 100 + 20 * station + moved, 305 * 100 + 31 * station + 2 * moved
    return b"!%04d.%02dN/%05d.%02dW>%s" % (
        north // 100, north % 100, west // 100, west % 100, [b"", b"73", b"mobile"][station % 3]
    )


def transmissions(chance: random.Random) -> Iterator[Tuple[int, int, bytes]]:
    for station in range(len(STATIONS)):
        at, count = chance.randrange(300), 0
        while at < 60 * MINUTES:
            sent = information(station, count, chance)
            yield at, station, sent
            again = chance.randrange(20)
            if again < 2:
                yield at + 30 + again, station, sent
            count += 1
            at += 360 + chance.randrange(480)


def receptions(chance: random.Random) -> Iterator[Tuple[int, str, bytes]]:
    for at, station, sent in transmissions(chance):
        for number, receiver in enumerate(RECEIVERS):
            if chance.randrange(100) < 75 - 20 * number:
                yield at, receiver, frame(STATIONS[station], [("WIDE1", 1, False)], sent)
            elif chance.randrange(100) < 45:
                later = at + chance.randrange(1, 5)
                yield later, receiver, frame(STATIONS[station], [("Q2DIG", 1, True)], sent)


def line(at: int, receiver: str, heard: bytes) -> str:
    moment = START + datetime.timedelta(seconds=at)
    escaped = heard.replace(b"\xdb", b"\xdb\xdd").replace(b"\xc0", b"\xdb\xdc")
    return "%s %s c000%sc0\n" % (moment.strftime("%Y-%m-%dT%H:%M:%SZ"), receiver, escaped.hex())


def main() -> None:
    if len(sys.argv) != 2:
        sys.exit(__doc__)
    heard = sorted(receptions(random.Random(5)))
    for receiver in RECEIVERS:
        with open("%s/%s.log" % (sys.argv[1], receiver.lower()), "w") as out:
            out.writelines(line(*reception) for reception in heard if reception[1] == receiver)


main()
