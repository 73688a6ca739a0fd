#!/usr/bin/env python3
"""Writes logs to measure with: positions, objects, messages, statuses, and a fifth of fields that stay
raw. The same words give the same logs.

usage: make_log.py LINES               one log of so many lines, to standard output
       make_log.py hexadecimal LINES   the hexadecimal of that log alone
       make_log.py kinds LINES         what each of its frames reports, as aprsbook names it
       make_log.py RECEPTIONS FOLDER   a.log, b.log and c.log of three receivers that hear mostly the
                                       same transmissions, with so many lines in all
       make_log.py one-key ROWS        one log of one transmission after another of the same key, each
                                       31 seconds after the last, to standard output
       make_log.py once LINES          one log of a status by a station of its own in each line, to
                                       standard output
       make_log.py receivers N LINES   one log of one transmission, which N receivers hear within ten
                                       seconds, with so many lines, to standard output
       make_log.py apart N LINES       the same with each line 40 seconds after the last
"""
import datetime
import random
import sys
from typing import BinaryIO, Callable, Dict, Iterator, List, Tuple

START = datetime.datetime(2024, 5, 1)
STATIONS = [("N%d%s" % (i % 10, chr(65 + i % 26) + chr(65 + i // 26) + "X"), i % 16) for i in range(300)]
Hop = Tuple[str, int, int]  # its call, SSID and flags
PATHS: List[List[Hop]] = [[], [("WIDE1", 1, 7)], [("WIDE1", 1, 7), ("WIDE2", 1, 3)]]
# what is sent by turns
KINDS = ["position", "object", "message", "status", "raw"]
# what share of the transmissions one receiver hears, in the logs of three
HEARD = 0.9


def address(call: str, ssid: int, flags: int, last: int) -> bytes:
    letters = call.ljust(6).encode()
    return bytes(2 * b for b in letters) + bytes([32 * flags + 2 * ssid + last])


def frame(source: str, ssid: int, hops: List[Hop], information: bytes) -> bytes:
    addresses = [("APRS", 0, 7), (source, ssid, 3)] + hops
    field = b"".join(
        address(call, number, flags, int(i + 1 == len(addresses)))
        for i, (call, number, flags) in enumerate(addresses)
    )
    return field + b"\x03\xf0" + information


def information(kind: int, numbers: random.Random) -> bytes:
    minute = numbers.randrange(6000)
    place = b"49%02d.%02dN/072%02d.%02dW>" % (minute // 100, minute % 100, minute // 100, minute % 100)
    if kind == 0:
        return b"!" + place + b"mobile %d" % minute
    if kind == 1:
        return b";LEADER %02d*092345z" % (minute % 100) + place
    if kind == 2:
        return b":N0CALL-7 :message %d{%03d" % (minute, minute % 1000)
    if kind == 3:
        return b">092345zNet control %d" % minute
    return b"T#%03d,199,000,255,073,123,01101001" % (minute % 1000)


def framed(heard: bytes) -> str:
    escaped = heard.replace(b"\xdb", b"\xdb\xdd").replace(b"\xc0", b"\xdb\xdc")
    return f"c000{escaped.hex()}c0"


def line(seconds: float, receiver: str, heard: bytes) -> bytes:
    at = START + datetime.timedelta(seconds=seconds)
    moment = at.isoformat(timespec="milliseconds" if at.microsecond else "seconds") + "Z"
    return f"{moment} {receiver} {framed(heard)}\n".encode()


def frames(count: int) -> Iterator[bytes]:
    numbers = random.Random(1)
    for i in range(count):
        source, ssid = numbers.choice(STATIONS)
        yield frame(source, ssid, numbers.choice(PATHS), information(i % len(KINDS), numbers))


def write_one_log(count: int, out: BinaryIO) -> None:
    for i, heard in enumerate(frames(count)):
        out.write(line(i // 2, "RX%d" % (i % 3 + 1), heard))


def write_hexadecimal(count: int, out: BinaryIO) -> None:
    out.writelines(f"{framed(heard)}\n".encode() for heard in frames(count))


def write_kinds(count: int, out: BinaryIO) -> None:
    out.writelines(f"{KINDS[i % len(KINDS)]}\n".encode() for i in range(count))


def write_three_logs(count: int, folder: str) -> None:
    """A third of the stations always sends the same, as a station at home does. A receiver's copy comes
    some seconds later than another's, over a path of its own."""
    numbers = random.Random(2)
    same = [information(i % len(KINDS), numbers) for i in range(len(STATIONS) // 3)]
    logs: Dict[str, List[Tuple[int, str, bytes]]] = {"a": [], "b": [], "c": []}
    left, sent = count, 0
    while left > 0:
        station = numbers.randrange(len(STATIONS))
        source, ssid = STATIONS[station]
        report = same[station] if station < len(same) else information(sent % len(KINDS), numbers)
        for name, log in logs.items():
            if left > 0 and numbers.random() < HEARD:
                heard = frame(source, ssid, numbers.choice(PATHS), report)
                log.append((sent + numbers.randrange(5), "RX" + name.upper(), heard))
                left -= 1
        sent += 1
    for name, log in logs.items():
        log.sort(key=lambda reception: reception[0])
        with open(f"{folder}/{name}.log", "wb") as out:
            out.writelines(line(*reception) for reception in log)


def write_one_key(rows: int, out: BinaryIO) -> None:
    heard = frame("N0CALL", 7, [], b">Hi")
    for row in range(rows):
        out.write(line(31 * row, "RX1", heard))


def write_once(count: int, out: BinaryIO) -> None:
    for number in range(count):
        letters = "".join(chr(65 + number // 26 ** at % 26) for at in range(5))
        out.write(line(number, "RX1", frame(letters + "X", 0, [], b">Hi")))


def write_receivers(count: int, lines: int, apart: bool, out: BinaryIO) -> None:
    numbers = random.Random(3)
    names = ["RX%07d" % i for i in range(count)]
    numbers.shuffle(names)
    heard = frame("N0CALL", 7, [], b">Hi")
    for i in range(lines):
        seconds = 40 * i if apart else numbers.randrange(10000) / 1000
        out.write(line(seconds, names[i % count], heard))


def main() -> None:
    writers: Dict[str, Callable[[int, BinaryIO], None]] = {
        "one-key": write_one_key, "hexadecimal": write_hexadecimal, "kinds": write_kinds,
        "once": write_once}
    if len(sys.argv) == 3 and sys.argv[1] in writers:
        writers[sys.argv[1]](int(sys.argv[2]), sys.stdout.buffer)
    elif len(sys.argv) == 4 and sys.argv[1] in ("receivers", "apart"):
        write_receivers(int(sys.argv[2]), int(sys.argv[3]), sys.argv[1] == "apart", sys.stdout.buffer)
    elif len(sys.argv) == 2:
        write_one_log(int(sys.argv[1]), sys.stdout.buffer)
    elif len(sys.argv) == 3:
        write_three_logs(int(sys.argv[1]), sys.argv[2])
    else:
        sys.exit(__doc__)


main()
