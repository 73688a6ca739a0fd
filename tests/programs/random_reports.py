"""Random reports of all kinds, some of them damaged, and logs of them. For table.py and dire_wolf.py.
The same numbers give the same reports.
"""
from __future__ import annotations

import datetime
import random
from typing import NamedTuple, Tuple

START = datetime.datetime(2024, 5, 1)
# no two reports are heard within one gap
STEP = datetime.timedelta(seconds=40)
NAMES = ["LEADER", "AID #2", "N0CALL-7", "WU2Z", "A", "BLN1", "x\\y", "a_b", ""]


class Heard(NamedTuple):
    """A frame of N0CALL: the six characters of its destination, and its information."""

    destination: bytes
    info: bytes


def digits(n: random.Random, count: int) -> str:
    return "".join(n.choice("0123456789") for _ in range(count))


def places(n: random.Random, count: int) -> str:
    mixed = "".join(n.choice("0123456789. -") for _ in range(count))
    return n.choice([digits(n, count)] * 8 + ["." * count, " " * count, mixed])


# ---- what a comment says


def course(n: random.Random) -> str:
    first = n.choice([n.randrange(361), n.randrange(400), 0, 360])
    fixed = f"{first:03}/{n.randrange(200):03}"
    return n.choice([fixed] * 6 + [".../...", "   /   ", places(n, 3) + "/" + places(n, 3)])


def extension(n: random.Random) -> str:
    end = n.choice([places, digits])(n, 4)
    return n.choice([course(n), course(n), "PHG" + end, "RNG" + end, ""])


def measured(n: random.Random) -> str:
    fields = []
    for letter, count in [("g", 3), ("t", 3), ("r", 3), ("p", 3), ("P", 3), ("h", 2), ("b", 5), ("L", 3),
                          ("l", 3), ("s", 3), ("#", 3)]:
        if n.random() < 0.7:
            below = "-" + digits(n, 2)
            fields.append(letter + n.choice([places(n, count)] * 4 + ([below] if letter == "t" else [])))
    if n.random() < 0.3:
        n.shuffle(fields)
    return n.choice([course(n), ""]) + "".join(fields)


def words(n: random.Random) -> str:
    return n.choice(["Hi", "on the road", "QRV 145.500", "PHG5130", "", " mobile", "wRSW", ".DsVP", "\\", "\t"])


def channel(n: random.Random) -> str:
    """A frequency, more digits or telemetry in a comment, mostly none."""
    tone = n.choice(["", " T100", " c088", " D023", " T10"])
    tuned = n.choice(["146.520MHz", "146.52 MHz", "146.5 MHz"]) + tone + n.choice(["", " +060", " -600", " 060"])
    more = n.choice(["!W12!", "!w5z!", "!W 5!", "!wAB!", "!W1a!", "!?12!", "!N27!", "!yes!!w12!"])
    values = "".join(chr(n.randrange(33, 125)) for _ in range(n.choice([4, 6, 10, 12, 14, 14, 16, 5, 2])))
    return n.choice([""] * 8 + [tuned, tuned + more, more, f"|{values}|", f"|x|{values}|", tuned + f"|{values}|"])


def feet(n: random.Random) -> str:
    return n.choice([f"/A={n.randrange(99999):06}"] * 4 + ["/A=-00123", "/A=12345", "/a=001234", ""])


# ---- positions


def plain_place(n: random.Random, code: str) -> str:
    left_out = n.choice([0, 0, 0, 0, 1, 2, 3, 4])
    north = n.choice([f"{n.randrange(6000):04}"] * 3 + ["0000"])[: 4 - left_out].ljust(4)
    minutes = n.choice([f"{n.randrange(6000):04}"] * 3 + ["0000"])
    east = n.choice([minutes, minutes[: 4 - left_out].ljust(4)])
    degrees_north, degrees_east = n.choice([n.randrange(91)] * 3 + [0]), n.choice([n.randrange(181)] * 3 + [0])
    table = n.choice("///\\\\1AZ")
    return (
        f"{degrees_north:02}{north[:2]}.{north[2:]}{n.choice('NS')}{table}"
        f"{degrees_east:03}{east[:2]}.{east[2:]}{n.choice('EW')}{code}"
    )


def compressed_place(n: random.Random, code: str) -> str:
    cst = "".join(chr(n.randrange(32, 126)) for _ in range(3))
    cst = n.choice([" sT", cst, cst, "{" + cst[1:], "S]" + cst[2]])
    at = "".join(chr(n.randrange(33, 124)) for _ in range(8))
    return n.choice("///\\aZ") + n.choice(["5L!!<*e7", at]) + code + cst


def whereabouts(n: random.Random) -> str:
    """A position and a comment."""
    form = n.choice([plain_place, plain_place, compressed_place])
    if n.random() < 0.4:
        return form(n, "_") + n.choice([measured(n), measured(n), words(n)]) + words(n)
    return form(n, n.choice(">>>-#k")) + n.choice([extension(n), measured(n), words(n), ""]) + channel(n) + words(n) + feet(n)


def stamp(n: random.Random) -> str:
    return digits(n, 6) + n.choice(["z", "z", "/", "h", "x"])


def position(n: random.Random) -> str:
    return n.choice(["!", "=", "/" + stamp(n), "@" + stamp(n)]) + whereabouts(n)


def named(n: random.Random) -> str:
    name = n.choice(NAMES)
    if n.random() < 0.5:
        return ";" + name.ljust(9) + n.choice("***_x") + stamp(n) + whereabouts(n)
    return ")" + n.choice([name, name.ljust(3)]) + n.choice("!!!_") + whereabouts(n)


# ---- other reports


def message(n: random.Random) -> str:
    number = n.choice(["001", "7", "AB12", "abcde", "abcdef", "", "1}2"])
    said = n.choice([words(n) + "{" + number, words(n), "ack" + number, "rej" + number, "a{b{" + number])
    return ":" + n.choice(NAMES).ljust(9) + n.choice([":"] * 6 + [""]) + said + n.choice(["", "", "", "\r", "\r\n"])


def status(n: random.Random) -> str:
    return ">" + n.choice(["", stamp(n)]) + n.choice(["", channel(n), course(n) + channel(n)]) + words(n)


def bare_weather(n: random.Random) -> str:
    wind = f"c{n.randrange(400):03}s{n.randrange(80):03}"
    return "_" + digits(n, n.choice([8, 8, 8, 7])) + wind + measured(n) + words(n)


def telemetry(n: random.Random) -> str:
    values = [digits(n, 3), digits(n, 1), "-" + digits(n, 2), digits(n, 2) + "." + digits(n, 1), "." + digits(n, 1)]
    broken = ["", "-", "1.2.3", "1.", "x"]
    count = n.choice([5, 5, 5, 4, 1, 6])
    number = n.choice([digits(n, 3) + ","] * 4 + ["MIC", "MIC,", digits(n, n.randrange(6)) + ","])
    bits = "".join(n.choice("01") for _ in range(n.choice([8, 8, 8, 7, 0])))
    said = ",".join(n.choice(values * 12 + broken) for _ in range(count))
    return "T#" + number + said + n.choice([",", ",", ""]) + bits + words(n)


def decimal(n: random.Random, whole: int) -> str:
    """A number as receivers send it, with so many digits before the point."""
    decimals = "." + digits(n, n.choice([1, 2, 3, 4, 4, 6, 7]))
    return n.choice([digits(n, whole) + n.choice([decimals, decimals, ""])] * 9 + ["", "."])


def angles(n: random.Random) -> str:
    north = f"{n.choice([n.randrange(90)] * 6 + [90]):02}{n.randrange(61):02}" + decimal(n, 0)
    east = f"{n.choice([n.randrange(180)] * 6 + [180]):03}{n.randrange(61):02}" + decimal(n, 0)
    exact = n.choice([f"{north},{n.choice('NS')},{east},{n.choice('EW')}"] * 6 + ["9000.0,N,18000.00,W"])
    return n.choice([exact] * 9 + [f"{north},E,{east},N", f"{north},,{east},", "0000.000003,S,00000.000003,E"])


def sentence(n: random.Random) -> str:
    """A sentence of a GPS receiver."""
    valid = n.choice("AAAAAV")
    said = n.choice([
        f"GPRMC,063909,{valid},{angles(n)},{decimal(n, 2)},{decimal(n, n.choice([1, 2, 3]))},291099,,",
        f"GPGLL,{angles(n)},154027.281,{valid}",
        f"GPGGA,102705,{angles(n)},{n.choice('112890')},04,2.0,{n.choice(['', '-'])}{decimal(n, 3)},"
        f"{n.choice('MMMMF')},47.6,M,,",
        f"GPVTG,318.7,T,,M,{decimal(n, 2)},N,65.0,K",
        f"GNRMC,063909,{valid},{angles(n)},{decimal(n, 2)},,291099,,",
        f"GPRMC,063909,{valid},{angles(n)}",
    ])
    checksum = 0
    for byte in said.encode():
        checksum ^= byte
    right = [f"*{checksum:02X}"] * 8
    return "$" + said + n.choice([*right, f"*{checksum:02x} Hi", "", f"*{checksum ^ 1:02X}", "*", "*0"])


def raw(n: random.Random) -> str:
    other = n.choice(["<IGATE,MSG_CNT=30", "?APRS?", "$GPRMC,063909,A,3349.4302,N", "{Q1qwerty", "[IO91SX] Hi", "Hi"])
    return n.choice([other, sentence(n), sentence(n)])


def mic_e(n: random.Random) -> Heard:
    """By the tables of chapter 10, with a character out of its row now and then."""
    row = ["PQRSTUVWXYZ" if n.random() < 0.5 else "0123456789L" for _ in range(6)]
    for i in range(3):
        if n.random() < 0.1:
            row[i] = "ABCDEFGHIJK"
    left_out = n.choice([0, 0, 0, 1, 4])
    degrees, minutes = n.choice([n.randrange(91)] * 3 + [0]), n.choice([n.randrange(6000)] * 3 + [0])
    number = f"{degrees:02}{minutes:04}"[: 6 - left_out]
    to = "".join(row[i][int(number[i]) if i < len(number) else 10] for i in range(6))
    octets = bytes([
        n.randrange(38, 128), n.randrange(38, 98), n.randrange(28, 128),
        n.randrange(28, 128), n.randrange(28, 128), n.randrange(28, 128),
    ])
    altitude = n.choice(["", "]", ">", "`"]) + n.choice(["", '"4T}', '"7I}', "!!!}"])
    said = n.choice([altitude, "", feet(n)]) + channel(n) + words(n)
    return Heard(to.encode(), n.choice(b"``'").to_bytes(1, "big") + octets + n.choice(["j/", ">/", "k\\"]).encode()
                 + said.encode())


def passed_on(n: random.Random, frame: Heard) -> Heard:
    """As a gate passes it on, now and then with a letter of its destination too few or too many."""
    to = n.choice([frame.destination] * 4 + [frame.destination[1:], frame.destination + b"0"])
    way = n.choice([b"", b"-1", b"-15", b",TCPIP*", b"-2,TCPIP,WU2Z-10*", b"-A-1"])
    return Heard(b"APRS  ", b"}WU2Z-9>" + to + way + b":" + frame.info)


KINDS = [position] * 4 + [named, named, message, message, status, bare_weather, telemetry, telemetry, raw]


def heard(n: random.Random) -> Heard:
    """A random frame, one of ten with a damaged byte."""
    text = n.choice(KINDS)(n)
    if n.random() < 0.1:
        text = n.choice(["}WU2Z-1>APRS,TCPIP,N0CALL*:", "}WU2Z>APRS:", "}>:", "}WU2Z:", "}WU2Z>A"]) + text
    frame = Heard(b"APRS  ", text.encode("latin-1"))
    if n.random() < 0.1:
        frame = mic_e(n)
        if n.random() < 0.3:
            frame = passed_on(n, frame)
    info = bytearray(frame.info[:200])
    if n.random() < 0.1:
        info[n.randrange(len(info))] = n.randrange(256)
    return Heard(frame.destination, bytes(info))


# ---- logs


def ax25(frame: Heard) -> bytes:
    to = bytes(2 * byte for byte in frame.destination) + b"\x60"
    return to + bytes(2 * byte for byte in b"N0CALL") + b"\x61\x03\xf0" + frame.info


def log_line(moment: datetime.datetime, frame: Heard) -> str:
    escaped = ax25(frame).replace(b"\xdb", b"\xdb\xdd").replace(b"\xc0", b"\xdb\xdc")
    return f"{moment:%Y-%m-%dT%H:%M:%SZ} RX1 c000{escaped.hex()}c0\n"


def broken(n: random.Random, line: str) -> Tuple[str, str]:
    """The line with some damage, and for what a log with it is refused: nothing, where the line is
    passed over.
    """
    begin = len("2024-05-01T12:00:00Z RX1 c000")
    at = n.randrange(begin, len(line) - 4)
    return n.choice([
        (line[:at] + "g" + line[at + 1 :], "Hex"),
        (line[:at] + line[at + 1 :], "Hex"),
        (line[:10] + " " + line[11:], "Moment"),
        ("#" + line, "Moment"),
        ("\n", "Moment"),
        (line[:-3] + "\n", ""),
        (line[: begin + 1] + "3" + line[begin + 2 :], ""),
    ])
