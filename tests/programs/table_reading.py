"""What the columns of a table say of a frame, by the rules of docs/formats.md, sections "APRS reports",
"Mic-E" and "Table". For table.py, and written from these rules alone.
"""
from __future__ import annotations

import re
from fractions import Fraction
from typing import Dict, List, NamedTuple, Optional, Tuple

Line = Dict[str, str]
WIDTHS = {**{letter: 3 for letter in b"csgtrpPLl#"}, ord("h"): 2, ord("b"): 5}
VALUE = re.compile(rb"-?([0-9]+|[0-9]*\.[0-9]+)\Z")
STAMP = re.compile(rb"[0-9]{6}[z/h]")
ID = rb"[0-9A-Za-z]{1,5}"


# ---- numbers


def nearest(x: Fraction) -> int:
    """The whole number nearest to x, of two the greater."""
    return (2 * x.numerator + x.denominator) // (2 * x.denominator)


def with_decimals(parts: int, decimals: int) -> str:
    """So many parts, of which a one and as many noughts make 1."""
    whole, rest = divmod(abs(parts), 10**decimals)
    return f"{'-' if parts < 0 else ''}{whole}.{rest:0{decimals}}"


def degrees(angle: Fraction) -> str:
    parts = nearest(abs(angle) * 10**7)
    return with_decimals(-parts if angle < 0 else parts, 7)


def is_value(places: bytes) -> bool:
    return bool(re.match(rb"([0-9]+|\.+| +)\Z", places))


def known(places: bytes) -> Optional[int]:
    return int(places) if re.match(rb"[0-9]+\Z", places) else None


def told(number: Optional[int]) -> str:
    return "" if number is None else str(number)


def shown(text: bytes) -> str:
    return "".join(chr(b) if 0x20 <= b <= 0x7E and b != 0x5C else f"\\x{b:02x}" for b in text)


def is_base91(byte: int) -> bool:
    return 33 <= byte <= 123


# ---- what a comment says


def pair(text: bytes) -> Optional[Tuple[Optional[int], Optional[int], bytes]]:
    if len(text) >= 7 and text[3:4] == b"/" and is_value(text[:3]) and is_value(text[4:7]):
        return known(text[:3]), known(text[4:7]), text[7:]
    return None


def fields_of(text: bytes) -> Dict[str, bytes]:
    fields: Dict[str, bytes] = {}
    while text and text[0] in WIDTHS:
        places = text[1 : 1 + WIDTHS[text[0]]]
        below = text[:1] == b"t" and re.match(rb"-[0-9]*\Z", places)
        if len(places) < WIDTHS[text[0]] or not (is_value(places) or below):
            break
        fields.setdefault(chr(text[0]), places)
        text = text[1 + len(places) :]
    return fields


def weather(wind: Optional[Tuple[Optional[int], Optional[int]]], text: bytes) -> Line:
    """Of fields, with this wind, or with that of c and s."""
    fields = fields_of(text)

    def number(letter: str) -> Optional[int]:
        return known(fields.get(letter, b""))

    direction, speed = wind if wind is not None else (number("c"), number("s"))
    line = {
        "wind_from": told(direction if direction is not None and direction <= 360 else None),
        "wind_mph": told(speed),
        "gust_mph": told(number("g")),
        "rain_hour": told(number("r")),
        "rain_day": told(number("p")),
        "rain_midnight": told(number("P")),
        "humidity": told(100 if number("h") == 0 else number("h")),
        "pressure_tenths": told(number("b")),
    }
    temperature = fields.get("t", b"")
    if temperature.startswith(b"-"):
        line["temperature_f"] = str(-int(temperature[1:]))
    else:
        line["temperature_f"] = told(known(temperature))
    bright = number("l")
    line["luminosity"] = told(number("L"))
    if number("L") is None and bright is not None:
        line["luminosity"] = str(bright + 1000)
    return line


def of_plain(code: int, comment: bytes) -> Line:
    line: Line = {}
    numbers = pair(comment)
    if code == ord("_"):
        line.update(weather(numbers[:2], numbers[2]) if numbers else weather(None, comment))
    elif numbers:
        course, speed, _ = numbers
        line["course"] = told(course if course is not None and 1 <= course <= 360 else None)
        line["speed_knots"] = told(speed)
    miles = re.match(rb"RNG([0-9]{4})", comment)
    if miles:
        line["range_miles"] = with_decimals(int(miles[1]) * 100, 2)
    phg = re.match(rb"PHG([0-9])([0-9])([0-9])([0-8])", comment)
    if phg:
        root, height, gain, direction = (int(digit) for digit in phg.groups())
        line["phg_watts"] = str(root * root)
        line["phg_height_ft"] = str(10 * 2**height)
        line["phg_gain_db"] = str(gain)
        line["phg_direction"] = str(45 * direction)
    return line


def of_compressed(code: int, comment: bytes, cst: bytes) -> Line:
    line: Line = {}
    c, s, t = cst
    is_gga = max(t - 33, 0) // 8 % 4 == 2
    course: Optional[int] = None
    if 33 <= c <= 122 and not is_gga:
        course = 4 * (c - 33) or 360
        if code != ord("_"):
            line["course"] = str(course)
            if is_base91(s):
                line["speed_knots"] = str(nearest(Fraction(108, 100) ** (s - 33)) - 1)
    if code == ord("_"):
        numbers = pair(comment)
        line.update(weather(numbers[:2], numbers[2]) if numbers else weather((course, None), comment))
    if c == ord("{") and is_base91(s) and not is_gga:
        hundredths = nearest(200 * Fraction(108, 100) ** (s - 33))
        line["range_miles"] = with_decimals(hundredths, 2)
    if is_gga and is_base91(c) and is_base91(s):
        feet = nearest(Fraction(1002, 1000) ** (91 * (c - 33) + s - 33))
        line["altitude_m"] = with_decimals(feet * 3048, 4)
    if c != ord(" ") and is_base91(t):
        line["fix"] = "current" if (t - 33) // 32 % 2 == 1 else "old"
    return line


FREQUENCY = re.compile(rb"([0-9]{3})\.([0-9]{3}|[0-9]{2} )MHz(?: ([TCDtcd][0-9]{3}))?(?: ([+-][0-9]{3}))?")


def frequency(*begins: bytes) -> Line:
    """With which the first of these begins that begins with one."""
    for text in begins:
        found = FREQUENCY.match(text)
        if found:
            khz = int(found[1]) * 1000 + int(found[2].replace(b" ", b"0"))
            offset = "" if found[4] is None else str(int(found[4]) * 10)
            return {"frequency_khz": str(khz), "tone": (found[3] or b"").decode(), "offset_khz": offset}
    return {}


def after_extension(comment: bytes) -> bytes:
    is_one = pair(comment) or re.match(rb"RNG[0-9]{4}|PHG[0-9]{3}[0-8]", comment)
    return comment[7:] if is_one else b""


def measured(comment: bytes) -> Line:
    """Telemetry between two bars, the first that can be read."""
    for start in re.finditer(rb"\|", comment):
        inside = re.match(rb"([!-{]*)\|", comment[start.end() :])
        if not inside or len(inside[1]) not in (4, 6, 8, 10, 12, 14):
            continue
        pairs = zip(inside[1][::2], inside[1][1::2])
        numbers = [(high - 33) * 91 + low - 33 for high, low in pairs]
        names = ["telemetry_sequence", "a1", "a2", "a3", "a4", "a5"]
        line = dict(zip(names, map(str, numbers)))
        if len(numbers) == 7:
            line["bits"] = f"{numbers[6] % 256:08b}"[::-1]
        return line
    return {}


class Exact(NamedTuple):
    """Degrees north and east, and the halves of the globe that the letters name, also at 0."""

    north: Fraction
    east: Fraction
    is_south: bool
    is_west: bool


def finer(comment: bytes, at: Exact) -> Line:
    """Of a plain position without ambiguity, with one digit more."""
    more = re.search(rb"!W([0-9 ])([0-9 ])!|!w([!-{ ])([!-{ ])!", comment)
    if not more:
        return {}
    if more[1]:
        parts = [Fraction(int(digit.replace(b" ", b"0")), 60000) for digit in more.group(1, 2)]
    else:
        parts = [Fraction(0 if digit == b" " else digit[0] - 33, 546000) for digit in more.group(3, 4)]
    north = at.north + (-parts[0] if at.is_south else parts[0])
    east = at.east + (-parts[1] if at.is_west else parts[1])
    return {"finer_latitude": degrees(north), "finer_longitude": degrees(east)}


# ---- where something is


class Found(NamedTuple):
    """What a position has: its columns, the code of its symbol, c, s and T, and what follows it."""

    line: Line
    code: int
    cst: Optional[bytes]
    rest: bytes
    # where it is, of a plain position of which nothing is left out
    exact: Optional[Exact]


def angle(whole: bytes, minutes: bytes, ambiguity: int, most: int) -> Optional[int]:
    """Hundredths of minutes, of four digits of which the last ones may be left out."""
    told = minutes[: 4 - ambiguity]
    if not (told + b"0").isdigit() or not re.match(rb"[0-9 ]{4}\Z", minutes):
        return None
    number = int(told.ljust(4, b"0"))
    hundredths = int(whole) * 6000 + number
    return hundredths if number < 6000 and hundredths <= most else None


def placed(north: Fraction, east: Fraction, symbol: bytes) -> Line:
    return {"latitude": degrees(north), "longitude": degrees(east), "symbol": shown(symbol)}


def plain_place(at: bytes) -> Optional[Found]:
    parts = re.match(
        rb"([0-9]{2})(..)\.(..)([NS])([/\\0-9A-Z])([0-9]{3})(..)\.(..)([EW])([!-~])", at, re.DOTALL
    )
    if not parts:
        return None
    minutes = parts[2] + parts[3]
    ambiguity = len(minutes) - len(minutes.rstrip(b" "))
    north = angle(parts[1], minutes, ambiguity, 540000)
    east = angle(parts[6], parts[7] + parts[8], ambiguity, 1080000)
    if north is None or east is None:
        return None
    latitude = Fraction(-north if parts[4] == b"S" else north, 6000)
    longitude = Fraction(-east if parts[9] == b"W" else east, 6000)
    exact = Exact(latitude, longitude, parts[4] == b"S", parts[9] == b"W")
    line = placed(latitude, longitude, parts[5] + parts[10])
    line.update(compressed="no", ambiguity=str(ambiguity))
    return Found(line, parts[10][0], None, at[19:], None if ambiguity else exact)


def compressed_place(at: bytes) -> Optional[Found]:
    if len(at) < 13 or not 33 <= at[9] <= 126 or not all(is_base91(byte) for byte in at[1:9]):
        return None
    table = at[0] - 49 if ord("a") <= at[0] <= ord("j") else at[0]
    if not re.match(rb"[/\\0-9A-Z]", bytes([table])):
        return None
    y, x = 0, 0
    for i in range(4):
        y, x = y * 91 + at[1 + i] - 33, x * 91 + at[5 + i] - 33
    if max(y, x) > 68566680:
        return None
    latitude, longitude = Fraction(34283340 - y, 380926), Fraction(x - 34283340, 190463)
    line = placed(latitude, longitude, bytes([table, at[9]]))
    line["compressed"] = "yes"
    return Found(line, at[9], at[10:13], at[13:], None)


def place(at: bytes) -> Optional[Line]:
    """The columns of a position and of the comment after it."""
    found = plain_place(at) if at[:1].isdigit() else compressed_place(at)
    if not found:
        return None
    line, code, cst, comment, exact = found
    line.update(of_plain(code, comment) if cst is None else of_compressed(code, comment, cst))
    feet = re.search(rb"/A=([0-9]{6})", comment)
    if feet:
        line["altitude_m"] = with_decimals(int(feet[1]) * 3048, 4)
    line.update(frequency(comment, after_extension(comment)), **measured(comment))
    line.update(finer(comment, exact) if exact else {}, text=shown(comment))
    return line


# ---- what information reports


def position(info: bytes) -> Optional[Line]:
    stamped = info[:1] in (b"/", b"@")
    if info[:1] not in (b"!", b"=", b"/", b"@") or (stamped and not STAMP.match(info[1:])):
        return None
    line = place(info[8:] if stamped else info[1:])
    if line:
        line.update(kind="position", messaging="yes" if info[:1] in (b"=", b"@") else "no")
        line["stamp"] = info[1:8].decode() if stamped else ""
    return line


def named(info: bytes) -> Optional[Line]:
    """An object or an item."""
    it = re.match(rb";([ -~]{9})([*_])([0-9]{6}[z/h])", info)
    kind, stamp = "object", it[3].decode() if it else ""
    if not it:
        it = re.match(rb"\)([ -~]{3,9}?)([!_])", info)
        kind = "item"
        if not it or b"!" in it[1] or b"_" in it[1]:
            return None
    name = it[1].rstrip(b" ")
    line = place(info[it.end() :])
    if not line or not name:
        return None
    state = "killed" if it[2] == b"_" else "live"
    line.update(kind=kind, name=shown(name), state=state, stamp=stamp)
    return line


def message(info: bytes) -> Optional[Line]:
    """A message, an ack or a rej."""
    it = re.match(rb":([ -~]{9}):", info)
    name = it[1].rstrip(b" ") if it else b""
    if not it or not name:
        return None
    part = info[it.end() :].rstrip(b"\r\n")
    answer = re.match(rb"(ack|rej)(" + ID + rb")\Z", part)
    if answer:
        return {"kind": answer[1].decode(), "name": shown(name), "id": answer[2].decode()}
    numbered = re.match(rb"(.*)\{(" + ID + rb")\Z", part, re.DOTALL)
    text, number = (numbered[1], numbered[2].decode()) if numbered else (part, "")
    return {"kind": "message", "name": shown(name), "id": number, "text": shown(text)}


def status(info: bytes) -> Optional[Line]:
    if info[:1] != b">":
        return None
    stamp = re.match(rb">([0-9]{6}z)", info)
    text = info[stamp.end() :] if stamp else info[1:]
    line = {"kind": "status", "stamp": stamp[1].decode() if stamp else "", "text": shown(text)}
    line.update(frequency(text))
    return line


def telemetry(info: bytes) -> Optional[Line]:
    mic = re.match(rb"T#MIC,?", info)
    number = mic or re.match(rb"T#([0-9]+),", info)
    if not number:
        return None
    line = {"kind": "telemetry", "telemetry_sequence": "" if mic else number[1].decode()}
    left: Optional[bytes] = info[number.end() :]
    for column in ("a1", "a2", "a3", "a4", "a5"):
        if left is None:
            break
        value, comma, rest = left.partition(b",")
        if not VALUE.match(value):
            return None
        line[column] = value.decode()
        left = rest if comma else None
    bits = re.match(rb"[01]{8}", left or b"")
    line.update(bits=bits[0].decode() if bits else "", text=shown(info))
    return line


NUMBER = r"[0-9]{1,6}(?:\.[0-9]{1,6})?"
NORTH = re.compile(r"([0-9]{2})([0-5][0-9](?:\.[0-9]{1,6})?)\Z")
EAST = re.compile(r"([0-9]{3})([0-5][0-9](?:\.[0-9]{1,6})?)\Z")


def sentence(info: bytes) -> Line:
    """Of a sentence of a GPS receiver with a valid fix."""
    body, star, sent = info[1:].partition(b"*")
    checksum = 0
    for byte in body:
        checksum ^= byte
    if info[:1] != b"$" or (star and not re.match(b"(?i)%02x" % checksum, sent)):
        return {}
    name, *fields = body.decode("latin-1").split(",")
    place, valid, most = {"GPGGA": (1, 5, 10), "GPGLL": (0, 5, 6), "GPRMC": (2, 1, 8)}.get(name, (0, 0, 99))
    if len(fields) < most or not re.match(r"[1-9]\Z" if name == "GPGGA" else r"A\Z", fields[valid]):
        return {}
    north, east = NORTH.match(fields[place]), EAST.match(fields[place + 2])
    halves = fields[place + 1], fields[place + 3]
    if not north or not east or halves[0] not in ("N", "S") or halves[1] not in ("E", "W"):
        return {}
    angles = [int(it[1]) + Fraction(it[2]) / 60 for it in (north, east)]
    if angles[0] > 90 or angles[1] > 180:
        return {}
    line = {"latitude": degrees(-angles[0] if halves[0] == "S" else angles[0]),
            "longitude": degrees(-angles[1] if halves[1] == "W" else angles[1])}
    if name == "GPRMC":
        line.update(moving(fields[6], fields[7]))
    if name == "GPGGA" and fields[9] == "M" and re.match("-?" + NUMBER + r"\Z", fields[8]):
        parts = nearest(abs(Fraction(fields[8])) * 10**4)
        line["altitude_m"] = with_decimals(-parts if fields[8][0] == "-" else parts, 4)
    return line


def moving(knots: str, course: str) -> Line:
    line = {}
    if re.match(NUMBER + r"\Z", knots):
        line["speed_knots"] = str(nearest(Fraction(knots)))
    if re.match(NUMBER + r"\Z", course) and nearest(Fraction(course)) <= 360:
        line["course"] = str(nearest(Fraction(course)) or 360)
    return line


def other(info: bytes) -> Line:
    """Of information without a report."""
    if re.match(rb"_[0-9]{8}", info):
        return {"kind": "weather", "text": shown(info), **weather(None, info[9:])}
    return telemetry(info) or {"kind": "raw", "text": shown(info), **sentence(info)}


# ---- Mic-E

SAYS = ["off-duty", "en-route", "in-service", "returning", "committed", "special", "priority"]


def character(byte: int) -> Optional[Tuple[Optional[int], str]]:
    """What a character of the destination stands for: its digit, None for a space, and its row."""
    for first, space, row in ((b"0", b"L", "none"), (b"P", b"Z", "standard"), (b"A", b"K", "custom")):
        if first[0] <= byte <= first[0] + 9:
            return byte - first[0], row
        if byte == space[0]:
            return None, row
    return None


def says(rows: List[str]) -> str:
    number = sum(4 >> i for i, row in enumerate(rows) if row == "none")
    if number == 7:
        return "emergency"
    if "standard" in rows and "custom" in rows:
        return "unknown"
    return f"custom-{number}" if "custom" in rows else SAYS[number]


def mic_e_latitude(digits: List[Optional[int]]) -> Optional[Tuple[int, int]]:
    """Hundredths of minutes, and how many digits are left out."""
    known_ones = [digit for digit in digits if digit is not None]
    ambiguity = 6 - len(known_ones)
    if ambiguity > 4 or digits[: len(known_ones)] != known_ones:
        return None
    number = int("".join(map(str, known_ones)).ljust(6, "0"))
    hundredths = number // 10000 * 6000 + number % 10000
    return (hundredths, ambiguity) if number % 10000 < 6000 and hundredths <= 540000 else None


def mic_e_numbers(octets: bytes, is_offset: bool) -> Optional[Tuple[int, int, int]]:
    """Longitude in hundredths of minutes, knots and course, of octets 2 to 7."""
    d, m, h, sp, dc, se = (octet - 28 for octet in octets)
    if not (10 <= d <= 99 and 10 <= m <= 69 and all(0 <= it <= 99 for it in (h, sp, dc, se))):
        return None
    d += 100 if is_offset else 0
    d -= 190 if d >= 190 else 80 if d >= 180 else 0
    m -= 60 if m >= 60 else 0
    east, knots, course = d * 6000 + m * 100 + h, sp * 10 + dc // 10, dc % 10 * 100 + se
    knots -= 800 if knots >= 800 else 0
    course -= 400 if course >= 400 else 0
    return (east, knots, course) if course <= 360 and east <= 1079999 else None


def mic_e_altitude(comment: bytes) -> str:
    coded = re.match(rb"[>\]`']?([!-{]{3})\}", comment)
    first = re.match(rb"([!-{]{3})\}", comment)
    digits = first or coded
    if digits:
        a, b, c = (byte - 33 for byte in digits[1])
        return with_decimals((a * 8281 + b * 91 + c - 10000) * 10000, 4)
    feet = re.search(rb"/A=([0-9]{6})", comment)
    return with_decimals(int(feet[1]) * 3048, 4) if feet else ""


def is_marked(comment: bytes) -> bool:
    return comment[:1] in (b">", b"]", b"`", b"'")


def after_altitude(text: bytes) -> bytes:
    return text[4:] if re.match(rb"[!-{]{3}\}", text) else text


def mic_e(destination: bytes, info: bytes) -> Optional[Line]:
    found = [character(byte) for byte in destination]
    if len(found) != 6 or len(info) < 9 or info[:1] not in (b"`", b"'"):
        return None
    if not re.match(rb"[!-~][/\\0-9A-Z]", info[7:9]):
        return None
    characters = [it for it in found if it is not None]
    if len(characters) != 6 or "custom" in [row for _, row in characters[3:]]:
        return None
    rows = [row for _, row in characters]
    latitude = mic_e_latitude([digit for digit, _ in characters])
    numbers = mic_e_numbers(info[1:7], rows[4] == "standard")
    if latitude is None or numbers is None:
        return None
    north, ambiguity = latitude
    east, knots, course = numbers
    latitude_is = Fraction(north if rows[3] == "standard" else -north, 6000)
    longitude_is = Fraction(-east if rows[5] == "standard" else east, 6000)
    line = placed(latitude_is, longitude_is, info[8:9] + info[7:8])
    comment = info[9:]
    line.update(frequency(after_altitude(comment), after_altitude(comment[is_marked(comment) :])))
    exact = Exact(latitude_is, longitude_is, rows[3] != "standard", rows[5] == "standard")
    line.update(measured(comment), **({} if ambiguity else finer(comment, exact)))
    line.update(kind="mic-e", compressed="no", ambiguity=str(ambiguity))
    line.update(course=str(course) if course else "", speed_knots=str(knots))
    line.update(altitude_m=mic_e_altitude(info[9:]), says=says(rows[:3]), text=shown(info[9:]))
    line["fix"] = "current" if info[:1] == b"`" else "old"
    return line


# ---- all of it


def reading(destination: bytes, info: bytes) -> Line:
    """What the columns say of a frame to this destination, those that have something to say."""
    passed = re.match(rb"\}([^:>]*)>([^:,]*),?([^:]*):", info, re.DOTALL)
    if passed:
        inner = info[passed.end() :]
        line = report(inner) or mic_e(passed[2].split(b"-")[0], inner) or other(inner)
        line.update(source=shown(passed[1]), destination=shown(passed[2]))
        line.update(via=shown(passed[3]), gate="N0CALL")
        return line
    return report(info) or mic_e(destination, info) or other(info)


def report(info: bytes) -> Optional[Line]:
    return position(info) or named(info) or message(info) or status(info)
