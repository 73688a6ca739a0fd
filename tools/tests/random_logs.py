"""Random logs of three receivers, with texts and names as nobody should send them."""
import random
from typing import List

from aprsbook_tools.formats import ax25, kiss, log_file, moments

# as they are sent; a byte that is no UTF-8 stands as a surrogate
TEXTS = [
    "",
    "ok",
    "=1+1",
    "-5",
    "'=x",
    'a "b", c',
    "Käppeli ☂",
    "a\\b",
    "a\\xe9b",
    "<b>&amp;",
    " lead",
    "@me",
    "a\tb\x07",
    "\u202eright",
    "+1",
    "x" * 40,
    "caf\udce9",
    "\udcc3",
    "\udcc3\udca4\udca4ä",
    "\udced\udca0\udc80",
    "\udcf5\udc80\udc80\udc80",
    "\x1b[31mred",
    "a\u200bb\u00a0c\u00ad",
    "\u2028\u2029",
    "\ufeff\ufffd\uffff",
    "\U0001f3c3\u200d\u2642\ufe0f",
    "\U000e0041\u0378",
    "cr\r",
]
CALLS = ["Q1A", "Q1A-7", "Q1B", "Q1B-15", "Q1NET"]
NAMES = ["CP 1", "LEADER", "=A", "<x>", "ü", "-1", "'", "a\udce9b", "\u202ex", "\x1b[2J", "a,b"]
NORTH = ["0000.00N", "5430.00N", "1215.50S", "5430.  N", "543 .  N", "9000.00N"]
EAST = ["00000.00E", "17959.94E", "17959.94W", "18000.00W", "00330.00W", "00315.00E"]
# seconds by which the receivers' clocks may be wrong: none of two that lie from 7 to 500 apart
AHEAD = [0.0, 0.0, 0.4, 5.0, 600.0, -3600.0, 7200.0]
BEGIN = moments.milliseconds("2024-06-21T12:00:00Z")


def spot(some: random.Random) -> str:
    """A position, perhaps with digits left out."""
    return some.choice(NORTH) + some.choice("/\\A") + some.choice(EAST) + some.choice(">k_")


def information(some: random.Random, number: int) -> bytes:
    """A report of any kind; most have their number, and aren't sent again."""
    text = some.choice(TEXTS)
    own = some.choice([f" {number}", f" {number}", ""])
    name = some.choice(NAMES).encode("utf-8", "surrogateescape")[:9].ljust(9)
    to = some.choice([*CALLS, "BLN1", "NWS-X", "Q1GONE"]).ljust(9)
    forms = [
        f"!{spot(some)}{text}{own}",
        f"!{spot(some)}088/036/A=001000{text}{own}",
        f"={some.choice(['/5L!!<*e7>7P[', chr(92) + 'YYYYzzzz> !'])}{text}{own}",
        f">{text}{own}",
        f":{to}:{text}{own}{some.choice(['', '{7', f'{{{number}'])}",
        f":{to}:{some.choice(['ack7', 'rej7', f'ack{number - 1}'])}",
        f"_10090556c220s004g005t077{own}",
        f"T#{number:03},199,000,255,073,123,01101001",
    ]
    kind = some.randrange(len(forms) + 2)
    if kind < len(forms):
        return forms[kind].encode("utf-8", "surrogateescape")
    if kind == len(forms):
        head = b";" + name + some.choice([b"*", b"_"]) + b"211200z"
    else:
        head = b")" + name.rstrip()[:9].ljust(3) + some.choice([b"!", b"_"])
    return head + f"{spot(some)}{text}{own}".encode("utf-8", "surrogateescape")


def log_of(some: random.Random) -> bytes:
    """A log of receivers whose clocks may be wrong, of frames that each hears or doesn't."""
    ears = {name: some.choice(AHEAD) for name in ("RX1", "RX2", "RX3")}
    lines: List[bytes] = []
    for number in range(1, some.randrange(2, 30)):
        frame = kiss.wrap(ax25.frame(some.choice(CALLS), "APRS", information(some, number)))
        # at least a minute apart, perhaps at a whole second, as imported logs have it
        at = BEGIN + 70_000 * number + some.choice([0, some.randrange(10_000)])
        for name, ahead in ears.items():
            if some.random() < 0.8:
                moment = at + round(1000 * ahead) + some.choice([0, 0, some.randrange(400)])
                lines.append(log_file.of_frame(moment, name, frame).write())
    some.shuffle(lines)
    return b"".join(lines)
