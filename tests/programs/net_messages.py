#!/usr/bin/env python3
"""Compares the table of the messages of random nets with a reading of its own, by the rules of
docs/formats.md, section "Table". Nets have gates, repeats, weeks between, reply-acks and wrong clocks.

usage: net_messages.py PROGRAM [COUNT [SEED]]   PROGRAM is aprsbook-table; 200 nets without a COUNT
"""
from __future__ import annotations

import datetime
import random
import re
import subprocess
import sys
import tempfile
from typing import Dict, List, NamedTuple, Optional, Tuple

START = datetime.datetime(2026, 11, 29, 12)
CALLS = ["N0CALL-7", "N0CALL-10", "WU2Z"]
GATE = "GATE-1"
NO_CALL = "lower"
ANSWER = re.compile(r"(ack|rej)([A-Za-z0-9]{1,5})\Z")
WITH_ID = re.compile(r"(.*)\{([A-Za-z0-9]{1,5})\Z", re.DOTALL)
WITH_NUMBER = re.compile(r".*\{([A-Za-z0-9]{1,2})\}([A-Za-z0-9]{0,2})\Z", re.DOTALL)
REPLY_ACK = re.compile(r"ack([A-Za-z0-9]{1,2})\}[A-Za-z0-9]{0,2}\Z")
BOOK_GAP = 30_000
COLUMNS = ["source", "addressee", "id", "text", "state", "first", "last", "answer", "answer_source", "reply_ack",
           "reply_answer", "gate", "class", "number", "outcome", "outcome_moment"]


class Sent(NamedTuple):
    """What was on the air: when, in milliseconds; from whom; by which gate, or none; to whom; what."""
    moment: int
    source: str
    gate: str
    to: str
    part: str


# ---- random nets


def part(n: random.Random) -> str:
    number, other = n.choice(["1", "2", "19"]), n.choice(["", "1", "2", "19"])
    return n.choice([
        "Hi", f"Hi{{{number}", f"Hi{{{number}", f"Hi{{{number}}}", f"Hi{{{number}}}{other}", f"Hi{{{number}}}{other}",
        f"ack{number}", f"ack{number}", f"ack{number}", f"rej{number}", f"ack{number}}}", f"ack{number}}}{other}",
        "?APRSD", "?PING?", "?", "PARM.a,b", "EQNS.0", "PARM", "UNIT.V{1"])


def net(n: random.Random) -> List[Sent]:
    sent, moment = [], 0
    for _ in range(n.randrange(5, 40)):
        moment += n.choice([0, 1, 999, 5_000, 29_999, 30_000, 30_001, 60_000, 1_799_999, 1_800_000, 1_800_001, 3_600_000,
                            14 * 86_400_000])
        source, to = n.sample(CALLS, 2)
        to = n.choice([to] * 8 + ["BLN1", "BLNA", "BLN1WX", "NWS-WARN", "N0CALL", NO_CALL, source])
        gate = n.choice(["", "", "", GATE, "WU2Z"])
        if gate and n.random() < 0.05:
            source = NO_CALL
        it = Sent(moment + n.choice([0, 0, 0, -1_500]) + 10_000, source, gate, to, part(n))
        sent += [it] * n.choice([1, 1, 2])
        if n.random() < 0.4:
            later = it.moment + n.choice([10, 29_000, 40_000, 1_700_000, 1_860_000])
            sent.append(it._replace(moment=later, gate=n.choice([it.gate, GATE])))
    return [it for it in sent if it.gate or it.source != NO_CALL]


def moment_text(moment: int) -> str:
    at = START + datetime.timedelta(milliseconds=moment)
    return f"{at:%Y-%m-%dT%H:%M:%S}.{at.microsecond // 1000:03}Z"


def address(call: str, last: int) -> bytes:
    letters, _, ssid = call.partition("-")
    return bytes(2 * byte for byte in letters.ljust(6).encode()) + bytes([0x60 + 2 * int(ssid or 0) + last])


def log_line(it: Sent) -> str:
    info = f":{it.to:9}:{it.part}"
    if it.gate:
        info = f"}}{it.source}>APRS,TCPIP,{it.gate}*:{info}"
    frame = address("APRS", 0) + address(it.gate or it.source, 1) + b"\x03\xf0" + info.encode()
    return f"{moment_text(it.moment)} RX1 c000{frame.hex()}c0\n"


# ---- their reading


class Row(NamedTuple):
    """Copies of one frame that the book has as one row."""
    first: int
    last: int
    said: Sent


def rows_of(sent: List[Sent]) -> List[Row]:
    rows: List[Row] = []
    for key in {it._replace(moment=0) for it in sent}:
        moments = sorted({it.moment for it in sent if it._replace(moment=0) == key})
        first = last = moments[0]
        for moment in moments[1:]:
            if moment > last + BOOK_GAP:
                rows.append(Row(first, last, key))
                first = moment
            last = moment
        rows.append(Row(first, last, key))
    return [row for row in rows if row.said.source != NO_CALL]


Message = Tuple[str, str, str, Optional[str]]


def message_of(it: Sent) -> Optional[Message]:
    if ANSWER.match(it.part):
        return None
    numbered = WITH_ID.match(it.part)
    text, id_ = (numbered[1], numbered[2]) if numbered else (it.part, None)
    return it.source, it.to, text, id_


def answer_of(it: Sent) -> Optional[Tuple[str, str, str]]:
    """What a frame answers: how, which number, and the state by it."""
    plain, ack, numbered = ANSWER.match(it.part), REPLY_ACK.match(it.part), WITH_NUMBER.match(it.part)
    if plain:
        return "plain", plain[2], "rejected" if plain[1] == "rej" else "acknowledged"
    if WITH_ID.match(it.part):
        return None
    number = ack[1] if ack else numbered[2] if numbered else ""
    return ("reply", number, "acknowledged") if number else None


def class_of(to: str, text: str, id_: Optional[str]) -> str:
    if re.match("BLN[0-9]", to):
        return "bulletin"
    if re.match("BLN[A-Z]", to):
        return "announcement"
    if to.startswith("NWS-"):
        return "weather-bulletin"
    if text.startswith(("PARM.", "UNIT.", "EQNS.", "BITS.")):
        return "telemetry"
    if text.startswith(("?APRS", "?PING?")):
        return "query"
    return "answer" if id_ is None and REPLY_ACK.match(text) else "message"


def number_of(text: str, id_: Optional[str]) -> str:
    numbered = WITH_NUMBER.match(text)
    return id_ or (numbered[1] if numbered else "")


Answer = Optional[Tuple[int, str]]


def first_answer(rows: List[Row], message: Message, start: int, until: Optional[int], how: str) -> Answer:
    source, to, text, id_ = message
    found = []
    for row in rows:
        answer = answer_of(row.said)
        if answer and answer[:2] == (how, number_of(text, id_)) and (row.said.source, row.said.to) == (to, source):
            if start <= row.first and (until is None or row.first < until):
                found.append((row.first, answer[2]))
    return min(found, default=None)


def line_of(rows: List[Row], message: Message, run: List[Tuple[int, str, int]], until: Optional[int]) -> Dict[str, str]:
    source, to, text, id_ = message
    number, start = number_of(text, id_), run[0][0] - BOOK_GAP
    plain, reply = (first_answer(rows, message, start, until, how) if number else None for how in ("plain", "reply"))
    best = min((it for it in (plain, reply) if it), key=lambda it: it[0], default=None)
    by_id = plain if id_ else None
    return dict(zip(COLUMNS, [
        source, to, id_ or "", text, (by_id[1] if by_id else "unanswered") if id_ else "unnumbered",
        moment_text(run[0][0]), moment_text(max(last for _, _, last in run)),
        moment_text(by_id[0]) if by_id else "", to if by_id else "",
        "" if id_ or not number else "acknowledged" if reply else "unanswered",
        moment_text(reply[0]) if reply and not id_ else "", run[0][1], class_of(to, text, id_), number,
        (best[1] if best else "unanswered") if number else "unnumbered", moment_text(best[0]) if best else ""]))


def call_order(call: str) -> Tuple[str, int]:
    letters, _, ssid = call.partition("-")
    return letters, int(ssid or 0)


def reading(sent: List[Sent], message_gap: int) -> List[Dict[str, str]]:
    rows = rows_of(sent)
    copies: Dict[Message, List[Tuple[int, str, int]]] = {}
    for row in rows:
        message = message_of(row.said)
        if message:
            copies.setdefault(message, []).append((row.first, row.said.gate, row.last))
    lines = []
    for message in sorted(copies, key=lambda it: (call_order(it[0]), it[1], it[2], it[3] or "")):
        runs: List[List[Tuple[int, str, int]]] = []
        for copy in sorted(copies[message], key=lambda it: (it[0], it[1] and call_order(it[1]) or ("", 0), it[2])):
            if runs and copy[0] <= max(last for _, _, last in runs[-1]) + message_gap:
                runs[-1].append(copy)
            else:
                runs.append([copy])
        begins = [run[0][0] for run in runs[1:]]
        lines += [line_of(rows, message, run, until) for run, until in zip(runs, [*begins, None])]
    return lines


# ---- both compared


def table_of(program: str, sent: List[Sent], message_gap: int) -> List[Dict[str, str]]:
    with tempfile.NamedTemporaryFile("w", suffix=".log") as log:
        log.writelines(map(log_line, sent))
        log.flush()
        run = [program, "messages", "--message-gap", str(message_gap), log.name]
        header, *rows = subprocess.run(run, stdout=subprocess.PIPE, check=True).stdout.decode("ascii").split("\n")[:-1]
    return [dict(zip(header.split("\t"), row.split("\t"))) for row in rows]


def main() -> None:
    program = sys.argv[1]
    count = int(sys.argv[2]) if len(sys.argv) > 2 else 200
    n = random.Random(int(sys.argv[3]) if len(sys.argv) > 3 else 1)
    for _ in range(count):
        sent, message_gap = net(n), n.choice([1, 60, 1800, 1800, 3600])
        given, wanted = table_of(program, sent, message_gap), reading(sent, message_gap * 1000)
        for line, other in zip(given, wanted):
            if line != other:
                differ = [name for name in COLUMNS if line.get(name) != other[name]]
                sys.exit(f"net_messages.py: {differ} of {line}, and not {other}, of {sent}")
        if len(given) != len(wanted):
            sys.exit(f"net_messages.py: {len(given)} messages, and not {len(wanted)}, of {sent}")
    print(f"the messages of {count} random nets are as the formats tell")


if __name__ == "__main__":
    main()
