#!/usr/bin/env python3
"""Compares the table of random messages and answers, one line each, with a reading of its own, by the rules of
docs/formats.md, sections "Reports" and "Table". The same words give the same conversation.

usage: replies.py PROGRAM [COUNT [SEED]]   PROGRAM is aprsbook-table; 2,000 frames without a COUNT
"""
from __future__ import annotations

import datetime
import random
import re
import subprocess
import sys
import tempfile
from typing import Dict, List, NamedTuple, Optional, Tuple

import net_messages

START = datetime.datetime(2024, 5, 1)
STEP = datetime.timedelta(seconds=7)
CALLS = ["N0CALL-7", "N0CALL-8", "WU2Z"]
ANSWER = re.compile(r"(ack|rej)([A-Za-z0-9]{1,5})\Z")
WITH_ID = re.compile(r"(.*)\{([A-Za-z0-9]{1,5})\Z", re.DOTALL)
WITH_NUMBER = re.compile(r".*\{([A-Za-z0-9]{1,2})\}([A-Za-z0-9]{0,2})\Z", re.DOTALL)
REPLY_ACK = re.compile(r"ack([A-Za-z0-9]{1,2})\}[A-Za-z0-9]{0,2}\Z")

Key = Tuple[str, str, str, Optional[str]]


class Heard(NamedTuple):
    """What was heard: when, from whom, to whom, and what."""
    moment: str
    source: str
    to: str
    part: str


# ---- a conversation


def number(n: random.Random) -> str:
    return n.choice(["1", "2", "19", "AB", "zz"] * 3 + ["", "123", "1-"])


def text(n: random.Random) -> str:
    body = n.choice(["Hi", "Yes", "", "a{1", "ack"])
    said = n.choice([
        "{body}", "{body}{{{a}", "{body}{{{a}}}", "{body}{{{a}}}{b}", "ack{a}", "rej{a}", "ack{a}}}",
        "ack{a}}}{b}", "rej{a}}}{b}", "Ack{a}}}", "{body}{{{a}}}{b}{{1", "({a}}}{b}", "{body}{{{a})"])
    return said.format(body=body, a=number(n), b=number(n)) + n.choice(["", "", "\r"])


def conversation(n: random.Random, count: int) -> List[Heard]:
    heard = []
    for i in range(count):
        source, to = n.sample(CALLS, 2)
        if n.random() < 0.05:
            to = n.choice(["BLN1", source])
        heard.append(Heard(f"{START + i * STEP:%Y-%m-%dT%H:%M:%S.000Z}", source, to, text(n)))
    return heard


def log_line(it: Heard) -> str:
    call, _, ssid = it.source.partition("-")
    sender = bytes(2 * byte for byte in call.ljust(6).encode()) + bytes([0x61 + 2 * int(ssid or 0)])
    frame = bytes(2 * byte for byte in b"APRS  ") + b"\x60" + sender + b"\x03\xf0"
    frame += f":{it.to:9}:{it.part}".encode()
    return f"{it.moment} RX1 c000{frame.hex()}c0\n"


# ---- its reading


def answered_by(key: Key, it: Heard) -> bool:
    """Whether the frame acknowledges or rejects the message's id."""
    answer = ANSWER.match(it.part.rstrip("\r\n"))
    return answer is not None and (it.source, it.to, answer[2]) == (key[1], key[0], key[3])


def acknowledged(part: str) -> Optional[str]:
    """The number that a frame acknowledges by a reply-ack."""
    if ANSWER.match(part) or WITH_ID.match(part):
        return None
    ack, numbered = REPLY_ACK.match(part), WITH_NUMBER.match(part)
    return ack[1] if ack else numbered[2] if numbered and numbered[2] else None


def last(moments: List[str], first: str) -> str:
    return moments[-1] if moments and moments[-1] >= first else ""


def line_of(key: Key, heard: List[Heard], moments: List[str]) -> Dict[str, str]:
    source, to, said, id_ = key
    answers = [it for it in heard if answered_by(key, it)] if id_ else []
    answer = last([it.moment for it in answers], moments[0])
    state = "unnumbered" if id_ is None else "unanswered"
    if answer:
        state = "rejected" if answers[-1].part.startswith("rej") else "acknowledged"
    numbered = None if id_ else WITH_NUMBER.match(said)
    reply = last([it.moment for it in heard if numbered and (it.source, it.to) == (to, source)
                  and acknowledged(it.part.rstrip("\r\n")) == numbered[1]], moments[0])
    number, decides = net_messages.number_of(said, id_), answer or reply
    return {
        "gate": "", "class": net_messages.class_of(to, said, id_), "number": number,
        "outcome": "unnumbered" if not number else state if id_ else "acknowledged" if reply else "unanswered",
        "outcome_moment": decides, "source": source, "addressee": to, "id": id_ or "", "text": said, "state": state,
        "first": moments[0], "last": moments[-1], "answer": answer,
        "answer_source": to if answer else "",
        "reply_ack": "" if not numbered else "acknowledged" if reply else "unanswered",
        "reply_answer": reply}


def reading(heard: List[Heard]) -> List[Dict[str, str]]:
    messages: Dict[Key, List[str]] = {}
    for it in heard:
        part = it.part.rstrip("\r\n")
        if not ANSWER.match(part):
            numbered = WITH_ID.match(part)
            said, id_ = (numbered[1], numbered[2]) if numbered else (part, None)
            messages.setdefault((it.source, it.to, said, id_), []).append(it.moment)
    return [line_of(key, heard, moments) for key, moments in messages.items()]


# ---- both compared


def table_of(program: str, heard: List[Heard]) -> List[Dict[str, str]]:
    with tempfile.NamedTemporaryFile("w", suffix=".log") as log:
        log.writelines(map(log_line, heard))
        log.flush()
        run = [program, "messages", "--message-gap", "0", log.name]
        header, *rows = subprocess.run(
            run, stdout=subprocess.PIPE, check=True).stdout.decode("ascii").split("\n")[:-1]
    names = header.split("\t")
    return [dict(zip(names, row.split("\t"))) for row in rows]


def main() -> None:
    program = sys.argv[1]
    count = int(sys.argv[2]) if len(sys.argv) > 2 else 2000
    n = random.Random(int(sys.argv[3]) if len(sys.argv) > 3 else 1)
    heard = conversation(n, count)
    order = ["source", "addressee", "text", "id"]
    given, wanted = ([tuple(sorted(line.items())) for line in
                      sorted(lines, key=lambda line: [line[name] for name in order])]
                     for lines in (table_of(program, heard), reading(heard)))
    for line, other in zip(given, wanted):
        if line != other:
            sys.exit(f"replies.py: {dict(line)}, and not {dict(other)}")
    if len(given) != len(wanted):
        sys.exit(f"replies.py: {len(given)} messages, and not {len(wanted)}")
    print(f"the messages of {count} random frames are as the formats tell")


if __name__ == "__main__":
    main()
