#!/usr/bin/env python3
"""Compares when stations of random nets were last heard, and how many frames of others they passed on, with a reading
of its own, by the rules of docs/formats.md, section "Table".

usage: activity.py PROGRAM [COUNT [SEED]]   PROGRAM is aprsbook-table; 100 nets without a COUNT
"""
from __future__ import annotations

import random
import subprocess
import sys
import tempfile
from typing import Dict, List, Tuple

import net_messages
from net_messages import Sent

Activity = Tuple[int, str, int]


def reading(sent: List[Sent]) -> Dict[str, Activity]:
    """Of each station how many transmissions it has, when it was last heard, and how many it passed on."""
    moments: Dict[str, List[int]] = {}
    transmissions: Dict[str, int] = {}
    passed: Dict[str, int] = {}
    for key in {it._replace(moment=0) for it in sent}:
        station, last = key.gate or key.source, None
        for moment in sorted(it.moment for it in sent if it._replace(moment=0) == key):
            if last is None or moment > last + net_messages.BOOK_GAP:
                transmissions[station] = transmissions.get(station, 0) + 1
                passed[station] = passed.get(station, 0) + bool(key.gate)
            last = moment
            moments.setdefault(station, []).append(moment)
    return {it: (transmissions[it], net_messages.moment_text(max(moments[it])), passed[it]) for it in moments}


def table_of(program: str, sent: List[Sent]) -> Dict[str, Activity]:
    with tempfile.NamedTemporaryFile("w", suffix=".log") as log:
        log.writelines(map(net_messages.log_line, sent))
        log.flush()
        run = [program, "stations", log.name]
        header, *rows = subprocess.run(run, stdout=subprocess.PIPE, check=True).stdout.decode("ascii").split("\n")[:-1]
    lines = [dict(zip(header.split("\t"), row.split("\t"))) for row in rows]
    return {it["source"]: (int(it["transmissions"]), it["heard"], int(it["passed"])) for it in lines}


def main() -> None:
    program = sys.argv[1]
    count = int(sys.argv[2]) if len(sys.argv) > 2 else 100
    n = random.Random(int(sys.argv[3]) if len(sys.argv) > 3 else 1)
    for _ in range(count):
        sent = net_messages.net(n)
        given, wanted = table_of(program, sent), reading(sent)
        if given != wanted:
            sys.exit(f"activity.py: {given}, and not {wanted}, of {sent}")
    print(f"the stations of {count} random nets are as active as the formats tell")


if __name__ == "__main__":
    main()
