#!/usr/bin/env python3
"""Tries each function of the library for C: in regions of every size, in rooms of every size, with
faults, with arguments that ask for no run, and without inputs.

usage: tests/library/exports.py LIBRARY     LIBRARY is such as out/libaprsbook.so
"""
import ctypes
import sys
from typing import Any, List, Sequence, Set, Tuple, Union

FRAME = "82a0a4a64040e09c60868298986f03f03e4869"
KISS = bytes.fromhex(f"c000{FRAME}c0")
FIRST, LAST = "2024-05-01T12:00:00", "2024-05-01T12:00:05"
HERE = f"{FIRST}Z RX1 c000{FRAME}c0\n".encode()
THERE = f"{LAST}Z RX2 c000{FRAME}c0\n".encode()
LOG = f"{FIRST}.000Z RX1 c000{FRAME}c0\n".encode()
TWICE = HERE + b"x\n"


def book(gap: int, rows: List[str]) -> bytes:
    lines = [f"APRSBOOK 3 {gap}", *(f"T {row} {FRAME}" for row in rows), f"END {len(rows)}"]
    return "".join(line + "\n" for line in lines).encode()


HEARD_HERE = f"{FIRST}.000Z {FIRST}.000Z RX1 RX1"
HEARD_BY_BOTH = f"{FIRST}.000Z {LAST}.000Z RX1,RX2 RX2"
HEARD_THERE = f"{LAST}.000Z {LAST}.000Z RX2 RX2"
LISTING = f"station N0CALL-7 1\nstatus {LAST}.000Z RX2 -:Hi\n".encode()
HISTORY = f"status {FIRST}.000Z {LAST}.000Z RX1,RX2 N0CALL-7 - -:Hi\n".encode()
COLUMNS = ("kind first last receivers receiver source destination via gate name state id latitude"
           " longitude ambiguity compressed symbol stamp course speed_knots altitude_m wind_from"
           " wind_mph gust_mph temperature_f rain_hour rain_day rain_midnight humidity"
           " pressure_tenths luminosity telemetry_sequence a1 a2 a3 a4 a5 bits says text").split()
ROW = {"kind": "status", "first": f"{FIRST}.000Z", "last": f"{LAST}.000Z", "receivers": "RX1,RX2",
       "receiver": "RX2", "source": "N0CALL-7", "destination": "APRS", "text": "Hi"}
WORD = ctypes.c_uint64
SIZE = ctypes.c_size_t
PLENTY = 65536
BEFORE = 0xA5

Argument = Union[int, bytes, List[int]]  # a word, a text, or lengths
Numbers = Tuple[int, ...]  # of an answer: status, input, line, written, named


class Region(ctypes.Structure):
    _fields_ = [("start", ctypes.c_void_p), ("units", SIZE)]


class Answer(ctypes.Structure):
    _fields_ = [(field, WORD) for field in ("status", "input", "line", "written", "named")]


LIBRARY = ctypes.CDLL(sys.argv[1])
MEMORY = ctypes.create_string_buffer(16 * PLENTY + 64)
START = ctypes.addressof(MEMORY) + -ctypes.addressof(MEMORY) % 16
faults = 0


def expect(is_so: bool, *words: object) -> None:
    global faults
    if not is_so:
        print("tests/library/exports.py:", *words, file=sys.stderr)
        faults += 1


def call(function: str, arguments: Sequence[Argument], units: int = PLENTY, room: int = 4096,
         name_room: int = 16) -> Tuple[Numbers, bytes, bytes]:
    """(status, input, line, written, named), the output's room and the name's after the call."""
    run = getattr(LIBRARY, function)
    run.restype = Answer
    # what stands behind the region, the output and the name has to stay
    ctypes.memset(START, 0, 16 * units)
    ctypes.memset(START + 16 * units, BEFORE, 32)
    output = ctypes.create_string_buffer(bytes([BEFORE]) * (room + 16), room + 16)
    name = ctypes.create_string_buffer(bytes([BEFORE]) * (name_room + 16), name_room + 16)
    given: List[Any] = [Region(START, units)]
    for argument in arguments:
        if isinstance(argument, int):
            given.append(WORD(argument))
        elif isinstance(argument, list):
            given += [(SIZE * max(len(argument), 1))(*argument), SIZE(len(argument))]
        else:
            given += [argument, SIZE(len(argument))]
    it = run(*given, output, SIZE(room), name, SIZE(name_room))
    behind = ctypes.string_at(START + 16 * units, 32)
    expect(behind == bytes([BEFORE]) * 32, function, "wrote behind a region of", units)
    return (it.status, it.input, it.line, it.written, it.named), output.raw, name.raw


def stands(raw: bytes, room: int, text: bytes, what: str) -> None:
    """The text stands first in the room and nothing else was written, or it has no room."""
    kept = text if len(text) <= room else b""
    expect(raw == kept + bytes([BEFORE]) * (room + 16 - len(kept)), what, "room", room)


def try_rooms(function: str, arguments: Sequence[Argument], wanted: bytes, place: Numbers = (0,
              0, 0), fault: bytes = b"") -> None:
    """A run with room for all of it, and with every smaller room."""
    told = (*place, len(wanted), len(fault))
    for room in [4096, *range(len(wanted) + 2)]:
        answer, output, name = call(function, arguments, room=room)
        expect(answer == told, function, "answers", answer, "and not", told)
        stands(output, room, wanted, function)
        stands(name, 16, fault, function)
    for room in range(len(fault) + 2):
        answer, _, name = call(function, arguments, name_room=room)
        expect(answer == told, function, "answers", answer)
        stands(name, room, fault, function)


def try_memory(function: str, arguments: Sequence[Argument], wanted: bytes) -> Tuple[int, Set[int]]:
    """Each size of the region up to one in which the run goes well, which refuses each growth."""
    seen: Set[int] = set()
    for units in range(PLENTY):
        answer, output, name = call(function, arguments, units)
        status, written = answer[0], answer[3]
        seen.add(status)
        if status == 0:
            expect(answer == (0, 0, 0, len(wanted), 0), function, "answers", answer)
            stands(output, 4096, wanted, function)
            break
        expect(status in (3, 4), function, "ends with", status, "at", units)
        expect(status == 3 or written == 0, function, "writes at status 4")
        stands(output, 4096, wanted[:written], function)
        expect(name[:answer[4]] in (b"", b"Memory", b"out of memory"), function, "names", name)
    expect(3 in seen or not wanted, function, "never lacks room for its output")
    expect(0 in seen, function, "needs more than there is")
    # a larger region does no harm, and the memory can be given again
    for units in (units + 1, PLENTY):
        expect(call(function, arguments, units)[0][0] == 0, function, "with", units)
    return units, seen


def no_run(function: str, arguments: Sequence[Argument]) -> None:
    answer, output, name = call(function, arguments)
    expect(answer == (2, 0, 0, 0, 0), function, "answers", answer, "where no run is asked for")
    stands(output, 4096, b"", function)
    stands(name, 16, b"", function)


def one(function: str, arguments: Sequence[Argument], wanted: bytes) -> Tuple[int, Set[int]]:
    try_rooms(function, arguments, wanted)
    return try_memory(function, arguments, wanted)


def try_conversions() -> None:
    one("aprs_check", [HERE], b"heard 1 passed 0\n")
    one("aprs_text", [HERE], b"N0CALL-7>APRS:>Hi\n")
    one("aprs_kind", [HERE], b"status N0CALL-7>APRS:>Hi\n")
    one("aprs_kiss", [HERE], KISS)
    one("aprs_log", [HERE], LOG)
    one("aprs_capture", [b"RX1", f"{FIRST}Z".encode(), KISS], LOG)
    for function, before in (("aprs_check", b""), ("aprs_text", b"N0CALL-7>APRS:>Hi\n"),
                             ("aprs_kind", b"status N0CALL-7>APRS:>Hi\n"), ("aprs_kiss", KISS),
                             ("aprs_log", LOG)):
        try_rooms(function, [TWICE], before, (1, 0, 2), b"Moment")
        try_rooms(function, [b""], b"heard 0 passed 0\n" if function == "aprs_check" else b"")
    for receiver, moment in ((b"", b"2024-05-01T12:00:00Z"), (b"RX 1", b"2024-05-01T12:00:00Z"),
                             (b"RX1", b""), (b"RX1", b"2024-05-01"), (b"", b"")):
        no_run("aprs_capture", [receiver, moment, KISS])


def gathered(gap: int, *inputs: bytes, words: Sequence[bytes] = ()) -> List[Argument]:
    return [gap, *words, b"".join(inputs), [len(it) for it in inputs]]


def try_gathering() -> None:
    # a later version may have more columns at the end
    columns = call("aprs_table", gathered(30, words=[b"rows"]))[1].split(b"\n")[0].decode().split("\t")
    expect(columns[:len(COLUMNS)] == COLUMNS, "aprs_table has the columns", columns)
    header = ("\t".join(columns) + "\n").encode()
    row = ("\t".join(ROW.get(it, "") for it in columns) + "\n").encode()
    try_gathering_to("aprs_merge", [], book(30, [HEARD_BY_BOTH]), book(30, []))
    try_gathering_to("aprs_show", [], LISTING, b"")
    try_gathering_to("aprs_history", [], HISTORY, b"")
    try_gathering_to("aprs_table", [b"rows"], header + row, header)
    for count in range(4, 101):
        try_many(count, columns)
    for name in b"", b"row", b"rowss", b"Rows", b"rows\0":
        no_run("aprs_table", gathered(30, HERE, words=[name]))
    two = [HEARD_HERE, HEARD_THERE]
    try_rooms("aprs_merge", gathered(1, HERE, THERE), book(1, two))
    try_rooms("aprs_merge", gathered(3600, HERE, THERE), book(3600, [HEARD_BY_BOTH]))


def try_gathering_to(function: str, words: List[bytes], both: bytes, none: bytes) -> None:
    def given(gap: int, *inputs: bytes) -> List[Argument]:
        return gathered(gap, *inputs, words=words)

    one(function, given(30, HERE, THERE), both)
    one(function, given(30, HERE, b"", book(30, [HEARD_THERE])), both)
    one(function, given(30), none)
    try_rooms(function, given(30, b""), none)
    # which input is at fault, and where
    try_rooms(function, given(30, HERE, TWICE, b"y"), b"", (1, 1, 2), b"Moment")
    try_rooms(function, given(30, HERE, book(60, [])), b"", (1, 1, 0), b"other gap")
    try_rooms(function, given(30, book(30, [])[:-2], HERE), b"", (1, 0, 2), b"Ending")
    # inputs are cut where the lengths say
    try_rooms(function, [30, *words, HERE + THERE, [len(HERE) - 1, len(THERE) + 1]], b"", (1, 0, 1),
              b"NoNewline")
    every = HERE + THERE
    wrong: List[List[int]] = [
        [], [len(HERE)], [len(every) - 1], [len(every) + 1], [len(HERE)] * 3,
        [2 ** 64 - 1, len(every) + 1], [len(every), 2 ** 64 - 1, 1]]
    for lengths in wrong:
        no_run(function, [30, *words, every, lengths])
    no_run(function, [30, *words, b"", [1]])
    for gap in (0, 3601, 2 ** 64 - 1):
        no_run(function, given(gap, HERE, THERE))


def try_many(count: int, columns: List[str]) -> None:
    """So many inputs, each of a receiver of its own: none is left out, and there is memory."""
    names = [f"RX{it:03}" for it in range(count)]
    logs = [HERE.replace(b"RX1", name.encode()) for name in names]
    all_names, last = ",".join(names), names[-1]
    cells = {**ROW, "last": f"{FIRST}.000Z", "receivers": all_names, "receiver": last}
    table = "".join("\t".join(line) + "\n"
                    for line in (columns, [cells.get(it, "") for it in columns]))
    runs: List[Tuple[str, List[bytes], bytes]] = [
        ("aprs_merge", [], book(30, [f"{FIRST}.000Z {FIRST}.000Z {all_names} {last}"])),
        ("aprs_show", [], f"station N0CALL-7 1\nstatus {FIRST}.000Z {last} -:Hi\n".encode()),
        ("aprs_history", [],
         f"status {FIRST}.000Z {FIRST}.000Z {all_names} N0CALL-7 - -:Hi\n".encode()),
        ("aprs_table", [b"rows"], table.encode())]
    for function, words, wanted in runs:
        for inputs, answer, text, fault in (
                (logs, (0, 0, 0), wanted, b""),
                ([*logs[:-1], TWICE], (1, count - 1, 2), b"", b"Moment")):
            told, output, name = call(function, gathered(30, *inputs, words=words))
            expect(told == (*answer, len(text), len(fault)), function, "of", count, "answers", told)
            stands(output, 4096, text, function)
            stands(name, 16, fault, function)


def try_widening() -> None:
    one("aprs_widen", [60, HERE + THERE], book(60, [HEARD_BY_BOTH]))
    one("aprs_widen", [30, book(1, [HEARD_HERE, HEARD_THERE])], book(30, [HEARD_BY_BOTH]))
    try_rooms("aprs_widen", [30, b""], book(30, []))
    try_rooms("aprs_widen", [30, book(60, [])], b"", (1, 0, 0), b"narrower")
    try_rooms("aprs_widen", [30, TWICE], b"", (1, 0, 2), b"Moment")
    for gap in (0, 3601, 2 ** 64 - 1):
        no_run("aprs_widen", [gap, HERE])


try_conversions()
try_gathering()
try_widening()
if faults:
    sys.exit(1)
print("each function of the library does what it has to")
