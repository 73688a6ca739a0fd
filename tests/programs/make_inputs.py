#!/usr/bin/env python3
"""Writes inputs to compare programs with: logs, the logs damaged, and books if a program is given.
The same words give the same inputs.

usage: make_inputs.py COUNT FOLDER [PROGRAM]   FOLDER/000, FOLDER/001, ..

A third are logs of frames of all kinds, some of them faulty; a third are book files that PROGRAM makes
of such logs, or else logs; and a third are either, with bytes changed, lost, doubled or put in.
"""
import random
import subprocess
import sys

CALLS = ["N0CALL", "WU2Z", "K1A", "Q1ABC", "AB0CDE"]
FIELDS = [
    b"!4903.50N/07201.75W-Club house", b"=4903.5 N/07201.7 W>", b"@092345z4903.50S/07201.75E_220/004g009",
    b"!/5L!!<*e7>7P[compressed", b";LEADER   *092345z4903.50N/07201.75W>088/036", b")AID#2!4903.50N/07201.75WA",
    b")AID#2_4903.50N/07201.75WA", b";LEADER   _092345z4903.50N/07201.75W>", b":WU2Z     :Testing{003",
    b":N0CALL-7 :ack003", b":WU2Z     :rej003", b":BLN1     :bulletin", b">092345zNet Control", b">Hi",
    b"T#005,199,000,255,073,123,01101001", b"`(_f\"Oj/>mic-e", b"}third>party:>x", b"", b"\xc0\xdb\x00\xff|~",
]


def address(numbers: random.Random, last: int) -> bytes:
    call = numbers.choice(CALLS)
    flags = numbers.choice([0x60, 0xE0])
    return bytes(2 * b for b in call.ljust(6).encode()) + bytes([flags | numbers.randrange(16) << 1 | last])


def frame(numbers: random.Random) -> bytes:
    hops = numbers.choice([0, 0, 1, 2, 8])
    octets = b"".join(address(numbers, int(i == hops + 1)) for i in range(hops + 2))
    octets += b"\x03\xf0" + numbers.choice(FIELDS)
    if numbers.random() < 0.1:
        octets = octets[: numbers.randrange(len(octets))]
    return octets


def log(numbers: random.Random) -> bytes:
    lines, seconds = [], numbers.randrange(80000)
    for _ in range(numbers.randrange(1, 40)):
        seconds = min(86399, seconds + numbers.choice([0, 1, 2, 29, 30, 31, 400]))
        at = f"2024-0{numbers.choice('135')}-2{numbers.choice('12')}T{seconds // 3600:02}:{seconds // 60 % 60:02}:{seconds % 60:02}"
        at += numbers.choice(["Z", "Z", f".{numbers.randrange(1000):03}Z"])
        octets = frame(numbers).replace(b"\xdb", b"\xdb\xdd").replace(b"\xc0", b"\xdb\xdc")
        lines.append(f"{at} {numbers.choice(['RX1', 'RX2', 'HILL-1'])} c000{octets.hex()}c0\n")
    return "".join(lines).encode()


def damaged(numbers: random.Random, octets: bytes) -> bytes:
    made = bytearray(octets)
    for _ in range(numbers.choice([1, 1, 2, 5])):
        at = numbers.randrange(len(made) or 1)
        way = numbers.randrange(5)
        if way == 0 and made:
            made[at] = numbers.randrange(256)
        elif way == 1:
            del made[at : at + numbers.choice([1, 2, 60])]
        elif way == 2:
            made[at:at] = made[at : at + numbers.choice([1, 2, 60])]
        elif way == 3:
            made[at:at] = numbers.choice([b"\n", b" ", b"\r", b"\0", b"T ", b"-1", b"99"])
        else:
            del made[at:]
    return bytes(made)


def main() -> None:
    count, folder, program = int(sys.argv[1]), sys.argv[2], sys.argv[3:4]
    numbers = random.Random(17)
    for i in range(count):
        octets = log(numbers)
        if i % 3 != 0 and program and numbers.random() < (1 if i % 3 == 1 else 0.5):
            words = [*program, "merge", "--gap", str(numbers.choice([30, 30, 30, 60, 3600]))]
            octets = subprocess.run(words, input=octets, stdout=subprocess.PIPE, check=True).stdout
        if i % 3 == 2:
            octets = damaged(numbers, octets)
        with open(f"{folder}/{i:03}", "wb") as out:
            out.write(octets)


if len(sys.argv) not in (3, 4):
    sys.exit(__doc__)
main()
