#!/usr/bin/env python3
"""Folds random book files and compares what comes with a merge of the same files: the same bytes and
status, or the same refusal. Books of several gaps and versions, empty ones, the same receptions in
several books, rows near one another over all inputs, and a book that is damaged at a random place.
Parts of a fold, from a source until another, are the merges of what these sources sent, and one
after another the whole. Of files they are as of pipes, in which nothing is sought; but of files
faults outside a part may go unseen.
usage: tests/programs/folds.py PROGRAM FOLD [COUNT [SEED]]"""

import os
import random
import subprocess
import sys
import tempfile
from pathlib import Path
from typing import NamedTuple

Day = 1714564800000  # 2024-05-01T12:00:00Z in milliseconds


class Answer(NamedTuple):
    """How a program ended: its status, what it wrote and what it complained of."""

    status: int
    out: bytes
    said: bytes


def run(program: str, *arguments: str, given: bytes = b"") -> Answer:
    """Runs the program with these arguments and this input."""
    done = subprocess.run([program, *arguments], input=given, capture_output=True, check=False)
    return Answer(done.returncode, done.stdout, done.stderr)


def call(name: str, ssid: int, last: bool) -> bytes:
    """An address of a frame."""
    return bytes(ord(c) << 1 for c in name.ljust(6)) + bytes([0x60 | ssid << 1 | int(last)])


def frame(source: int, info: int) -> str:
    """The hexadecimal of a frame by one of several sources, of several texts."""
    head = call("APRS", 0, False) + call(f"N{source % 7}CALL", source % 3, True)
    return (head + b"\x03\xf0" + f">text {info}".encode()).hex()


def moment(millis: int, whole: bool) -> str:
    """The moment in a log's or a book's words."""
    seconds, rest = divmod(millis - Day, 1000)
    hours, seconds = divmod(seconds, 3600)
    day, hours = divmod(hours + 12, 24)
    text = f"2024-05-{day + 1:02}T{hours:02}:{seconds // 60:02}:{seconds % 60:02}"
    return text + ("Z" if whole else f".{rest:03}Z")


def lines(chance: random.Random, count: int, gap: int, whole: bool) -> list[str]:
    """The lines of a log of so many receptions, many of them near one another."""
    sources, texts = chance.choice([(1, 1), (2, 2), (20, 5)])
    found = []
    for _ in range(count):
        at = Day + chance.randrange(1 + gap * 1000 * chance.choice([1, 5, 40]))
        at = at // 1000 * 1000 if whole else at
        name = f"RX{chance.randrange(chance.choice([1, 3, 30]))}"
        code = frame(chance.randrange(sources), chance.randrange(texts))
        found.append(f"{moment(at, whole)} {name} c000{code}c0\n")
    return sorted(found)


def deal(chance: random.Random, heard: list[str], books: int) -> list[list[str]]:
    """The lines dealt out to so many logs: each to one or to several."""
    dealt: list[list[str]] = [[] for _ in range(books)]
    shared = chance.choice([0.0, 0.3, 1.0])
    for line in heard:
        for log in dealt:
            if chance.random() < shared:
                log.append(line)
        chance.choice(dealt).append(line)
    return [sorted(set(log)) for log in dealt]


def older(chance: random.Random, book: bytes, gap: int, whole: bool) -> bytes:
    """The book in its own version or in an older one that says the same."""
    first, rest = book.split(b"\n", 1)
    version = chance.choice([1, 2, 3, 3])
    if gap != 30 or version == 3:
        return book
    if version == 1 and whole:
        return b"APRSBOOK 1\n" + rest.replace(b".000Z", b"Z")
    return b"APRSBOOK 2\n" + rest


def damaged(chance: random.Random, book: bytes) -> bytes:
    """The book with a byte changed, left out or put in, or cut, or with bytes after it."""
    at = chance.randrange(len(book))
    way = chance.randrange(5)
    if way == 0:
        return book[:at]
    if way == 1:
        return book[:at] + book[at + 1 :]
    if way == 2:
        return book[:at] + bytes([chance.randrange(256)]) + book[at:]
    if way == 3:
        return book[:at] + bytes([book[at] ^ 1 << chance.randrange(8)]) + book[at + 1 :]
    return book + b"\n"


# the sources of frames, by the hexadecimal of their addresses, in the order of a book
Sources = {
    call(f"N{it % 7}CALL", it % 3, True).hex(): (f"N{it % 7}CALL", it % 3) for it in range(21)
}


def source(line: str) -> tuple[str, int]:
    """The source of a log's line."""
    return next(at for address, at in Sources.items() if address in line)


def bounds(first: "tuple[str, int] | None", end: "tuple[str, int] | None") -> list[str]:
    """The options for what is from this source until that one."""
    asked = []
    for option, at in (("--from", first), ("--until", end)):
        if at is not None:
            asked += [option, f"{at[0]}-{at[1]}" if at[1] else at[0]]
    return asked


def judged(answer: Answer) -> tuple[int, bytes]:
    """The status and the complaint without the program's name."""
    return answer.status, answer.said.split(b": ", 1)[-1]


def compare_parts(
    program: str, fold: str, chance: random.Random, heard: list[str], asked: list[str], whole: bytes
) -> str:
    """Compares the parts of a fold between random sources with merges of what these sources sent,
    and all of them with the whole. Returns what differs, or an empty text."""
    count = chance.randrange(4)
    cuts = sorted({(f"N{chance.randrange(8)}CALL", chance.randrange(4)) for _ in range(count)})
    rows = []
    for first, end in zip([None, *cuts], [*cuts, None]):
        sent = [
            it
            for it in heard
            if (first is None or source(it) >= first) and (end is None or source(it) < end)
        ]
        part = run(fold, *bounds(first, end), *asked)
        alone = run(program, "merge", *asked[:2], given="".join(sent).encode())
        if part.status or part.out != alone.out:
            return f"the part {bounds(first, end)}: {part.status}, {part.said!r}"
        rows += part.out.splitlines()[1:-1]
    return "" if rows == whole.splitlines()[1:-1] else f"the parts of {cuts}"


def piped(fold: str, asked: list[str], paths: list[str]) -> Answer:
    """How the fold of these files ends where each comes through a pipe."""
    pipes = [f"{path}.pipe" for path in paths]
    feeders = []
    for path, pipe in zip(paths, pipes):
        os.mkfifo(pipe)
        words = ["sh", "-c", 'exec cat "$1" > "$2"', "sh", path, pipe]
        feeders.append(subprocess.Popen(words, stderr=subprocess.DEVNULL))
    answer = run(fold, *asked, *pipes)
    for feeder, pipe in zip(feeders, pipes):
        feeder.kill()
        feeder.wait()
        os.unlink(pipe)
    return answer._replace(said=answer.said.replace(b".pipe", b""))


def compare_sought(
    program: str, fold: str, chance: random.Random, asked: list[str], paths: list[str]
) -> str:
    """Compares parts of a fold of files with those of pipes. Returns what differs, or an empty
    text."""
    for _ in range(3):
        ends = [
            None if chance.random() < 0.2 else (f"N{chance.randrange(8)}CALL", chance.randrange(4))
            for _ in range(2)
        ]
        words = [*bounds(*ends), *asked]
        sought, read = run(fold, *words, *paths), piped(fold, words, paths)
        if sought.status == 0 and read.status == 1:
            left = run(program, "merge", *asked, given=sought.out)
            if (left.status, left.out) != (0, sought.out):
                return f"{words}: no book is written: {left.said!r}"
        elif judged(sought) != judged(read) or read.status == 0 and sought.out != read.out:
            return f"{words}: of files {judged(sought)}, of pipes {judged(read)}"
    return ""


def compare(program: str, fold: str, chance: random.Random, folder: Path) -> str:
    """Compares one random fold with the merge. Returns what differs, or an empty text."""
    gap = chance.choice([1, 30, 30, 30, 600, 3600])
    whole = chance.random() < 0.3
    heard = lines(chance, chance.choice([0, 1, 5, 30, 200]), gap, whole)
    paths = []
    for number, log in enumerate(deal(chance, heard, chance.randrange(1, 7))):
        made = run(program, "merge", "--gap", str(gap), given="".join(log).encode())
        if made.status != 0:
            return f"no book: {made.said!r}"
        path = folder / f"{number}.book"
        path.write_bytes(older(chance, made.out, gap, whole))
        paths.append(str(path))
    is_damaged = chance.random() < 0.4
    if is_damaged:
        path = Path(chance.choice(paths))
        path.write_bytes(damaged(chance, path.read_bytes()))
        # an empty file and a log are taken by a merge alone
        if not path.read_bytes().startswith(b"APRSBOOK"):
            return ""
    # of two faults a merge finds the one in the first file, and a fold one in a header
    is_other = chance.random() < 0.05 and not is_damaged
    asked = ["--gap", str(31 if is_other else gap)]
    merged, folded = run(program, "merge", *asked, *paths), run(fold, *asked, *paths)
    if said := compare_sought(program, fold, chance, asked, paths):
        return said
    if judged(merged) != judged(folded):
        return f"merge {judged(merged)}, fold {judged(folded)}"
    if merged.status == 0:
        if merged.out != folded.out:
            return "other bytes"
        # (a damaged book may be one of other receptions)
        if is_damaged:
            return ""
        return compare_parts(program, fold, chance, heard, [*asked, *paths], folded.out)
    part = piped(fold, [*asked, *bounds(("N3CALL", 1), ("N5CALL", 0))], paths)
    if judged(part) != judged(folded):
        return f"fold {judged(folded)}, a part {judged(part)}"
    left = run(program, "merge", *asked, given=folded.out)
    if left.status != 1 or not left.said.rstrip().endswith(b": Ending"):
        return f"what is left: {left.said!r}"
    return ""


def main() -> int:
    """Compares as many folds as are asked for, and returns the exit status."""
    program, fold = sys.argv[1:3]
    count = int(sys.argv[3]) if len(sys.argv) > 3 else 200
    seed = int(sys.argv[4]) if len(sys.argv) > 4 else 1
    for number in range(seed, seed + count):
        with tempfile.TemporaryDirectory() as name:
            said = compare(program, fold, random.Random(number), Path(name))
        if said:
            print(f"folds.py: seed {number}: {said}", file=sys.stderr)
            return 1
    print(f"{count} folds are as the merges are")
    return 0


if __name__ == "__main__":
    sys.exit(main())
