#!/usr/bin/env python3
"""Tries the programs with 0 to 100 inputs, each another one, and what happens around their runs.

usage: tests/programs/arguments.py PROGRAM

No input is dropped, opened under another's name, or taken out of order; `-` is a path; a path that
is given twice is opened twice; options may stand between inputs; help and the version end with 0;
what was written before a fault goes out; a terminal may be input and output; and memory that is
refused is never `cannot open`. What is expected is worked out here from the formats.
aprsbook-history, aprsbook-table and aprsbook-fold are tried too, where they lie beside the program
or in the crates beside its own. The fold gets a book of each input, also where it has a range or
only checks, and writes what `merge` does. Needs Python 3.9.
"""
import datetime
import itertools
import os
import pathlib
import pty
import resource
import subprocess
import sys
import tempfile
from typing import Callable, Dict, List, NoReturn, Optional, Sequence, Tuple

MOST = 100
# numbers of inputs at which something was once, or could be, cut off
EDGES = (1, 2, 3, 4, 7, 8, 9, 10, 12, 13, 14, 16, 17, 32, 33, 63, 64, 65, 66, 99, 100)
# the first and the last input whose transmissions a fold writes, in each of its ranges
RANGES = ((1, MOST), (2, MOST), (1, MOST - 1), (34, 67))
# all inputs of the fold have a transmission of this station; it is within each range
SHARED = 50


def fail(said: str) -> NoReturn:
    """Ends with what is wrong."""
    sys.exit(f"tests/programs/arguments.py: {said}")


# ---- what each input holds, and what is written of some of them


def address(call: str, bits: int) -> bytes:
    """An address of a frame (AX.25, section 3.12), without SSID: `bits` are those of octet 7."""
    return bytes(ord(letter) << 1 for letter in call.ljust(6)) + bytes([bits])


def frame(n: int, text: str = "") -> str:
    """The frame of input n, in hexadecimal: a status of a station that no other input has."""
    head = address("APRS", 0xE0) + address(f"Q{n:03}", 0x61)
    return (head + b"\x03\xf0" + f">{text or f'Hi {n}'}".encode()).hex()


def moment(n: int) -> str:
    """When input n was heard: later inputs were heard earlier."""
    noon = datetime.datetime(2024, 5, 1, 12)
    return (noon - datetime.timedelta(seconds=n)).strftime("%Y-%m-%dT%H:%M:%S.000Z")


def log(n: int) -> str:
    """The log that is input n."""
    return f"{moment(n)} RX{n} c000{frame(n)}c0\n"


def book(inputs: Sequence[int], gap: int = 30) -> str:
    """The book of these inputs."""
    rows = [f"T {moment(n)} {moment(n)} RX{n} RX{n} {frame(n)}\n" for n in sorted(inputs)]
    return f"APRSBOOK 3 {gap}\n" + "".join(rows) + f"END {len(rows)}\n"


def faulty_book(n: int) -> str:
    """A book within each range, whose last row is none. It has more rows with greater numbers."""
    lines = book(range(40, 41 + n % 16)).splitlines(keepends=True)
    return "".join(lines[:-2]) + "U" + lines[-2][1:] + lines[-1]


def listing(inputs: Sequence[int]) -> str:
    """The listing of these inputs."""
    lines = (f"station Q{n:03} 1\nstatus {moment(n)} RX{n} -:Hi {n}\n" for n in sorted(inputs))
    return "".join(lines)


def history(inputs: Sequence[int]) -> str:
    """The history of these inputs."""
    lines = (
        f"status {moment(n)} {moment(n)} RX{n} Q{n:03} - -:Hi {n}\n" for n in sorted(inputs)
    )
    return "".join(lines)


def table(inputs: Sequence[int]) -> str:
    """The columns of the table of these inputs that are looked at: kind, last, receiver, text."""
    return "".join(f"status\t{moment(n)}\tRX{n}\tHi {n}\n" for n in sorted(inputs))


def columns(written: str) -> str:
    """Those columns of a written table, by name."""
    names, *rows = (line.split("\t") for line in written.splitlines())
    wanted = [names.index(name) for name in ("kind", "last", "receiver", "text")]
    return "".join("\t".join(row[i] for i in wanted) + "\n" for row in rows)


class Program:
    """A program, the words that it has before its inputs, what it writes of them, and what they
    are: logs or books."""

    def __init__(
        self,
        path: pathlib.Path,
        words: Sequence[str],
        name: str,
        writes: Callable[[Sequence[int]], str],
        seen: Callable[[str], str] = str,
        kind: str = "log",
    ) -> None:
        self.command: List[str] = [str(path), *words]
        self.name, self.writes, self.seen, self.kind = name, writes, seen, kind

    def path(self, n: int) -> str:
        """The path of input n."""
        return f"{n}.{self.kind}"

    def text(self, n: int) -> str:
        """The text of input n."""
        return log(n) if self.kind == "log" else book([n])

    def may_leave(self, written: str, inputs: Sequence[int]) -> bool:
        """Whether a run over these inputs that failed may have written this: a fold writes its
        first line and some rows, the others nothing."""
        whole = self.writes(inputs)
        return not written or self.kind == "book" and whole != written and whole.startswith(written)


def folds(path: pathlib.Path) -> List[Program]:
    """The fold of books, of each range of them, and the check."""

    def within(first: int, last: int) -> Callable[[Sequence[int]], str]:
        return lambda inputs: book([n for n in inputs if first <= n <= last])

    name = "aprsbook-fold"
    made = [
        Program(path, bounds(first, last), name, within(first, last), kind="book")
        for first, last in RANGES
    ]
    return made + [Program(path, ["--check"], name, lambda _: "", kind="book")]


def bounds(first: int, last: int) -> List[str]:
    """The options of a fold for the sources of these inputs and those between."""
    words = ["--from", f"Q{first:03}"] if first > 1 else []
    return words + (["--until", f"Q{last + 1:03}"] if last < MOST else [])


# ---- runs


def run(
    command: Sequence[str], given: bytes = b"", limits: Optional[Dict[int, int]] = None
) -> Tuple[int, str, str]:
    """The status of a command, what it wrote, and what it said."""

    def limit() -> None:
        for what, most in (limits or {}).items():
            resource.setrlimit(what, (most, most))

    ended = subprocess.run(
        command, input=given, capture_output=True, check=False, timeout=120,
        preexec_fn=limit if limits else None,
    )
    return ended.returncode, ended.stdout.decode(), ended.stderr.decode()


def expects(command: List[str], wanted: Tuple[int, str, str], given: bytes = b"") -> None:
    """The command ends so, writes this and says this."""
    got = run(command, given)
    if got != wanted:
        shown = " ".join(command[:3] + command[-2:]) if len(command) > 8 else " ".join(command)
        fail(f"{shown} ({len(command) - 1} arguments): {got!r:.300}, and not {wanted!r:.300}")


def takes_all(it: Program) -> None:
    """Each number of inputs, in rising and in falling order, and none of the others."""
    expects_seen(it, [], [], it.text(7).encode(), [7])
    for count in range(1, MOST + 1):
        some = [1 + (count + 37 * i) % MOST for i in range(count)]
        expects_seen(it, [it.path(n) for n in some], some)
        expects_seen(it, [it.path(n) for n in reversed(some)], some)


def expects_seen(
    it: Program, words: List[str], inputs: Sequence[int], given: bytes = b"", of: Sequence[int] = ()
) -> None:
    """With these words a program writes what it has to of these inputs, or of standard input."""
    status, written, said = run(it.command + words, given)
    wanted = it.writes(of or inputs)
    if (status, said) != (0, "") or it.seen(written) != wanted:
        fail(f"{it.name} of {len(words)} words: status {status}, '{said:.200}', {written!r:.300}")


def names_the_right_one(it: Program) -> None:
    """At each place an input that isn't there, or is faulty, is named, and the first one of two. A
    fold finds the first one of two where neither has a first row."""
    for count in EDGES:
        paths = [it.path(n) for n in range(1, count + 1)]
        for place in [n for n in range(count) if n + 1 in EDGES or n + 1 == count]:
            words = paths[:place] + [f"no{place}.log"] + paths[place + 1 :]
            wanted = (1, "", f"{it.name}: no{place}.log: cannot open\n")
            expects(it.command + words, wanted)
            if it.kind == "book":
                refuses(it, paths, place, f"wide{place + 1}.book", "other gap")
                said = f"line {2 + (place + 1) % 16}: RowSyntax"
                refuses(it, paths, place, f"bad{place + 1}.book", said)
                if place + 1 < count:
                    paths[-1] = "bad16.book"
                    refuses(it, paths, place, "bad32.book", "line 2: RowSyntax")
                    paths[-1] = it.path(count)
                continue
            words = paths[:place] + [f"bad{place + 1}.log"] + paths[place + 1 :]
            wanted = (1, "", f"{it.name}: bad{place + 1}.log: line {place + 2}: Hex\n")
            expects(it.command + words, wanted)
            if place + 1 < count:
                words = words[:-1] + ["bad200.log"]
                expects(it.command + words, wanted)


def refuses(it: Program, paths: Sequence[str], place: int, faulty: str, why: str) -> None:
    """With a faulty book at this place a fold says why, and what it leaves is no book: some rows of
    the other books, and of those before the row at fault."""
    status, written, said = run(it.command + [*paths[:place], faulty, *paths[place + 1 :]])
    before = range(40, 40 + (place + 1) % 16 if faulty.startswith("bad") else 40)
    rows = {n for n in range(1, len(paths) + 1) if n != place + 1}.union(before)
    wanted = (1, f"{it.name}: {faulty}: {why}\n")
    if (status, said) != wanted or not it.may_leave(written, sorted(rows)):
        shown = " ".join([it.name, *it.command[1:], faulty])
        fail(f"{shown} at {place} of {len(paths)}: {status}, {said!r}, {written!r:.300}")


def options_anywhere(it: Program) -> None:
    """`--gap` may stand before, between and behind the inputs, and is for all of them."""
    for place, count in itertools.product((0, 1, 5, 13), (13, 65)):
        words = [it.path(n) for n in range(1, count + 1)]
        expects_seen(it, words[:place] + ["--gap", "30"] + words[place:], range(1, count + 1))
        words[place:place] = ["--gap", "3601"]
        status, written, said = run(it.command + words)
        if (status, written) != (2, "") or not said:
            fail(f"{it.name} takes a gap of 3601 at place {place}")


def opens_twice(it: Program) -> None:
    """A path that is given so often is opened so often: as many as others where files are few."""
    for files in (8, 16, 40):
        limits = {resource.RLIMIT_NOFILE: files}
        most = 0
        one = it.path(1)
        while run(it.command + [it.path(n) for n in range(1, most + 2)], limits=limits)[0] == 0:
            most += 1
        wanted = (1, "", f"{it.name}: {one}: cannot open\n")
        again = run(it.command + [one] * (most + 1), limits=limits)
        if not 0 < most < files or again != wanted:
            fail(f"{it.name} with {files} files opens {most} inputs, and one path more often")
        once = run(it.command + [one])
        if run(it.command + [one] * most, limits=limits) != once or once[0] != 0:
            fail(f"{it.name} doesn't open one path {most} times")


def minus_is_a_path(it: Program) -> None:
    """`-` is read where such a file is, and else can't be opened, whatever standard input has."""
    given, wanted = it.text(2).encode(), (1, "", f"{it.name}: -: cannot open\n")
    expects(it.command + ["-"], wanted, given)
    expects(it.command + [it.path(1), "-"], wanted, given)
    pathlib.Path("-").write_text(it.text(63), encoding="utf8")
    expects_seen(it, ["-"], [63], given)
    expects_seen(it, [it.path(1), "-", it.path(65)], [1, 63, 65], given)
    pathlib.Path("-").unlink()


def terminals_serve(it: Program) -> None:
    """A terminal may be both input and output: nothing that is written there is read again."""
    own, terminal = pty.openpty()
    try:
        os.write(own, it.text(5).encode() + b"\x04")  # which ends it
        ended = subprocess.run(
            it.command, stdin=terminal, stdout=terminal, stderr=subprocess.PIPE, check=False,
            timeout=120,
        )
    finally:
        os.close(own)
        os.close(terminal)
    if (ended.returncode, ended.stderr) != (0, b""):
        fail(f"{it.name} on a terminal: {ended.returncode} {ended.stderr.decode()}")


def tables_are_words(it: Program) -> None:
    """The name of a table is one where it stands first, and elsewhere the path of an input."""
    expects_seen(it, ["rows", "1.log", "2.log"], [1, 2])
    expects_seen(it, ["--gap", "30", "rows"], [], log(4).encode(), [4])
    wanted = (1, "", f"{it.name}: rows: cannot open\n")
    expects(it.command + ["1.log", "rows"], wanted)
    expects(it.command + ["rows", "rows"], wanted)
    expects(it.command + ["./rows"], (1, "", f"{it.name}: ./rows: cannot open\n"))


def memory_is_named(it: Program) -> None:
    """With whatever memory a run ends well, or says that memory was refused, or doesn't begin."""
    words = [it.path(n) for n in range(1, MOST + 1)] + ["large.log"] * (it.kind == "log")
    statuses = set()
    for pages in range(64, 4096, 127):
        limits = {resource.RLIMIT_AS: pages * 4096}
        status, written, said = run(it.command + words, limits=limits)
        is_left = it.may_leave(written, range(1, MOST + 1))
        if status == 4 and (not is_left or said != f"{it.name}: out of memory\n"):
            fail(f"{it.name} with {pages} pages: {written!r:.200} {said!r}")
        if status == 0 and it.seen(written) != it.writes(range(1, MOST + 1)):
            fail(f"{it.name} with {pages} pages writes something else")
        if "cannot open" in said and "shared libraries" not in said:
            fail(f"{it.name} with {pages} pages says: {said}")
        statuses.add(status)
    if not {0, 4} <= statuses:
        fail(f"{it.name} with little and more memory ends with {sorted(statuses)} alone")


def folds_as_merges(path: str, fold: str) -> None:
    """The fold of books that share a transmission is the merge of them; and that of a range the
    merge of what its sources sent."""
    shared = frame(SHARED, "Together")
    heard: Dict[int, List[Tuple[int, str]]] = {}
    for n in range(1, MOST + 1):
        heard[n] = [(n, log(n)), (SHARED, f"{moment(n)} RX{n} c000{shared}c0\n")]
        made = run([path, "merge"], "".join(line for _, line in heard[n]).encode())
        pathlib.Path(f"both{n}.book").write_text(made[1], encoding="utf8")
    for count, (first, last) in itertools.product(EDGES, RANGES):
        inputs = range(1, count + 1)
        books = [f"both{n}.book" for n in inputs]
        sent = [line for n in inputs for by, line in heard[n] if first <= by <= last]
        wanted = run([path, "merge"], "".join(sent).encode())
        if (first, last) == (1, MOST):
            expects([path, "merge", *books], wanted)
        for words in (books, books[::-1], books + books[:9]):
            expects([fold, *bounds(first, last), *words], wanted)


# ---- the program's other commands


def one_input(path: str) -> None:
    """`check`, `convert` and `widen` take one input or none."""
    monitor = "Q005>APRS:>Hi 5\n"
    of_one = {
        ("check",): "heard 1 passed 0\n",
        ("convert", "text"): monitor,
        ("convert", "kind"): "status " + monitor,
        ("convert", "log"): log(5),
        ("widen", "60"): book([5], 60),
    }
    for words, written in of_one.items():
        expects([path, *words, "5.log"], (0, written, ""))
        expects([path, *words], (0, written, ""), log(5).encode())
        expects([path, *words, "-"], (1, "", "aprsbook: -: cannot open\n"), log(5).encode())
        status, written, said = run([path, *words, "5.log", "6.log"])
        if (status, written) != (2, "") or not said:
            fail(f"{' '.join(words)} takes two inputs")
    expects([path], (0, monitor, ""), log(5).encode())
    capture = [["--receiver", "RX5"], ["--moment", moment(5)], ["5.kiss"]]
    for order in itertools.permutations(capture):
        given = [word for part in order for word in part]
        expects([path, "convert", "capture", *given], (0, log(5), ""))


def help_ends_well(programs: Sequence[Program], path: str) -> None:
    """Help and the version are written, nothing is said, and the status is 0."""
    commands: List[List[str]] = [[], ["check"], ["convert"], ["merge"], ["widen"], ["show"]]
    asked = [[path, *command, word] for command in commands for word in ("--help", "-h")]
    asked += [[path, "help", *command] for command in commands]
    alone = sorted({it.command[0] for it in programs})
    asked += [[name, word] for name in alone for word in ("--help", "-h", "--version", "-V")]
    for command in asked:
        status, written, said = run(command)
        if status != 0 or not written or said:
            fail(f"{' '.join(command)} ends with {status} and says '{said}'")
    version = run([path, "--version"])[1].split()[-1]
    for it, word in itertools.product(programs, ("--version", "-V")):
        written = run([it.command[0], word])[1]
        if written != f"{it.name} {version}\n":
            fail(f"{it.name} {word} writes '{written}', and not the version {version}")


def faults_flush(path: str) -> None:
    """What stands before a fault is written, and the fault is reported also where it can't be."""
    for n in (1, 64, 6400):
        lines = "".join(log(5) for _ in range(n)) + "no line\n"
        pathlib.Path("late.log").write_text(lines, encoding="utf8")
        said = f"aprsbook: late.log: line {n + 1}: Moment\n"
        expects([path, "convert", "text", "late.log"], (1, "Q005>APRS:>Hi 5\n" * n, said))
        expects([path, "convert", "log", "late.log"], (1, log(5) * n, said))
        passed = lines.replace("c000", "c0")
        pathlib.Path("late.log").write_text(passed, encoding="utf8")
        status, written, told = run([path, "check", "late.log"])
        if (status, told) != (1, said) or len(written.splitlines()) != n:
            fail(f"check writes {len(written.splitlines())} lines before a fault, and not {n}")
    if os.path.exists("/dev/full"):
        for words, wanted in (
            (["check", "bad1.log"], (1, "aprsbook: bad1.log: line 2: Hex\n")),
            (["check", "5.log"], (3, "aprsbook: cannot write\n")),
            (["--help"], (3, "aprsbook: cannot write\n")),
        ):
            with open("/dev/full", "wb") as full:
                ended = subprocess.run(
                    [path, *words], stdout=full, stderr=subprocess.PIPE, check=False
                )
            if (ended.returncode, ended.stderr.decode()) != wanted:
                fail(f"{' '.join(words)} > /dev/full: {ended.returncode} {ended.stderr.decode()}")


# ---- all of it


def beside(path: pathlib.Path, name: str) -> Optional[pathlib.Path]:
    """Another program, which lies beside this one."""
    other = path.parent / name
    return other if os.access(other, os.X_OK) else None


def write_inputs() -> None:
    """The logs and books, those with a line at fault, each at another line, and a KISS stream."""
    for n in range(1, MOST + 1):
        pathlib.Path(f"{n}.log").write_text(log(n), encoding="utf8")
        pathlib.Path(f"{n}.book").write_text(book([n]), encoding="utf8")
        pathlib.Path(f"bad{n}.book").write_text(faulty_book(n), encoding="utf8")
        pathlib.Path(f"wide{n}.book").write_text(book([n], 31), encoding="utf8")
    for n in [*range(1, MOST + 1), 200]:
        lines = log(n) * n + f"{moment(n)} RX{n} 0g\n"
        pathlib.Path(f"bad{n}.log").write_text(lines, encoding="utf8")
    # many receptions of input 5
    pathlib.Path("large.log").write_text(log(5) * 30000, encoding="utf8")
    pathlib.Path("5.kiss").write_bytes(bytes.fromhex("c000" + frame(5) + "c0"))


def main() -> None:
    """Tries everything in a folder that is thrown away."""
    if len(sys.argv) != 2 or not os.path.isfile(sys.argv[1]) or not os.access(sys.argv[1], os.X_OK):
        fail(f"there is no program '{' '.join(sys.argv[1:])}'")
    path = pathlib.Path(sys.argv[1]).absolute()
    programs = [
        Program(path, ["merge"], "aprsbook", book),
        Program(path, ["show"], "aprsbook", listing),
    ]
    others: List[Tuple[str, Callable[[Sequence[int]], str], Callable[[str], str]]] = [
        ("aprsbook-history", history, str),
        ("aprsbook-table", table, columns),
    ]
    for name, writes, seen in others:
        other = beside(path, name)
        if other is None:
            print(f"left out: the arguments of {name} (it isn't there)")
        else:
            programs.append(Program(other, [], name, writes, seen))
    fold = beside(path, "aprsbook-fold")
    if fold is None:
        print("left out: the arguments of aprsbook-fold (it isn't there)")
    else:
        programs += folds(fold)
    with tempfile.TemporaryDirectory() as scratch:
        os.chdir(scratch)
        write_inputs()
        for it in programs:
            takes_all(it)
            names_the_right_one(it)
            options_anywhere(it)
            opens_twice(it)
            minus_is_a_path(it)
            terminals_serve(it)
            memory_is_named(it)
            if it.name == "aprsbook-table":
                tables_are_words(it)
        if fold is not None:
            folds_as_merges(str(path), str(fold))
        one_input(str(path))
        help_ends_well(programs, str(path))
        faults_flush(str(path))
        os.chdir("/")
    print("the programs take 0 to 100 inputs, each in its place")


if __name__ == "__main__":
    main()
