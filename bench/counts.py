#!/usr/bin/env python3
"""Counts the instructions of each run of the programs by callgrind, for each line of its input, and
compares them with those of bench/counts.txt. They don't depend on what else the machine does, so
that a slower body is seen on a busy one too.

usage: bench/counts.py [--write] PROGRAM HISTORY TABLE FOLD

Fails where a run takes over 2 % more than is written; --write writes what was counted. Takes a
minute. Needs valgrind, and the C compiler for the plain programs beside which some runs are shown.
"""
import pathlib
import re
import shutil
import subprocess
import sys
import tempfile
from typing import Dict, List, NamedTuple, Optional, Sequence

HERE = pathlib.Path(__file__).resolve().parent
WRITTEN = HERE / "counts.txt"
HEAD = "# a run, its instructions a line of input, and their ratio to those of another run\n"
LINES = 20_000
MOST = 1.02
NAMES = ("aprsbook", "history", "table", "fold")
LOGS = ("three/a.log", "three/b.log", "three/c.log")
BOOKS = ("three/a.book", "three/b.book", "three/c.book")


class Run(NamedTuple):
    """A command by its words, of which the first is a name of NAMES or a plain program, the lines that
    it stands for, and the run that it is shown beside."""

    words: Sequence[str]
    lines: int = LINES
    beside: Optional[str] = None


RUNS: Dict[str, Run] = {
    "plain hexonly": Run(["plain/hexonly", "<heard.log"]),
    "plain text": Run(["plain/text", "<heard.log"]),
    "plain log": Run(["plain/log", "<heard.log"]),
    "plain logs": Run(["plain/merge", *LOGS]),
    "plain books": Run(["plain/book_merge", *BOOKS]),
    "plain day": Run(["plain/book_merge", "year.book", "day.book"]),
    "check": Run(["aprsbook", "check", "heard.log"], beside="plain hexonly"),
    "convert text": Run(["aprsbook", "convert", "text", "heard.log"], beside="plain text"),
    "convert kind": Run(["aprsbook", "convert", "kind", "heard.log"], beside="convert text"),
    "convert log": Run(["aprsbook", "convert", "log", "heard.log"], beside="plain log"),
    "convert kiss": Run(["aprsbook", "convert", "kiss", "heard.log"], beside="check"),
    "merge of three logs": Run(["aprsbook", "merge", *LOGS], beside="plain logs"),
    "merge of three books": Run(["aprsbook", "merge", *BOOKS], beside="plain books"),
    "show of three logs": Run(["aprsbook", "show", *LOGS], beside="merge of three logs"),
    "history of three logs": Run(["history", *LOGS], beside="merge of three logs"),
    "table of rows": Run(["table", "rows", *LOGS], beside="merge of three logs"),
    "table of messages": Run(["table", "messages", *LOGS], beside="merge of three logs"),
    "table of stations": Run(["table", "stations", *LOGS], beside="merge of three logs"),
    "table of things": Run(["table", "things", *LOGS], beside="merge of three logs"),
    "fold of three books": Run(["fold", *BOOKS], beside="plain books"),
    "fold of a day into a year": Run(["fold", "year.book", "day.book"], beside="plain day"),
    "check of a fold": Run(["fold", "--check", *BOOKS], beside="fold of three books"),
    "news of a day to a year": Run(["fold", "--new-to", "year.book", "day.book"],
                                   beside="fold of a day into a year"),
    "merge of stations once": Run(["aprsbook", "merge", "once.log"]),
    "show of stations once": Run(["aprsbook", "show", "once.log"], beside="merge of stations once"),
}


def make_inputs(programs: Dict[str, pathlib.Path], folder: pathlib.Path) -> None:
    """Makes what the runs read, and the plain programs."""
    def run(*words: str, to: str) -> None:
        with open(folder / to, "wb") as out:
            subprocess.run(words, cwd=folder, stdout=out, check=True)

    generator, aprsbook = str(HERE / "make_log.py"), str(programs["aprsbook"])
    for name in ("three", "plain"):
        (folder / name).mkdir()
    run(sys.executable, generator, str(LINES), to="heard.log")
    run(sys.executable, generator, str(LINES), "three", to="said")
    for name in "abc":
        run(aprsbook, "merge", f"three/{name}.log", to=f"three/{name}.book")
    lines = (folder / "three/a.log").read_bytes().splitlines(keepends=True)
    (folder / "year.log").write_bytes(b"".join(lines[:-300]))
    (folder / "day.log").write_bytes(b"".join(lines[-300:]))
    run(aprsbook, "merge", "year.log", *LOGS[1:], to="year.book")
    run(aprsbook, "merge", "day.log", to="day.book")
    run(sys.executable, generator, "once", str(LINES), to="once.log")
    for source in (HERE / "plain").glob("*.c"):
        run("cc", "-O2", "-o", f"plain/{source.stem}", str(source), to="said")


def counted(words: Sequence[str], programs: Dict[str, pathlib.Path], folder: pathlib.Path) -> int:
    """The instructions of a run."""
    program = programs.get(words[0], folder / words[0])
    given = [it for it in words[1:] if not it.startswith("<")]
    read = [it[1:] for it in words[1:] if it.startswith("<")]
    valgrind = ["valgrind", "--tool=callgrind", "--callgrind-out-file=/dev/null"]
    with open(folder / read[0] if read else "/dev/null", "rb") as source:
        ran = subprocess.run(
            [*valgrind, str(program), *given], cwd=folder, stdin=source, stdout=subprocess.DEVNULL,
            stderr=subprocess.PIPE, encoding="utf-8", errors="replace", check=False,
        )
    found = re.search(r"Collected : (\d+)", ran.stderr)
    if ran.returncode or not found:
        sys.exit(f"bench/counts.py: {' '.join(words)}: {ran.stderr.strip()[-500:]}")
    return int(found[1])


def written() -> Dict[str, int]:
    """What is written of each run."""
    if not WRITTEN.is_file():
        return {}
    lines = [it for it in WRITTEN.read_text(encoding="utf-8").splitlines() if it[:1] != "#"]
    return {name: int(count) for name, count, *_ in (it.split("\t") for it in lines)}


def main(words: List[str]) -> int:
    """Does what the words ask for."""
    is_written, words = words[:1] == ["--write"], [it for it in words if it != "--write"]
    if len(words) != len(NAMES):
        print(__doc__, file=sys.stderr)
        return 2
    if shutil.which("valgrind") is None:
        sys.exit("bench/counts.py: valgrind isn't there (Debian: apt install valgrind)")
    programs = {name: pathlib.Path(it).absolute() for name, it in zip(NAMES, words)}
    before, counts, lines, slower = written(), {}, [], []
    print(f"{'run':<28}{'a line':>8}{'written':>9}{'ratio':>7}  beside")
    with tempfile.TemporaryDirectory() as folder:
        make_inputs(programs, pathlib.Path(folder))
        for name, run in RUNS.items():
            counts[name] = round(counted(run.words, programs, pathlib.Path(folder)) / run.lines)
            beside = run.beside or ""
            ratio = f"{counts[name] / counts[beside]:.2f}" if beside else ""
            print(f"{name:<28}{counts[name]:>8,}{before.get(name, 0):>9,}{ratio:>7}  {beside}")
            if not name.startswith("plain"):
                lines.append(f"{name}\t{counts[name]}\t{ratio}\n")
                if name in before and counts[name] > MOST * before[name]:
                    slower.append(name)
    if is_written:
        WRITTEN.write_text(HEAD + "".join(lines), encoding="utf-8")
    for name in slower:
        print(f"slower: {name}: {counts[name]:,} instructions a line, {before[name]:,} are written")
    return 1 if slower and not is_written else 0


if __name__ == "__main__":
    sys.exit(main(sys.argv[1:]))
