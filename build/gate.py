#!/usr/bin/env python3
"""Proves and tries everything of this repository, side by side.

usage: build/gate.py prove    the gate: every proof from nothing, every test but those of aprs-net, and of the
                              edits that must fail those of must-fail/, six of a crate that is drawn
                              by chance, and each that isn't noted as refused
       build/gate.py check    the same over what was proved before, but for the edits that are noted
       build/gate.py build    the proofs of the program and of what it stands on, over those before
       build/gate.py test     every test, and no proof; with programs of these sources those of programs

Prints a line for each job, all that a failed one said, the minutes of processors that it took, and
last `N passed, M failed`. Each job has a processor with 3 GB of free memory; LANES=N says another
number. What was proved before a `prove` is set aside, and comes back where that fails.
"""
import contextlib
import fcntl
import os
import pathlib
import random
import shutil
import subprocess
import sys
from typing import Callable, Dict, Iterator, List, Sequence

import crates
import edits
import jobs
from jobs import Job

TOP = crates.TOP
ASIDE = TOP / "out" / "before"
# how long a job takes, in lines of code that are proved, some 0.1 seconds each: a crate of no lines, each
# crate below one, a check for edits, an edit, the link of the program, and a make of tests; a line of a
# test that runs without a proof is half as long
CRATE, BELOW, CHECK, EDIT, LINK, TEST = 300, 45, 800, 100, 800, 500
# so many edits of one crate are tried anew
DRAWN = 6
# the target that makes the page of an event, where that can be done
PAGE = "event-page-here"
# the crate of the program that is installed, by whatever name it is called
PROGRAM = "aprsbook"


def size_of(crate: str) -> int:
    """How long the proof of a crate takes, in lines."""
    lines = sum(it.read_bytes().count(b"\n") for it in crates.files_of(crate) if it.suffix == ".rt")
    return CRATE + BELOW * len(crates.below(crate)) + lines + LINK * (crate == PROGRAM)


def is_of_tests(crate: str) -> bool:
    """Whether a crate has only tests, which run without a proof, since no clause of theirs needs one."""
    return crate.endswith("_tests")


def is_to_prove(crate: str) -> bool:
    """Whether a crate is proved: all but those of tests, and what these share."""
    return not is_of_tests(crate) and not crate.endswith("_fixtures")


def is_program(crate: str) -> bool:
    """Whether a crate is a program."""
    return (TOP / "crates" / crate / "src" / "main.rt").is_file()


def proofs(names: Sequence[str], *options: str) -> Iterator[Job]:
    """The proofs of these crates by these options, and the runs of the program."""
    every = crates.rows()
    for name in names:
        row = every[name]
        after = frozenset(it for it in row.libraries if it in every)
        command = ["build/prove.sh", name, jobs.JOBS, *options]
        most = 1 if is_program(name) or is_of_tests(name) else 2
        yield Job(name, command, after, size_of(name), most)
        if name == PROGRAM:
            yield Job("stored runs", ["build/stored_run.sh"], frozenset([name]))


def trials(option: Sequence[str], drawn: str) -> Iterator[Job]:
    """The edits of each crate, once it is proved, by this option; of the crate that is drawn some more."""
    for name in filter(edits.paths_of, crates.rows()):
        more = DRAWN if name == drawn else 0
        count = len(edits.must_fail(name)) + more
        command = ["build/edits.py", *option, "--draw", str(more), "--jobs", jobs.JOBS, name]
        title = f"edits of {name}" + f" ({more} drawn)" * bool(more)
        size = CHECK + count * EDIT if count else 0
        yield Job(title, command, frozenset([name]), size, 2)


def make(target: str, *after: str) -> Job:
    """A target of the Makefile."""
    command = ["make", "--no-print-directory", target]
    return Job(target, command, frozenset(after), TEST)


def tests_of_sources() -> Iterator[Job]:
    """What is tried without any program."""
    yield make(PAGE)
    yield make("words")
    yield make("page-tests")


def tests_of_crates() -> Iterator[Job]:
    """The tests of the crates, built with checks of each access in place of a proof."""
    for name in filter(is_of_tests, crates.rows()):
        yield Job(f"tests of {name}", ["build/try.sh", name], frozenset(), size_of(name) // 2)


def build() -> List[Job]:
    """The program that is installed, and what it stands on."""
    return list(proofs([*crates.below(PROGRAM), PROGRAM]))


def check() -> List[Job]:
    """The gate, over what was proved and refused before."""
    return every_job(trials((), ""))


def prove() -> List[Job]:
    """The gate, with some edits of a crate that is drawn by chance."""
    drawn = random.choice(list(filter(edits.paths_of, crates.rows())))
    return every_job(trials(["--must-fail"], drawn), "--anew")


def every_job(of_edits: Iterator[Job], *options: str) -> List[Job]:
    """The gate, with these of the edits, and these options of proofs."""
    every = list(filter(is_to_prove, crates.rows()))
    release = Job("release", ["build/objects.sh", "--compare"], frozenset([PROGRAM]))
    # of aprs-net the types alone: its tests wait for clocks and servers, and are those of `make test`
    tools = Job("types of tools", ["tests/sources/tools.sh"], frozenset(), TEST)
    of_programs = [make(it, PROGRAM) for it in ("tried-many", "tried-large", "tried-elsewhere")]
    of_programs += [make(it, PROGRAM, PAGE) for it in ("tried-here", "tried-packages")] + [release]
    of_sources = [*tests_of_crates(), *tests_of_sources(), tools]
    return [*proofs(every, *options), *of_edits, *of_sources, *of_programs]


def test() -> List[Job]:
    """The tests, and no proof."""
    has_kit = shutil.which("rt") is not None
    if not has_kit:
        print("left out: the tests of the crates (no Rattle kit is there)", flush=True)
    found = subprocess.run(["build/programs.sh"], cwd=TOP, capture_output=True, check=False)
    if found.returncode:
        print(f"left out: the tests of programs ({found.stderr.decode().strip()})", flush=True)
    of_programs = [make("tools", PAGE)]
    if not found.returncode:
        of_programs += [make("tried-many"), make("tried-large")]
        of_programs += [make("tried-here", PAGE), make("tried-packages", PAGE), make("tried-elsewhere")]
    of_crates = list(tests_of_crates()) if has_kit else []
    return [*of_crates, *tests_of_sources(), *of_programs]


@contextlib.contextmanager
def from_nothing() -> Iterator[None]:
    """Sets aside what was proved before, and gives it back where it wasn't proved again."""
    names = list(crates.rows())
    # what a killed run set aside
    put_back(names)
    shutil.rmtree(TOP / "out" / "proved", ignore_errors=True)
    for name in names:
        folder = TOP / "crates" / name / "out"
        if folder.is_dir():
            ASIDE.mkdir(parents=True, exist_ok=True)
            folder.rename(ASIDE / name)
    try:
        yield
    finally:
        put_back(names)


def put_back(names: Sequence[str]) -> None:
    """Gives back what was set aside of the crates that have nothing whole in its place."""
    for name in names:
        folder = TOP / "crates" / name / "out"
        is_whole = (folder / "rlib" / "stamp").exists() or (folder / name).is_file()
        if (ASIDE / name).is_dir() and not is_whole:
            shutil.rmtree(folder, ignore_errors=True)
            (ASIDE / name).rename(folder)
        # what a next check begins with, which a library that was proved from nothing hasn't
        kept = ASIDE / name / "incremental"
        if kept.is_dir() and not (folder / "incremental").exists():
            kept.rename(folder / "incremental")
    shutil.rmtree(ASIDE, ignore_errors=True)


def run(plan: List[Job]) -> int:
    """Runs the jobs, and prints what came of all."""
    passed, failed = jobs.Runner(plan, jobs.lanes()).run()
    print(f"minutes of processors: {jobs.processor_minutes():.0f}")
    print(f"{passed} passed, {failed} failed")
    return 1 if failed or not passed else 0


def main(words: Sequence[str]) -> int:
    """Does what the words ask for."""
    plans: Dict[str, Callable[[], List[Job]]] = {
        "prove": prove, "check": check, "build": build, "test": test,
    }
    if len(words) != 1 or words[0] not in plans:
        print(__doc__, file=sys.stderr)
        return 2
    os.chdir(TOP)
    if words[0] != "prove":
        return run(plans[words[0]]())
    pathlib.Path("out").mkdir(exist_ok=True)
    with open("out/gate.lock", "w", encoding="ascii") as held:
        try:
            fcntl.flock(held, fcntl.LOCK_EX | fcntl.LOCK_NB)
        except BlockingIOError:
            print("build/gate.py: waiting for another run to end", flush=True)
            fcntl.flock(held, fcntl.LOCK_EX)
        with from_nothing():
            return run(prove())


if __name__ == "__main__":
    sys.exit(main(sys.argv[1:]))
