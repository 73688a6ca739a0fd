#!/usr/bin/env python3
"""Tries the edits that must fail, many in one check: those of edits/ and of crates/*/must-fail.

usage: build/edits.py [--jobs N] [--alone] [--anew | --must-fail] [--draw N] [--only WORD] [CRATE..]

--jobs N   so many checks side by side, each with one job; --alone tries each edit in a check of its own;
--only WORD tries the edits whose names have this word. Without a CRATE all crates that have edits are tried.

What is refused is noted in edits/CRATE/refused.txt, with a checksum of what this rests on: the kit, the
edit, the functions that it changes, and all that the crate and those below it say but for bodies, comments
and examples. What is noted so isn't tried again, but with --anew, which tries all, with --must-fail,
which tries anew those of must-fail/, and with --draw, which tries anew N of each crate, by chance.

A crate's edits of different functions are put into one copy of it, which is checked over what was
proved of the crate before (`make build`). Where that wasn't kept (`make prove`), these functions and
those that they call are checked from nothing. A goal of a function rests on the function's own code, and
on contracts and definitions, which no edit changes. So an edit is refused where the check refuses a
goal of a function that it changes. What isn't refused so, and what shares no check, as a constant,
is tried alone. Before them the copy is checked as it stands, and has to be proved, unless build/prove.sh
noted that it proved these very files.

Prints a line for each crate and each edit that isn't refused, and last `N passed, M failed`. Needs rt.
"""
import argparse
import concurrent.futures
import functools
import hashlib
import os
import pathlib
import random
import re
import shutil
import subprocess
import sys
import tempfile
import threading
import time
from typing import Dict, List, NamedTuple, Optional, Sequence, Tuple

import crates
import wrong_bodies
from wrong_bodies import Edit, Function

TOP = crates.TOP
# files of worked examples
EXAMPLES = re.compile(r"[Ee]xamples?\b|/Worked")
# the file of a crate's verdicts, in its folder of edits/
NOTED = "refused.txt"
# where a check says that something is wrong
SAID = re.compile(r"(note: )?(?:\./)?((?:src|proofs|specs)/\S+?):(\d+):(\d+): ?(.*)")
# what is said of a declaration for want of another, and not of a goal of its own
RESTS = re.compile(r"was not admitted|is not in scope|has no field|has no `|rests on|depends on")
ERROR = re.compile(r"\berror\[[\w-]+\]")
# at most so many edits in one check
MOST = 60


class Check(NamedTuple):
    """What a check said, and its status."""

    lines: List[str]
    status: int

    @property
    def is_judged(self) -> bool:
        """Whether the prover came to a verdict, and didn't stop at what doesn't compile."""
        return any(it.startswith(("logic=", "only=")) for it in self.lines)


class Told(NamedTuple):
    """What is told of an edit: that it is refused, or else what became of it, and the first reason."""

    is_refused: bool
    said: str


class View:
    """A copy of a crate, over what was proved of it and of those below, for one check at a time."""

    def __init__(self, crate: str, place: pathlib.Path) -> None:
        self.crate, self.place = crate, place
        self.folder = place / "crates" / crate
        names = [*crates.below(crate), crate]
        every = crates.rows()
        for name in names:
            for part in crates.PARTS:
                if (TOP / "crates" / name / part).is_dir():
                    to = place / "crates" / name / part
                    shutil.copytree(TOP / "crates" / name / part, to)
        for name in names[:-1]:
            rlib = TOP / "crates" / name / "out" / "rlib"
            crates.linked(rlib, place / "crates" / name / "out" / "rlib")
        lines = [every[name].line + "\n" for name in names]
        (place / "crates.txt").write_text("".join(lines), encoding="utf-8")
        if (TOP / "HANDLES").is_file():
            shutil.copy(TOP / "HANDLES", place)

    def check(self, edits: Sequence[Edit]) -> Tuple[Check, Dict[str, str]]:
        """Checks the crate with these edits. Returns what was said, and the texts that were read."""
        files = {file for edit in edits for file in edit.lines}
        before = {it: (self.folder / it).read_text(encoding="utf-8") for it in files}
        texts = wrong_bodies.with_edits(before, edits)
        return self.checked(texts, only_of(self.crate, edits)), texts

    def checked(self, texts: Dict[str, str], options: Sequence[str] = ()) -> Check:
        """Checks the crate with these texts of its files. Returns what was said."""
        shutil.rmtree(self.folder / "out", ignore_errors=True)
        crates.linked(TOP / "crates" / self.crate / "out", self.folder / "out")
        before = {it: (self.folder / it).read_text(encoding="utf-8") for it in texts}
        for file, text in texts.items():
            (self.folder / file).write_text(text, encoding="utf-8")
        command = ["rt", "check", "--jobs", "1", *options]
        ran = subprocess.run(
            command, cwd=self.folder, stdin=subprocess.DEVNULL, stdout=subprocess.PIPE,
            stderr=subprocess.STDOUT, encoding="utf-8", errors="replace", check=False,
        )
        for file, text in before.items():
            (self.folder / file).write_text(text, encoding="utf-8")
        return Check(ran.stdout.rstrip("\n").split("\n"), ran.returncode)


def only_of(crate: str, edits: Sequence[Edit]) -> List[str]:
    """The options by which a check from nothing checks the functions that these edits change, and those that
    they call, alone: none where there is kept work to begin with, or where that isn't all to check."""
    out = TOP / "crates" / crate / "out"
    if (out / "incremental").is_dir() or any(it.is_alone for it in edits):
        return []
    names = out / "functions"
    known = names.read_text(encoding="utf-8").split() if names.is_file() else []
    found: List[str] = []
    for function in sorted({it for edit in edits for it in edit.changed}):
        own = [it for it in known if re.fullmatch(wrong_bodies.path_of(function), it)]
        if not own:
            return []
        found += own
    return [word for path in sorted(set(found)) for word in ("--only", path)]


def is_proof_of(file: str, function: Function) -> bool:
    """Whether this file of proofs/ has answers to the goals of a function."""
    module = wrong_bodies.module_of(function)
    parts = file.split("/")[1:-1]
    rest = parts[len(module):]
    if parts[:len(module)] != module or not rest or rest[-1] != function.name:
        return False
    if len(rest) == 1:
        return not function.owner
    return len(rest) == 2 and bool(function.owner) and rest[0].startswith(function.owner)


def said_of(edit: Edit, check: Check, texts: Dict[str, str], crate: str) -> List[str]:
    """What the check says of the goals of the functions that this edit changes."""
    changed = {(it.file, it.owner, it.name) for it in edit.changed}
    found = []
    for line in check.lines:
        said = SAID.match(line)
        if not said or "warning:" in said[5] or RESTS.search(line):
            continue
        if said[5].startswith("note:") and not said[1]:
            continue
        file = said[2]
        if file.startswith("src/"):
            path = TOP / "crates" / crate / file
            text = texts.get(file) or path.read_text(encoding="utf-8")
            functions = wrong_bodies.functions_of(file, text)
            at = wrong_bodies.function_at(functions, int(said[3]))
            is_own = at is not None and (at.file, at.owner, at.name) in changed
        else:
            is_own = any(is_proof_of(file, it) for it in edit.changed)
        if is_own:
            found.append(line)
    return found


def judged(edit: Edit, check: Check, texts: Dict[str, str], crate: str) -> Told:
    """What a check in which this edit stands tells of it."""
    if check.status == 0:
        return Told(False, "is still proved")
    if not check.is_judged:
        errors = [it for it in check.lines if ERROR.search(it)]
        return Told(False, f"doesn't compile: {(errors or check.lines)[0]}")
    own = said_of(edit, check, texts, crate)
    if own:
        return Told(True, own[0])
    return Told(False, f"isn't refused at a goal of its function: {check.lines[-1]}")


def judged_alone(edit: Edit, check: Check, texts: Dict[str, str], crate: str) -> Told:
    """The same of an edit that is tried alone: one of a constant is refused wherever it is used."""
    told = judged(edit, check, texts, crate)
    if not told.is_refused and edit.is_alone and check.is_judged and check.status == 1:
        errors = [it for it in check.lines if SAID.match(it) and "error" in it]
        return Told(True, (errors or check.lines)[0])
    return told


@functools.lru_cache(maxsize=None)
def kit() -> str:
    """The kit by its version."""
    said = subprocess.run(["rt", "version"], stdout=subprocess.PIPE, check=True, encoding="utf-8")
    return said.stdout.strip()


def said_by(crate: str) -> str:
    """A checksum over all that a proof of this crate can know but for bodies: its definitions, proofs and
    clauses, and the definitions of those below and the clauses that they show. No proof rests on an
    example."""
    def clauses(text: bytes) -> bytes:
        return crates.without_comments(wrong_bodies.without_bodies(text))

    def of_others(text: bytes) -> bytes:
        return wrong_bodies.seen_from_outside(crates.without_comments(text))

    plain, lower = crates.without_comments, crates.below(crate)
    own = crates.sum_of([crate], plain, ["specs", "proofs"], EXAMPLES)
    definitions = crates.sum_of(lower, plain, ["specs"], EXAMPLES)
    others = crates.sum_of(lower, of_others, ["src"], EXAMPLES)
    return f"{own} {definitions} {others} {crates.sum_of([crate], clauses, ['src'], EXAMPLES)}"


class Verdicts:
    """The edits of a crate that were refused, by what these verdicts rest on."""

    def __init__(self, crate: str) -> None:
        self.crate, self.path = crate, TOP / "edits" / crate / NOTED
        self.said = f"{kit()} {said_by(crate)}"
        lines = self.path.read_text(encoding="utf-8").splitlines() if self.path.is_file() else []
        self.noted = dict(it.split(" ", 1) for it in lines if " " in it)

    def sum_of(self, edit: Edit) -> str:
        """A checksum of what the verdict on this edit rests on."""
        folder, bodies = TOP / "crates" / self.crate, ""
        if edit.is_alone:
            bodies = crates.sum_of([self.crate], crates.without_comments, ["src"])
        for it in sorted(edit.changed):
            lines = (folder / it.file).read_text(encoding="utf-8").split("\n")
            body = "\n".join(lines[it.first - 1:it.last]) + "\n"
            bodies += crates.without_comments(body.encode()).decode()
        return hashlib.sha256(f"{self.said}\n{edit.text}\n{bodies}".encode()).hexdigest()[:24]

    def has(self, edit: Edit) -> bool:
        """Whether this edit is noted as refused, of these very sources."""
        return self.noted.get(edit.name) == self.sum_of(edit)

    def note(self, edit: Edit, is_refused: bool) -> None:
        """Notes what became of an edit."""
        self.noted.pop(edit.name, None)
        if is_refused:
            self.noted[edit.name] = self.sum_of(edit)
        self.write()

    def write(self) -> None:
        """Writes the verdicts, in order, where they aren't those of the file."""
        names = {it.name for it in paths_of(self.crate)}
        text = "".join(f"{name} {it}\n" for name, it in sorted(self.noted.items()) if name in names)
        if self.path.is_file() and self.path.read_text(encoding="utf-8") == text:
            return
        self.path.parent.mkdir(parents=True, exist_ok=True)
        new = self.path.with_suffix(".new")
        new.write_text(text, encoding="utf-8")
        new.replace(self.path)


class Trial:
    """The edits of a crate, and what has been told of them."""

    def __init__(self, crate: str, asked: argparse.Namespace, turns: threading.Semaphore) -> None:
        self.crate, self.asked, self.turns = crate, asked, turns
        self.edits: List[Edit] = []
        self.told: Dict[str, Told] = {}
        self.checks = 0
        self.lock = threading.Lock()
        self.verdicts = Verdicts(crate)
        for path in paths_of(crate):
            if asked.only not in path.name:
                continue
            try:
                self.edits.append(wrong_bodies.edit_of(path, TOP / "crates" / crate))
            except wrong_bodies.Unfit as why:
                self.told[path.name] = Told(False, str(why))

    def checked(self, edits: Sequence[Edit]) -> Tuple[Check, Dict[str, str]]:
        """A check of the crate with these edits, in a view of its own, at its turn."""
        with self.turns, tempfile.TemporaryDirectory(prefix="edits-") as place:
            self.checks += 1
            return View(self.crate, pathlib.Path(place)).check(edits)

    def note(self, edit: Edit, told: Told) -> None:
        """Notes what is told of an edit."""
        with self.lock:
            self.told[edit.name] = told
            self.verdicts.note(edit, told.is_refused)

    def try_lot(self, lot: Sequence[Edit]) -> None:
        """Tries these in one check, without those that don't compile."""
        check, texts = self.checked(lot)
        if not check.is_judged and len(lot) > 1:
            hurt = [it for it in lot if said_of(it, check, texts, self.crate)]
            if hurt and len(hurt) < len(lot):
                self.try_lot([it for it in lot if it not in hurt])
            return
        for edit in lot:
            told = judged(edit, check, texts, self.crate)
            if told.is_refused:
                self.note(edit, told)

    def try_alone(self, edit: Edit) -> None:
        """Tries an edit in a check of its own."""
        check, texts = self.checked([edit])
        self.note(edit, judged_alone(edit, check, texts, self.crate))

    def known(self) -> List[Edit]:
        """The edits that are noted as refused, without those that are tried anew."""
        if self.asked.anew:
            return []
        known = [it for it in self.edits if self.verdicts.has(it)]
        anew = {it.name for it in must_fail(self.crate)} if self.asked.must_fail else set()
        drawn = random.sample(known, min(self.asked.draw, len(known)))
        anew |= {it.name for it in drawn}
        return [it for it in known if it.name not in anew]

    def run(self) -> None:
        """Tries what isn't known: in lots, and the rest alone."""
        known = self.known()
        self.told.update((it.name, Told(True, "as noted")) for it in known)
        left = [it for it in self.edits if it not in known]
        self.verdicts.write()
        if not left:
            return
        if not crates.is_proved(self.crate) and self.checked([])[0].status:
            why = Told(False, "the crate isn't proved as it stands: make build")
            self.told.update((it.name, why) for it in left)
            return
        with concurrent.futures.ThreadPoolExecutor(self.asked.jobs) as pool:
            if not self.asked.alone:
                list(pool.map(self.try_lot, wrong_bodies.lots(left, MOST)))
            alone = [it for it in left if it.name not in self.told]
            list(pool.map(self.try_alone, alone))


def must_fail(crate: str) -> List[pathlib.Path]:
    """The files of a crate's edits that the gate always tries."""
    return sorted((TOP / "crates" / crate / "must-fail").glob("*.edit"))


def paths_of(crate: str) -> List[pathlib.Path]:
    """The files of a crate's edits."""
    return [*sorted((TOP / "edits" / crate).glob("*.edit")), *must_fail(crate)]


def tried(crate: str, asked: argparse.Namespace, turns: threading.Semaphore) -> Tuple[int, int]:
    """Tries the edits of a crate, and prints what became of them. Returns how many were refused,
    and how many not."""
    began = time.monotonic()
    out = TOP / "crates" / crate / "out"
    if not any((out / it).is_dir() for it in ("incremental", "rlib")):
        print(f"{crate}: nothing is proved of it yet: make build", flush=True)
        return 0, 1
    trial = Trial(crate, asked, turns)
    trial.run()
    passed = sum(it.is_refused for it in trial.told.values())
    failed = len(trial.told) - passed
    took = time.monotonic() - began
    print(
        f"{crate}: {passed} of {len(trial.told)} edits are refused,"
        f" by {trial.checks} checks in {took:.0f} s", flush=True,
    )
    for name, told in sorted(trial.told.items()):
        if not told.is_refused:
            print(f"{crate}/{name}: NOT REFUSED: {told.said[:300]}", flush=True)
    return passed, failed


def main(words: Optional[List[str]] = None) -> int:
    """Does what the words ask for."""
    parser = argparse.ArgumentParser(description="Tries the edits that must fail.")
    parser.add_argument("crates", nargs="*", metavar="CRATE")
    parser.add_argument("--jobs", type=int, default=os.cpu_count() or 1)
    parser.add_argument("--alone", action="store_true")
    which = parser.add_mutually_exclusive_group()
    which.add_argument("--anew", action="store_true")
    which.add_argument("--must-fail", action="store_true")
    parser.add_argument("--draw", type=int, default=0, metavar="N")
    parser.add_argument("--only", default="", metavar="WORD")
    asked = parser.parse_args(words)
    names = asked.crates or [it for it in crates.rows() if paths_of(it)]
    unknown = [it for it in names if not paths_of(it)]
    if unknown:
        parser.error(f"there are no edits of {' '.join(unknown)}")
    turns = threading.Semaphore(asked.jobs)
    with concurrent.futures.ThreadPoolExecutor(len(names)) as pool:
        # what has most to try begins first
        names.sort(key=lambda it: -len(paths_of(it)))
        counts = list(pool.map(lambda it: tried(it, asked, turns), names))
    passed, failed = (sum(it[at] for it in counts) for at in (0, 1))
    print(f"{passed} passed, {failed} failed")
    return 1 if failed else 0


if __name__ == "__main__":
    sys.exit(main())
