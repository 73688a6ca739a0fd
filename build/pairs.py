#!/usr/bin/env python3
"""Changes each definition of a crate in small ways, on a copy, and tells which changes no worked
example refuses: such a definition is pinned by none, since its body can be changed with it.

usage: build/pairs.py [--jobs N] [--list] [--draw NUMBER] [--but FILE]... [--edit FILE]...
                      CRATE [WORD..]

Changes the definitions of the crate, or those changes that have one of these words. --list shows
the changes, and tries none; --draw tries so many of them, drawn by lot; --but leaves out those that
a file tells of: a list, or what an earlier run printed. --edit tries a change by hand, a file with
lines `file:`, `old:`, `new:` as an edit that must fail, in place of the small ones. --jobs N makes
so many checks side by side.

A change is one more or one less in a number, another last character in a text, `||` for `&&`, `<`
for `<=` and the reverse, `false` for `true` and the reverse, or the answers of two cases exchanged.
Where the changed word needs an import, it gets one.

Several changes are tried in one check of examples. Each has there an example's clause of its own:
one that cites what it changes, and nothing that another one changes. Where that clause is refused,
so is the change. Changes that are left are put together otherwise, and then so with the laws, whose
proofs too cite nothing that another one changes. What is left is tried alone with examples and
laws, and at last on the whole crate: where that alone refuses a change, a lemma does. For each is
told what refuses it, or that it STANDS. The last line counts them. Needs rt, and the crate proved.
"""
import argparse
import collections
import concurrent.futures
import enum
import functools
import os
import pathlib
import random
import re
import sys
import tempfile
import threading
from typing import Dict, FrozenSet, Iterator, List, NamedTuple, Optional, Sequence, Set, Tuple

sys.dont_write_bytecode = True
import crates
import edits
import wrong_bodies
from rattle_text import START, Key, imports
from statement import Statement, functions_of

# modules of specs/ that hold examples and laws alone
NOT_CHANGED = re.compile(r"^(Lib|\w*Examples?|\w*Laws?)\.antt$")
# what is said otherwise, and how
WORDS = {
    "&&": "||", "nat_le": "nat_lt", "nat_lt": "nat_le", "≤": "<", "<": "≤",
    "true": "false", "false": "true", "Less": "Greater", "Greater": "Less",
}
WORD = re.compile(
    r"(?<![\w.#'◌{])(&&|nat_le|nat_lt|≤|<|true|false|Less|Greater|0x[0-9A-Fa-f]+|\d+)(?![\w'◌])"
    r"|(?:octet|codes) \"([^\"\\]+)\""
)
CASE = re.compile(r"^(\w[\w']*)( .*?)? = (.*)$")
# what a check says of a clause that doesn't hold, and of a line that doesn't compile
UNPROVED = re.compile(r"^fn \S*?::(\w+): no proof: .*? did not prove (.*)$")
REJECTED = re.compile(r"^(?:\./)?(specs/\S+?):(\d+):\d+: error: (.*)$")
# at most so many changes in one check
MOST = 12

Clause = Tuple[str, str]  # a function, and its clause, or no text for all of them
Cited = Dict[Clause, "Citing"]
Lines = Dict[Tuple[str, int], str]  # what stands in place of a line of a file


class Change(NamedTuple):
    """What is said otherwise, in which lines, of which definition, and the text in place of which
    another one stands, if it is a text."""

    said: str
    lines: Lines
    key: Optional[Key]
    word: str = ""


class Citing(NamedTuple):
    """What a clause cites, directly or through others, and the clause itself."""

    keys: FrozenSet[Key]
    text: str


class End(enum.Enum):
    """How a change ended, as it is said of one."""

    REFUSED = ""
    BY_A_LEMMA = "a lemma alone: "
    STANDS = "STANDS"
    REJECTED = "DOESN'T COMPILE: "


# ---- changes


def otherwise(found: "re.Match[str]") -> List[Tuple[int, int, str]]:
    """Where other words stand in place of what was found, and which, in a change each."""
    if found[2]:
        last = found.end(2) - 1
        other = chr(ord(found.string[last]) + 1)
        return [(last, last + 1, other if other not in '"\\' else "a")]
    start, end, word = found.start(1), found.end(1), found[1]
    if word in WORDS:
        return [(start, end, WORDS[word])]
    number = int(word, 0)
    return [(start, end, str(it)) for it in (number + 1, number - 1) if it >= 0]


def can_be_exchanged(this: "re.Match[str]", following: "re.Match[str]") -> bool:
    """Whether two cases of a definition can have each other's answers: none names what it alone
    has."""
    ours, theirs = (set(re.findall(r"[\w']+", it[2] or "")) for it in (this, following))
    uses, others = (set(re.findall(r"[\w']+", it[3])) for it in (this, following))
    free = not uses & (ours - theirs) and not others & (theirs - ours)
    return this[1] == following[1] and this[3] != following[3] and free


def is_changed(line: str, numbered: Sequence[str]) -> bool:
    """Whether a line of a definition says what can be said otherwise. Numbers of faults and their
    names are held to docs/formats.md by tests/documents/numbers.sh."""
    if any(line.startswith((f"{it}_number ", f"{it}_name ")) for it in numbered):
        return False
    if re.match(r"--|(pub )?(use|mod|module|infix)|\s*--|.* : .*Type|\s*→ .*Type \d$", line):
        return False
    return " : " not in line or re.match(r"  pub ", line) is not None


def changes_of(crate: str, file: str) -> Iterator[Change]:
    """The changes of the definitions in a file of specs/."""
    text = (crates.TOP / "crates" / crate / file).read_text(encoding="utf-8")
    lines, key = text.split("\n"), None
    module = pathlib.Path(file).stem
    numbered = [
        it for it in re.findall(r"^(\w+)_number ", text, re.M) if f"\n{it}_name " in text
    ]
    for at, line in enumerate(lines):
        start = START.match(line)
        key = Key(crate, module, start[1]) if start else key
        if not is_changed(line, numbered):
            continue
        code = line.split("  --")[0]
        for found in WORD.finditer(code):
            for begin, end, other in otherwise(found):
                new = code[:begin] + other + code[end:]
                said = f"{module}: {new.strip()}  ({code[begin:end]})"
                yield Change(said, {(file, at): new}, key, found[2] or "")
        this, following = CASE.match(line), CASE.match(lines[at + 1] if at + 1 < len(lines) else "")
        if this and following and can_be_exchanged(this, following):
            swapped = [f"{it[1]}{it[2] or ''} = {of[3]}"
                       for it, of in ((this, following), (following, this))]
            said = f"{module}: {swapped[0]} (exchanged with the next)"
            yield Change(said, {(file, at + k): it for k, it in enumerate(swapped)}, key)


def change_by_hand(path: pathlib.Path, crate: str) -> Change:
    """The change that a file of an edit holds."""
    edit = wrong_bodies.edit_of(path, crates.TOP / "crates" / crate)
    folder = crates.TOP / "crates" / crate
    before = {it: (folder / it).read_text(encoding="utf-8") for it in edit.lines}
    lines: Lines = {}
    for file, text in wrong_bodies.with_edits(before, [edit]).items():
        old, new = before[file].split("\n"), text.split("\n")
        lines.update({(file, at): it for at, it in enumerate(new) if old[at] != it})
    return Change(path.name, lines, None)


def without_told(changes: Sequence[Change], told: Sequence[str]) -> List[Change]:
    """The changes that these lines don't tell of. Those that are said alike are left out where each
    of them is told."""
    count = collections.Counter(it.said for it in changes)
    return [
        change for change in changes
        if sum(it == change.said or it.startswith(change.said + ": ") for it in told)
        < count[change.said]
    ]


def with_imports(text: str) -> str:
    """A file that imports also the words that stand in place of its own, from where these come."""
    code = "\n".join(it for it in text.split("\n") if not it.startswith(("use ", "--")))
    for word, other in WORDS.items():
        old, new = (it if it[0].isalpha() else f"◌{it}◌" for it in (word, other))
        is_used = re.search(rf"(?<![\w◌]){re.escape(other)}(?![\w◌])", code)
        if not is_used or re.search(rf"^use .*[{{ ]{re.escape(new)}[,}}]", text, re.M):
            continue
        text = re.sub(rf"^(use .*[{{ ]{re.escape(old)})(?=[,}}])", rf"\1, {new}", text, 1, re.M)
    return text


# ---- what examples and laws cite


def cited_by(crate: str, topic: str) -> Cited:
    """The definitions of this crate that each clause of its examples cites, directly or through
    others; and, under no name, what all clauses of an example or of a law and their proof cite."""
    facts, found = Statement(), {}
    source = pathlib.Path(f"crates/{crate}/src")
    for path in sorted([*source.glob(f"{topic}.rt"), *source.glob(f"{topic}/**/*.rt")]):
        for call in functions_of(str(path), lambda *_: True):
            name = call.name.split("::")[-1]
            proof = names_of_proof(crate, topic, name, facts)
            parts = [("", call.clauses, {it for it in map(facts.found, proof) if it})]
            if topic == "examples":
                parts += [(it[0], [it], set()) for it in call.clauses]
            for clause, said, proved in parts:
                closure = facts.closure(facts.roots(said, call.scope) | proved)
                keys = frozenset(it for it in closure if it.crate == crate)
                found[name, clause] = Citing(keys, " ".join(text for _, text in said))
    return found


def names_of_proof(crate: str, topic: str, function: str, facts: Statement) -> Set[Key]:
    """What the proof of an example or a law imports of specs/, itself or through other files of
    proofs/."""
    folder = pathlib.Path(f"crates/{crate}/proofs/{topic}")
    todo = sorted(folder.glob(f"**/{function}/*.antt"))
    seen: Set[pathlib.Path] = set()
    names: Set[Key] = set()
    while todo:
        path = todo.pop()
        if path in seen or not path.is_file():
            continue
        seen.add(path)
        for key in imports(path.read_text(encoding="utf-8"), r"use").values():
            if key.module.startswith("proofs."):
                file = pathlib.Path("crates", key.crate, *key.module.split("."))
                todo.append(file.with_suffix(".antt"))
            elif key.name:
                names.add(key)
            elif key[:2] in facts.modules:
                names.update(facts.modules[key[:2]].names)
    return names


def put_together(changes: Sequence[Change], cited: Cited) -> List[List[Change]]:
    """Changes in lots, in each of which every one has a clause of its own. Those that no clause
    cites are each alone."""
    lots: List[List[Change]] = []
    for change in changes:
        for lot in lots:
            more = [*lot, change]
            if len(lot) < MOST and all(own_clauses(it, more, cited) for it in more):
                lot.append(change)
                break
        else:
            lots.append([change])
    return lots


def own_clauses(change: Change, lot: Sequence[Change], cited: Cited) -> Set[Clause]:
    """The clauses that cite what this change of a lot changes, and nothing that another one
    does."""
    others = {it.key for it in lot if it is not change}
    if change.key in others:
        return set()
    return {it for it, of in cited.items() if change.key in of.keys and not others & of.keys}


def first_tried(change: Change, own: Set[Clause], cited: Cited) -> Set[str]:
    """The functions of a change's own clauses that are tried first: two with its word, and with
    little to compute."""
    size: Dict[str, int] = collections.Counter()
    for name, clause in own:
        size[name] = max(size[name], len(cited[name, clause].text))
    named = {name for name, clause in own if f'"{change.word}"' in cited[name, clause].text}
    return set(sorted(size, key=lambda name: (name not in named, size[name], name))[:2])


# ---- checks


class Copies:
    """Copies of a crate, one for each check that runs at a time."""

    def __init__(self, crate: str, place: pathlib.Path, count: int) -> None:
        self.crate = crate
        self.free = [edits.View(crate, place / str(it)) for it in range(count)]
        self.turns, self.lock = threading.Semaphore(count), threading.Lock()

    def check(self, lot: Sequence[Change], only: Sequence[str]) -> List[str]:
        """What a check of the crate with these changes says; nothing where all is proved."""
        lines: Lines = {}
        for it in lot:
            lines.update(it.lines)
        with self.turns:
            with self.lock:
                view = self.free.pop()
            try:
                texts = {file: self.text_of(file, lines) for file, _ in lines}
                check = view.checked(texts, [word for it in only for word in ("--only", it)])
            finally:
                with self.lock:
                    self.free.append(view)
        return check.lines if check.status else []

    def text_of(self, file: str, lines: Lines) -> str:
        """A file with its changed lines."""
        text = (crates.TOP / "crates" / self.crate / file).read_text(encoding="utf-8")
        kept = text.split("\n")
        return with_imports("\n".join(lines.get((file, at), it) for at, it in enumerate(kept)))


def refused_clauses(said: Sequence[str]) -> Set[Clause]:
    """The clauses of examples that a check didn't prove, and the functions."""
    found = set()
    for line in said:
        function = re.match(r"^fn \S*?::(\w+): (?:not proved|no proof)", line)
        if function:
            found.add((function[1], ""))
        unproved = UNPROVED.match(line)
        for name in re.findall(r"`returns(?:-clause-)?([^`]*)`", unproved[2]) if unproved else ():
            found.add((unproved[1], name or "ensures") if unproved else ("", ""))
    return found


def rejection(change: Change, said: Sequence[str]) -> str:
    """What a check says of a line of this change that doesn't compile, or nothing."""
    for line in said:
        rejected = REJECTED.match(line)
        if rejected and (rejected[1], int(rejected[2]) - 1) in change.lines:
            return rejected[3]
    return ""


def first_refusals(said: Sequence[str]) -> str:
    """The first few names that a failed check gives."""
    patterns = (r"^fn \S*?::(\w+): no(?:t| proof)", r"^(?:\./)?(proofs/\S+?):.*error")
    found = [re.match(pattern, line) for pattern in patterns for line in said]
    names = [it[1] for it in found if it]
    return ", ".join(dict.fromkeys(names[:6])) or said[-1][:200]


class Trial:
    """The changes of a crate, and what is told of each."""

    def __init__(self, copies: Copies, cited: Dict[str, Cited]) -> None:
        self.copies, self.cited = copies, cited
        self.ends: Dict[int, End] = {}

    def tell(self, change: Change, end: End, by: str = "") -> None:
        """Tells how a change ended, and by what."""
        self.ends[id(change)] = end
        print(f"{change.said}: {end.value}{by}", flush=True)

    def left(self, changes: Sequence[Change]) -> List[Change]:
        """Those of which nothing is told yet."""
        return [it for it in changes if id(it) not in self.ends]

    def try_lot(self, lot: Sequence[Change], topic: str, is_first: bool) -> None:
        """Tries a lot in one check of the examples or the laws, at first of few of them, without
        what doesn't compile."""
        cited = self.cited[topic]
        own = {id(it): own_clauses(it, lot, cited) for it in lot}
        names = {name for it in own.values() for name, _ in it}
        if is_first:
            names = {name for it in lot for name in first_tried(it, own[id(it)], cited)}
        said = self.copies.check(lot, sorted(names))
        hurt = [it for it in lot if rejection(it, said)]
        for change in hurt:
            self.tell(change, End.REJECTED, rejection(change, said))
        if hurt:
            rest = [it for it in lot if it not in hurt]
            if rest:
                self.try_lot(rest, topic, is_first)
            return
        failed = refused_clauses(said)
        for change in lot:
            by = sorted(own[id(change)] & failed)
            if by:
                self.tell(change, End.REFUSED, ", ".join(".".join(it).rstrip(".") for it in by[:3]))

    def try_alone(self, change: Change) -> None:
        """Tries a change by examples and laws, and then on the whole crate."""
        source = crates.TOP / "crates" / self.copies.crate / "src"
        modules = [it for it in ("examples", "laws") if (source / f"{it}.rt").is_file()]
        said = self.copies.check([change], modules) if modules else []
        if said:
            why = rejection(change, said)
            self.tell(change, End.REJECTED if why else End.REFUSED, why or first_refusals(said))
        elif self.copies.check([change], []):
            self.tell(change, End.BY_A_LEMMA)
        else:
            self.tell(change, End.STANDS)

    def run(self, changes: Sequence[Change], jobs: int) -> None:
        """Tries all in lots, twice with examples and twice with laws, and the rest alone."""
        with concurrent.futures.ThreadPoolExecutor(jobs) as pool:
            for seed, topic in enumerate(("examples", "examples", "laws", "laws")):
                left, cited = self.left(changes), self.cited[topic]
                mixed = random.Random(seed).sample(left, len(left))
                lots = [it for it in put_together(mixed, cited) if own_clauses(it[0], it, cited)]
                is_first = (seed, topic) == (0, "examples")
                list(pool.map(functools.partial(
                    self.try_lot, topic=topic, is_first=is_first), lots))
            list(pool.map(self.try_alone, self.left(changes)))


def main(words: Optional[List[str]] = None) -> int:
    """Does what the words ask for."""
    parser = argparse.ArgumentParser(
        description="Changes definitions, and tells what refuses that.")
    parser.add_argument("crate", metavar="CRATE")
    parser.add_argument("words", nargs="*", metavar="WORD")
    parser.add_argument("--jobs", type=int, default=1, metavar="N")
    parser.add_argument("--list", action="store_true")
    parser.add_argument("--draw", type=int, default=0, metavar="NUMBER")
    parser.add_argument("--but", action="append", default=[], type=pathlib.Path, metavar="FILE")
    parser.add_argument("--edit", action="append", default=[], type=pathlib.Path, metavar="FILE")
    asked = parser.parse_args(words)
    folder = pathlib.Path("crates", asked.crate, "specs")
    names = [it.name for it in sorted(folder.glob("*.antt")) if not NOT_CHANGED.match(it.name)]
    changes = [change_by_hand(it, asked.crate) for it in asked.edit] or [
        change for name in names for change in changes_of(asked.crate, f"specs/{name}")
        if not asked.words or any(word in change.said for word in asked.words)
    ]
    told = [line for path in asked.but for line in path.read_text(encoding="utf-8").split("\n")]
    changes = without_told(changes, told)
    if asked.draw:
        changes = random.Random(asked.crate).sample(changes, min(asked.draw, len(changes)))
    if asked.list:
        print("\n".join(it.said for it in changes))
        return 0
    cited = {it: cited_by(asked.crate, it) for it in ("examples", "laws")}
    with tempfile.TemporaryDirectory(prefix="pairs-") as place:
        trial = Trial(Copies(asked.crate, pathlib.Path(place), asked.jobs), cited)
        trial.run(changes, asked.jobs)
    ends = list(trial.ends.values())
    print(f"{ends.count(End.REFUSED)} refused, {ends.count(End.BY_A_LEMMA)} by a lemma alone,"
          f" {ends.count(End.STANDS)} stand, {ends.count(End.REJECTED)} don't compile")
    return 1 if End.BY_A_LEMMA in ends or End.STANDS in ends else 0


if __name__ == "__main__":
    os.chdir(crates.TOP)
    sys.exit(main())
