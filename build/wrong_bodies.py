#!/usr/bin/env python3
"""Edits that must fail, as texts: what each changes, which functions it changes, and which of them
can share one check. build/edits.py tries them. Nothing is run here.
"""
import pathlib
import re
from typing import (
    Callable, Dict, FrozenSet, Iterable, Iterator, List, Mapping, NamedTuple, Optional, Sequence,
)

import rattle_text

FUNCTION = re.compile(
    r"^ *(?:pub(?:\([a-z ]+\))? )?(?:const )?(?:final )?(?:unsafe )?(?:extern .{3} )?fn (\w+)", re.M
)


# what is said of a function to the compiler or the prover alone
TO_TOOLS = re.compile(rb"^ *#\[(?:inline|cold|tactic)\b.*\n", re.M)
CONSTANT = re.compile(r"^ *(?:pub(?:\([a-z ]+\))? )?(?:const|static) (\w+):", re.M)
# an import: what it is, its path, and its names where it has several
IMPORT = re.compile(r"^ *((?:ghost )?use) ([^;{}]*)(?:\{([^{}]*)\})?;\n", re.M)
# a constant that no other crate sees, on a line of its own
OWN_CONSTANT = re.compile(r"^ *const (\w+):.*;\n", re.M)


class Function(NamedTuple):
    """A function of a file: its lines, from its comment to its last brace, and its names."""

    file: str
    first: int
    last: int
    owner: str
    name: str


class Pair(NamedTuple):
    """A text of a file, and what stands in its place. Neither has more than a line."""

    file: str
    old: str
    new: str


class Edit(NamedTuple):
    """An edit that must fail: its file's name, the lines that it changes by their numbers, file by
    file, and the functions that it changes. It is alone in its check where it changes more than
    functions and constants that these name."""

    name: str
    text: str
    lines: Mapping[str, Mapping[int, str]]
    changed: FrozenSet[Function]
    is_alone: bool


class Unfit(Exception):
    """An edit that doesn't apply to the sources, and why."""


def functions_of(file: str, text: str) -> List[Function]:
    """The functions of a file, in its order; one within another comes after it."""
    code, found = rattle_text.masked(text), []
    owners = rattle_text.blocks(code)
    for head in FUNCTION.finditer(code):
        start = head.start() + len(head.group()) - len(head.group().lstrip())
        _, at = rattle_text.clauses_after(text, code, head.end())
        last = rattle_text.closing(code, at) if at < len(code) and code[at] == "{" else at
        lines = text[:start].split("\n")
        first = len(lines)
        while first > 1 and re.match(r"\s*(///|#\[)", lines[first - 2]):
            first -= 1
        held = [it[2] for it in owners if it[0] < start < it[1]]
        owner = held[-1] if held else ""
        found.append(Function(file, first, text.count("\n", 0, last) + 1, owner, head.group(1)))
    return found


def path_of(function: Function) -> str:
    """A pattern of the path by which a check names a function: of an impl of a trait that names both."""
    owner = [rf"{function.owner}\w*"] if function.owner else []
    return "::".join([*module_of(function), *owner, function.name])


def module_of(function: Function) -> List[str]:
    """The names of the module that a function stands in."""
    module = function.file[len("src/"):-len(".rt")].split("/")
    return [it for it in module if it not in ("lib", "main", "mod")]


def without_bodies(source: bytes) -> bytes:
    """A source file without the bodies of its functions, of which all others know the clauses alone."""
    return kept_of(source, lambda head, code: True)


def seen_from_outside(source: bytes) -> bytes:
    """A source file as other crates know it: without the bodies of its functions, without the
    functions that no other crate can call, without what is said to the compiler or the prover
    alone, and without imports and constants of its own that nothing of the rest names."""
    text = TO_TOOLS.sub(b"", kept_of(source, is_callable)).decode("utf-8")
    before = ""
    while text != before:
        before, text = text, without_unnamed(text)
    return text.encode("utf-8")


def without_unnamed(text: str) -> str:
    """A text without blank lines, and without imports and constants of its own that nothing else in
    it names."""
    rest = IMPORT.sub("", text)

    def is_named(word: str, most: int = 0) -> bool:
        # of an operator, whose places are marked, any part may be what stands in the text
        parts = [it for it in word.split(" as ")[-1].strip().split("◌") if it.strip()]
        return any(len(re.findall(rf"(?<!\w){re.escape(it)}(?!\w)", rest)) > most for it in parts)

    def named(found: "re.Match[str]") -> str:
        kind, path, names = found.groups()
        if names is None:
            return found[0] if is_named(re.split(r"::|\.", path)[-1]) else ""
        kept = sorted(it.strip() for it in names.split(",") if is_named(it))
        return "".join(f"{kind} {path}{it};\n" for it in kept)

    text = IMPORT.sub(named, text)
    text = OWN_CONSTANT.sub(lambda it: it[0] if is_named(it[1], 1) else "", text)
    return re.sub(r"\n\s*\n", "\n", text)


def is_callable(head: "re.Match[str]", code: str) -> bool:
    """Whether other crates may call the function that begins here: it is public, or of a trait."""
    held = [it for it in rattle_text.blocks(code) if it[0] < head.start() < it[1]]
    is_of_trait = bool(held) and (held[-1][3] == "trait" or bool(held[-1][4]))
    return is_of_trait or head.group().lstrip().startswith("pub ")


def kept_of(source: bytes, is_kept: Callable[["re.Match[str]", str], bool]) -> bytes:
    """A source file without the bodies of its functions, and of those that are kept alone what stands before
    a body."""
    text = source.decode("utf-8")
    code, kept, end = rattle_text.masked(text), "", 0
    for head in FUNCTION.finditer(code):
        _, at = rattle_text.clauses_after(text, code, head.end())
        if at >= end and at < len(code) and code[at] == "{":
            kept += text[end:at] if is_kept(head, code) else text[end:head.start()]
            end = rattle_text.closing(code, at) + 1
    return (kept + text[end:]).encode("utf-8")


def function_at(functions: Sequence[Function], line: int) -> Optional[Function]:
    """The innermost function that has this line."""
    held = [it for it in functions if it.first <= line <= it.last]
    return held[-1] if held else None


def pairs_of(text: str) -> Iterator[Pair]:
    """The pairs of an edit's file."""
    file, old = "", ""
    for line in text.split("\n"):
        word, _, rest = line.partition(":")
        if word == "file":
            file = rest.strip()
        elif word == "old":
            old = rest[1:]
        elif word == "new":
            yield Pair(file, old, rest[1:])


def constant_at(code: str, line: int) -> str:
    """The name of the constant whose item has this line, or no text."""
    for head in CONSTANT.finditer(code):
        end = head.end()
        while code[end] != ";":
            end = rattle_text.closing(code, end) + 1 if code[end] in "([{" else end + 1
        if code.count("\n", 0, head.start(1)) < line <= code.count("\n", 0, end) + 1:
            return head.group(1)
    return ""


def users_of(constant: str, crate: pathlib.Path) -> Optional[FrozenSet[Function]]:
    """The functions of a crate that name a constant, themselves or by another one; none where more
    than functions name it, as the type of an array does."""
    found: FrozenSet[Function] = frozenset()
    for path in sorted((crate / "src").rglob("*.rt")):
        file, text = str(path.relative_to(crate)), path.read_text(encoding="utf-8")
        code = rattle_text.masked(text)
        lines = [it.group() for it in re.finditer(r"[^\n]*\n?", code)]
        functions = functions_of(file, text) if re.search(rf"\b{constant}\b", code) else []
        for number, line in enumerate(lines, 1):
            if not re.search(rf"\b{constant}\b", line) or re.match(r"\s*(pub )?use ", line):
                continue
            function, other = function_at(functions, number), constant_at(code, number)
            if function:
                found |= {function}
            elif other != constant:
                more = users_of(other, crate) if other else None
                if more is None:
                    return None
                found |= more
    return found


def edit_of(path: pathlib.Path, crate: pathlib.Path) -> Edit:
    """The edit in this file, for the crate in this folder."""
    text = path.read_text(encoding="utf-8")
    pairs = tuple(pairs_of(text))
    if not pairs:
        raise Unfit("it has no text that it changes")
    before: Dict[str, str] = {}
    after: Dict[str, str] = {}
    for file, old, new in pairs:
        if not (crate / file).is_file():
            raise Unfit(f"there is no {file}")
        if file not in before:
            before[file] = after[file] = (crate / file).read_text(encoding="utf-8")
        if after[file].count(old) != 1:
            raise Unfit(f"stands {after[file].count(old)} times in {file}: {old.strip()}")
        after[file] = after[file].replace(old, new)
    lines = {file: changed_lines(it, after[file]) for file, it in before.items()}
    changed: Optional[FrozenSet[Function]] = frozenset()
    for file, numbers in lines.items():
        for number in numbers:
            more = changed_at(file, before[file], number, crate)
            changed = None if changed is None or more is None else changed | more
    return Edit(path.name, text, lines, changed or frozenset(), not changed)


def changed_lines(before: str, after: str) -> Mapping[int, str]:
    """The lines that are other ones in the second text, by their numbers."""
    both = zip(before.split("\n"), after.split("\n"))
    return {number: new for number, (old, new) in enumerate(both, 1) if old != new}


def changed_at(
    file: str, text: str, line: int, crate: pathlib.Path
) -> Optional[FrozenSet[Function]]:
    """The functions that another text in this line changes; none where it changes more."""
    if not file.startswith("src/"):
        return None
    function = function_at(functions_of(file, text), line)
    if function:
        return frozenset([function])
    if re.match(r"\s*use ", text.split("\n")[line - 1]):
        return frozenset()
    constant = constant_at(rattle_text.masked(text), line)
    return users_of(constant, crate) if constant else None


def lots(edits: Iterable[Edit], most: int) -> List[List[Edit]]:
    """The edits that aren't alone, in as few lots as needed: at most so many in one, and those of
    one function in different ones."""
    found: List[List[Edit]] = []
    for edit in edits:
        if edit.is_alone:
            continue
        names = {it[3:] + it[:1] for it in edit.changed}
        for lot in found:
            taken = {it[3:] + it[:1] for other in lot for it in other.changed}
            if len(lot) < most and not names & taken:
                lot.append(edit)
                break
        else:
            found.append([edit])
    return found


def with_edits(texts: Mapping[str, str], edits: Sequence[Edit]) -> Dict[str, str]:
    """The texts of the files that these edits change, changed by all of them."""
    made = {}
    for file in {it for edit in edits for it in edit.lines}:
        lines = texts[file].split("\n")
        for edit in edits:
            for number, line in edit.lines.get(file, {}).items():
                lines[number - 1] = line
        made[file] = "\n".join(lines)
    return made
