#!/usr/bin/env python3
"""Rattle's text: comments, definitions, types and functions with their clauses, found as text.

usage: build/rattle_text.py --names              what documents can name, a name a line
       build/rattle_text.py --calls FILE NAME    the first text that each call of NAME is given
       build/rattle_text.py --arms FILE ITEM     the texts that the arms of a match give in an item

NAME is a regular expression, and ITEM what the item begins with. Nothing is proved, and the tools of
Rattle are not asked. statement.py, the map and the tests of names and words read the sources so.
Needs Python 3.
"""
import glob
import re
import sys
from typing import Callable, Dict, Iterable, List, NamedTuple, Set, Tuple


class Key(NamedTuple):
    """Where a word of specs/ stands; a module itself has no name."""

    crate: str
    module: str
    name: str


Scope = Dict[str, Key]  # what can be named in a file, and where it stands
# its begin and end, its type, `impl` or `trait`, and of which trait
Block = Tuple[int, int, str, str, str]

IMPORT = r"\s+Rattle\.(\w+)\.(?:specs\.)?(\w+(?:\.\w+)*)(?:\.\{([^}]*)\}|\s+as\s+(\w+))?"
START = re.compile(
    r"(?: *(?:abbrev|unfoldable|record|data|inductive) pub| *pub (?:record|data|inductive)"
    r"|abbrev|unfoldable|record|data)\s+([^\s:({]+)"
)


ITEM = re.compile(
    r"^ *(?:pub(?:\(\w+\))? )?(?:const |extern .{3} )?(fn|struct|enum|trait|const|type) (\w+)", re.M
)
# a field or a variant, as the kit's layout has it
PART = r"^    (?:pub(?:\(\w+\))? )?(?:ghost )?(\w+)(?=,|:|\(| \{|$)"


class Definition(NamedTuple):
    """One of specs/: the comment before it, and its lines, those of comments in it too."""

    key: Key
    sentence: List[str]
    text: List[str]

    @property
    def size(self) -> int:
        """How many lines it has to read."""
        return sum(not re.match(r"\s*(--|infix)", line) for line in self.text)


class Module(NamedTuple):
    """A file of specs/: what it says of itself, what can be named in it, what it gives on."""

    about: str
    scope: Scope
    names: List[Key]


# ---- texts


def read(path: str) -> str:
    """The text of a file."""
    with open(path, encoding="utf8") as file:
        return file.read()


def imports(text: str, keyword: str) -> Scope:
    """What can be named through the imports of a file: the name in it, and where it stands."""
    found = {}
    for crate, module, listed, alias in re.findall(keyword + IMPORT, text):
        for part in listed.split(","):
            there, _, here = part.strip().partition(" as ")
            if there:
                found[here or there] = Key(crate, module, there)
        if not listed:
            found[alias or module.split(".")[-1]] = Key(crate, module, "")
    return found


def masked(text: str) -> str:
    """The text of code with blanks in place of comments, strings and characters."""
    pattern = r"//[^\n]*|\"(?:\\[\s\S]|[^\"\\])*\"|b?'(?:\\.|[^\\'\n])'"
    return re.sub(pattern, lambda m: re.sub(r"[^\n]", " ", m.group()), text)


def closing(text: str, at: int) -> int:
    """Where the bracket that opens at this place is closed."""
    depth = 0
    for i in range(at, len(text)):
        depth += (text[i] in "([{") - (text[i] in ")]}")
        if depth == 0:
            return i
    raise ValueError("a bracket stays open")


def dedented(text: str) -> List[str]:
    """The lines of a text without what all of them begin with, as their first one does."""
    lines = text.rstrip().split("\n")
    margin = len(lines[0]) - len(lines[0].lstrip())
    return [line[margin:] if not line[:margin].strip() else line for line in lines]


def doc_before(text: str, at: int) -> List[str]:
    """The doc comment of the item that begins at this place, and where its attributes begin."""
    doc: List[str] = []
    lines = text[:at].split("\n")[:-1]
    while lines and re.match(r"\s*(///|#\[)", lines[-1]):
        line = lines.pop().strip()
        if line.startswith("///"):
            doc.insert(0, line[3:].strip())
    return doc


# ---- definitions


def module_of(path: str) -> Tuple[Module, List[Definition]]:
    """The module of a file of specs/, and its definitions."""
    _, crate, _, file = path.split("/")
    name, text = file[: -len(".antt")], read(path)
    lines = text.split("\n")
    head = [line[2:].strip() for line in lines[: next_code(lines)] if line.startswith("--")]
    found: List[Definition] = []
    comment: List[str] = []
    precedence: List[str] = []
    for line in lines[next_code(lines) :]:
        start = START.match(line)
        if start:
            key = Key(crate, name, start.group(1))
            sentence = [c.strip()[2:].strip() for c in comment]
            found.append(Definition(key, sentence, precedence + [line]))
        if line.lstrip().startswith("--"):
            comment.append(line)
        elif re.match(r"infix", line):
            precedence = [line]
        else:
            if found and not start and re.match(r"\s*\S", line) and not is_outside(line):
                found[-1].text.extend(comment + [line])
            comment, precedence = [], []
    scope = imports(text, r"use")
    scope.update({d.key.name: d.key for d in found})
    return Module(" ".join(head), scope, [d.key for d in found]), found


def next_code(lines: List[str]) -> int:
    """The first line that is no comment."""
    return next((i for i, line in enumerate(lines) if not line.startswith("--")), len(lines))


def is_outside(line: str) -> bool:
    """Whether the line belongs to no definition."""
    return re.match(r"(pub )?(use|mod|module) ", line) is not None


# ---- code


def blocks(code: str) -> List[Block]:
    """The blocks `impl` and `trait` of a file: where they stand, of what, and of which trait."""
    found = []
    for start in re.finditer(r"^(?:pub )?(impl|trait)\b", code, re.M):
        brace = code.index("{", start.end())
        head = re.sub(r"^\s*<.*?>(?= \w)", "", code[start.end() : brace].replace("->", "")).strip()
        of_trait, _, rest = head.rpartition(" for ")
        [owner] = re.findall(r"\A\W*(?:'\w+ )?(\w+)", rest)
        found.append((start.start(), closing(code, brace), owner, start.group(1), of_trait))
    return found


def clauses_after(text: str, code: str, at: int) -> Tuple[List[Tuple[str, str, str]], int]:
    """The clauses of the function whose name ends at this place, and where they end.

    A clause is its keyword, its name, which may be none, and its text.
    """
    found: List[Tuple[str, str, str]] = []
    i = at
    while i < len(code) and code[i] not in ";{":
        word = re.compile(r"(requires|ensures)\b\*? *(\w*) *").match(code, i)
        if word and not code[i - 1].isalnum():
            end = closing(code, word.end()) + 1
            found.append((word[1], word[2], text[word.end() : end]))
            i = end
        else:
            i = closing(code, i) + 1 if code[i] in "([" else i + 1
    return found, i


def call_texts(path: str, name: str) -> List[str]:
    """The first text that each call of this name in a file is given, at any depth."""
    text = read(path)
    code = masked(text)
    found: List[str] = []
    for call in re.finditer(rf"\b(?:{name})(?=\()", code):
        given = text[call.end() : closing(code, call.end())]
        found += re.findall(r'"([^"]*)"', given)[:1]
    return found


def arm_texts(path: str, beginning: str) -> List[str]:
    """The texts that the arms of a match give, in the item that begins so."""
    item = re.findall(rf"^{re.escape(beginning)}.*?^}}", read(path), re.M | re.S)[0]
    return re.findall(r'=> b?"([^"]*)"', item)


# ---- names


def names_of_file(path: str) -> Tuple[str, str]:
    """The name of a file, with and without what it ends with."""
    file = path.split("/")[-1]
    return file, file.rpartition(".")[0]


def names_of_code(path: str) -> Set[str]:
    """What can be named of a file of src/: `x`; `x::y` of its type; `x.y` of its clauses."""
    text, (file, module) = read(path), names_of_file(path)
    code = masked(text)
    found, kinds = {file, module}, blocks(code)
    for head in re.finditer(ITEM, code):
        kind, name = head.groups()
        owners = [block[2] for block in kinds if block[0] < head.start() < block[1]]
        whole = [name] + [f"{it}::{name}" for it in owners]
        found.update(whole + [f"{module}::{name}"] * (kind == "fn"))
        if kind == "fn":
            for _, clause, _ in clauses_after(text, code, head.end())[0]:
                found.update([clause] + [f"{it}.{clause}" for it in whole])
        elif kind in ("struct", "enum") and code[head.end() :].lstrip(" ")[:1] in "{<":
            brace = code.index("{", head.end())
            parts = re.findall(PART, code[brace : closing(code, brace)], re.M)
            found.update(parts + [name + mark + part for part in parts for mark in ("::", ".")])
    for start, end, owner, _, trait in kinds:
        for ghost in re.findall(r"^    ghost (\w+)(?: =|:)", code[start:end], re.M):
            found.update([ghost, f"{owner}.{ghost}", f"{trait.partition('<')[0]}.{ghost}"])
    return found


def names_of_specs(path: str) -> Set[str]:
    """What can be named of a file of specs/: `x`; `x.y` of its module x, or of its record x."""
    file, module = names_of_file(path)
    found = {file, module}
    for definition in module_of(path)[1]:
        name = definition.key.name
        found.update([name, f"{module}.{name}"])
        for field in re.findall(r"^ +(?:pub )?([A-Za-z_]\w*) :", "\n".join(definition.text), re.M):
            found.update([field, f"{name}.{field}"])
    return found


def names_of_examples(path: str) -> Set[str]:
    """What can be named of worked examples in proofs/: a lemma `x`, and `x.y` of its module x."""
    file, module = names_of_file(path)
    lemmas = re.findall(r"^pub ([a-z]\S*) :", read(path), re.M)
    return {file, module}.union(lemmas, (f"{module}.{name}" for name in lemmas))


def all_names() -> List[str]:
    """What can be named of all crates, and the crates themselves."""
    found = set(re.findall(r"^[a-z]\w*|(?<= )\w+", re.sub("#.*", "", read("crates.txt")), re.M))
    for path in glob.glob("crates/*/src/**/*.rt", recursive=True):
        found |= names_of_code(path)
    for path in glob.glob("crates/*/specs/*.antt"):
        found |= names_of_specs(path)
    for path in glob.glob("crates/*/proofs/Examples.antt"):
        found |= names_of_examples(path)
    return sorted(found)


def sentences() -> Dict[str, str]:
    """The first sentence of each crate of crates.txt, in its order."""
    found = {}
    for crate in re.findall(r"^([a-z]\w*)[a-z ]*:", read("crates.txt"), re.M):
        (root,) = glob.glob(f"crates/{crate}/src/lib.rt") or glob.glob(f"crates/{crate}/src/main.rt")
        [head] = re.findall(r"\A(?://!.*\n)+", read(root))
        words = " ".join(line[3:].strip() for line in head.splitlines())
        [found[crate]] = re.findall(r"\A.*?[.](?= |$)", words)
    return found


ASKED: Dict[str, Callable[..., Iterable[str]]] = {
    "--names": all_names, "--calls": call_texts, "--arms": arm_texts
}

if __name__ == "__main__":
    if not set(sys.argv[1:2]) & set(ASKED):
        sys.exit(__doc__)
    print("\n".join(ASKED[sys.argv[1]](*sys.argv[2:])))
