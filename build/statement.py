"""The statement of the crates: their public clauses, and the definitions that these cite.

Reads crates/*/specs/*.antt, crates/*/src/*.rt and crates.txt by rattle_text.py. `Statement()` holds
it all. Lines of a definition are counted without comments, imports and operators' precedences.
"""
import glob
import os
import re
from typing import Callable, Dict, Iterable, List, NamedTuple, Optional, Set, Tuple, TypeVar

from rattle_text import (
    START, Definition, Key, Module, Scope, blocks, clauses_after, closing, dedented, doc_before,
    imports, masked, module_of, read
)

WORD = re.compile(r"[A-Za-z_◌][\w'\-◌]*")
SYMBOL = re.compile(r"[^\w\s(){}\[\].,;'\"]+|[A-Za-z_]\w*")
# of the kit's trait Model a caller sees what the value is; how it is kept, and laws, he doesn't
UNSEEN = ("view", "invariant", "inverse", "laws", "total", "matches_partial_cmp", "matches_eq")


Clause = Tuple[str, str]  # its name and its text
Place = Tuple[str, str]  # a crate, and a module, a type or a constant of it
IsPublic = Callable[[str, str, str], bool]  # of a path, a type and a function
Element = TypeVar("Element")


class Item(NamedTuple):
    """A type or a constant of src/. `value` is what contracts see of it where it isn't itself."""

    crate: str
    path: str
    doc: List[str]
    text: List[str]
    value: str
    scope: Scope


class Call(NamedTuple):
    """A public function, or what a type promises of a trait: its clauses, by name, in order."""

    crate: str
    name: str
    path: str
    doc: List[str]
    text: List[str]
    clauses: List[Clause]
    scope: Scope


# ---- what a text cites


def statements(text: List[str]) -> List[str]:
    """The signature of a definition, and its equations: a name is bound in one of them."""
    margin = len(text[0]) - len(text[0].lstrip(" "))
    found: List[List[str]] = [[]]
    for i, line in enumerate(text):
        heading = START.match(line) or not re.match(" " * (margin + 1), line)
        if i and heading and found[-1]:
            found.append([])
        found[-1].append(line)
    return ["\n".join(part) for part in found]


def bound_in(text: str) -> Set[str]:
    """The names that the text itself binds: parameters, fields and the patterns of an equation."""
    groups = re.findall(r"[({]\s*([\w' ]+?)\s*:", text) + re.findall(r"λ ([\w' ]+)\.", text)
    groups += re.findall(r"^\s+(?:pub )?([\w']+) :", text, re.M)
    return {word for group in groups for word in group.split()}


def words_of(text: str, scope: Scope) -> Set[str]:
    """The words of the scope that a text names, an operator where all its parts are there."""
    bare = re.sub(r"(?<=[\w)'])\.[A-Za-z_][\w'\-]*", " ", text)
    bare = re.sub(r"([{;]\s*)[\w']+ = ", r"\1", bare)
    words = set(WORD.findall(bare)) - bound_in(bare)
    tokens = set(SYMBOL.findall(bare)) | ({">>="} if "←" in bare else set())
    for name in scope:
        parts = [part for part in name.split("◌") if part]
        if "◌" in name and all(part in tokens for part in parts):
            words.add(name)
        elif name == "[]" and "[]" in bare:
            words.add(name)
    return words & set(scope)


def named_in(text: str, scope: Scope) -> Set[Key]:
    """Where the words stand that a text names: those of the scope, and those of its modules."""
    text = re.sub(r"(--|//).*|(?<=codes )\"[^\"]*\"", " ", text)
    found = {scope[word] for word in words_of(text, scope)}
    for alias, name in re.findall(r"(?<![\w.])(\w+)\.(\w[\w'\-]*)", text):
        if alias in scope and scope[alias].name == "":
            found.add(scope[alias]._replace(name=name))
    return found


# ---- code


def given_on(path: str) -> Tuple[Set[str], Set[Place]]:
    """What lib.rt and its public modules give on: public modules, and uses, by module and name."""
    text = masked(read(path))
    modules = set(re.findall(r"^pub mod (\w+);", text, re.M))
    used: Set[Place] = set()
    for module, group in re.findall(r"^pub use ([\w:]+)(?:::\{([^}]*)\})?(?:::\*)?;", text, re.M):
        if not group:
            module, _, group = module.rpartition("::")
        names = [word.split(" as ")[0].strip() for word in group.split(",")]
        used |= {(module.split("::")[-1], name) for name in names if name}
    for module in list(modules):
        inner, inner_used = given_on(f"{os.path.dirname(path)}/{module}.rt")
        modules |= inner
        used |= inner_used
    return modules, used


def functions_of(path: str, is_public: IsPublic) -> List[Call]:
    """The public functions of a file, with their clauses."""
    text, crate = read(path), path.split("/")[1]
    code, scope = masked(text), imports(text, r"ghost use")
    found: List[Call] = []
    kinds = blocks(code)
    for head in re.finditer(r"^ *(pub(?:\(\w+\))? )?(?:const |extern .{3} )?fn (\w+)", code, re.M):
        inside = [block for block in kinds if block[0] < head.start() < block[1]]
        owner, kind, trait = inside[0][2:] if inside else ("", "", "")
        seen = head.group(1) == "pub " or kind == "trait" or trait
        if not seen or not is_public(path, owner, head.group(2)):
            continue
        given, end = clauses_after(text, code, head.end())
        clauses = [(named if named and word == "ensures" else word, said)
                   for word, named, said in given]
        name = (owner + "::" if owner else "") + head.group(2)
        doc, whole = doc_before(text, head.start()), dedented(text[head.start() : end])
        found.append(Call(crate, name, path, doc, whole, clauses, scope))
    return found


def promises_of(path: str, is_public: IsPublic) -> List[Call]:
    """What the public types of a file promise of traits, the kit's `ghost` items in an `impl`."""
    text, crate = read(path), path.split("/")[1]
    code, scope = masked(text), imports(text, r"ghost use")
    found: List[Call] = []
    for start, end, owner, _, trait in blocks(code):
        if not trait or not is_public(path, owner, ""):
            continue
        promised: List[Clause] = []
        for ghost in re.finditer(r"^    ghost (\w+) = \{", code[start:end], re.M):
            brace = start + ghost.end() - 1
            if ghost.group(1) not in UNSEEN:
                promised.append((ghost.group(1), text[brace : closing(code, brace) + 1]))
        found.append(Call(crate, owner, path, [], [], promised, scope))
    return found


def values_in(text: str, code: str) -> Dict[str, str]:
    """What contracts see of the types of a file, by their names."""
    found = {}
    for start, end, owner, _, trait in blocks(code):
        value = re.search(r"^    ghost Value = \{", code[start:end], re.M)
        if trait == "Model" and value:
            brace = start + value.end() - 1
            found[owner] = " ".join(text[brace + 1 : closing(code, brace)].split())
    return found


def items_of(path: str) -> Dict[str, Item]:
    """The types and constants of a file of src/, by name."""
    text, crate = read(path), path.split("/")[1]
    code, scope = masked(text), imports(text, r"ghost use")
    found: Dict[str, Item] = {}
    values = values_in(text, code)
    for head in re.finditer(r"^(?:pub(?:\(\w+\))? )?(struct|enum|const) (\w+)", code, re.M):
        i = head.end()
        while code[i] not in "{;":
            i = closing(code, i) + 1 if code[i] in "([" else i + 1
        end = closing(code, i) + 1 if code[i] == "{" else i + 1
        body = re.sub(r"\n *#\[[^\n]*\]", "", text[head.start() : end]).split("\n")
        doc, name = doc_before(text, head.start()), head.group(2)
        found[name] = Item(crate, path, doc, body, values.get(name, ""), scope)
    return found


# ---- the whole


class Statement:
    """All modules, definitions, items and calls of the crates, and what cites what."""

    def __init__(self) -> None:
        self.modules: Dict[Place, Module] = {}
        self.definitions: Dict[Key, Definition] = {}
        self.items: Dict[Place, Item] = {}
        self.given: Dict[str, Set[Place]] = {}
        self.calls: List[Call] = []
        for path in sorted(glob.glob("crates/*/specs/*.antt")):
            module, found = module_of(path)
            _, crate, _, file = path.split("/")
            self.modules[crate, file[: -len(".antt")]] = module
            self.definitions.update({d.key: d for d in found})
        for lib in sorted(glob.glob("crates/*/src/lib.rt")):
            self.read_crate(lib)
        self.crates = re.findall(r"^([a-z]\w*)(?: staticlib)?:", read("crates.txt"), re.M)
        self.cites = {key: self.cited_by(key) for key in self.definitions}
        self.order = self.in_order()

    def read_crate(self, lib: str) -> None:
        """Reads the files of src/ beside this lib.rt."""
        crate = lib.split("/")[1]
        modules, self.given[crate] = given_on(lib)
        modules.add("lib")
        types = {name for _, name in self.given[crate]}

        def is_public(path: str, owner: str, function: str) -> bool:
            file = path.split("/")[-1][: -len(".rt")]
            given = owner in types if owner else (file, function) in self.given[crate]
            return file in modules or given

        for path in sorted(glob.glob(f"crates/{crate}/src/**/*.rt", recursive=True)):
            for name, item in items_of(path).items():
                self.items[crate, name] = item
            self.calls += functions_of(path, is_public) + promises_of(path, is_public)

    def found(self, key: Key) -> Optional[Key]:
        """The definition that a name stands for, through what modules give on; or None."""
        for _ in range(8):
            if key in self.definitions:
                return key
            module = self.modules.get(key[:2])
            if module is None:
                lib = self.modules.get((key.crate, "Lib"))
                given = lib.scope.get(key.module) if lib else None
                if not given or given.name:
                    return None
                key = given._replace(name=key.name)
                continue
            there = module.scope.get(key.name)
            if there is None or there.name == "":
                return None
            key = there
        return None

    def named_by(self, key: Key) -> Set[Key]:
        """Where all the words stand that a definition names, its own name apart."""
        scope, text = self.modules[key[:2]].scope, self.definitions[key].text
        parts = statements(text)
        return {word for part in parts for word in named_in(part, scope)} - {key}

    def cited_by(self, key: Key) -> Set[Key]:
        """The definitions that a definition cites itself."""
        return {it for it in map(self.found, self.named_by(key)) if it} - {key}

    def roots(self, clauses: Iterable[Clause], scope: Scope) -> Set[Key]:
        """The definitions that clauses cite themselves."""
        words = {word for _, text in clauses for word in named_in(text, scope)}
        return {it for it in map(self.found, words) if it}

    def closure(self, roots: Iterable[Key]) -> List[Key]:
        """The definitions that are cited, directly or through others, lowest first."""
        seen: Set[Key] = set()
        todo = list(roots)
        while todo:
            key = todo.pop()
            if key not in seen:
                seen.add(key)
                todo += self.cites[key]
        return [key for key in self.order if key in seen]

    def in_order(self) -> List[Key]:
        """All definitions, each after those that it cites, and else as their files have them."""
        listed: List[Place] = []

        def below(module: Place) -> List[Place]:
            named = {key[:2] for key in self.modules[module].scope.values()}
            return sorted(named & set(self.modules))

        rank = {crate: i for i, crate in enumerate(self.crates)}
        for module in sorted(self.modules, key=lambda m: (rank.get(m[0], len(rank)), m[1])):
            lowest_first(module, below, listed)
        order: List[Key] = []
        position: Dict[Key, int] = {}
        for module in listed:
            for key in self.modules[module].names:
                position[key] = len(position)
        for key in position:
            lowest_first(key, lambda k: sorted(self.cites[k], key=position.__getitem__), order)
        return order

    def size(self, keys: Iterable[Key]) -> int:
        """How many lines these definitions have."""
        return sum(self.definitions[key].size for key in keys)

    def wanted(self, word: str) -> List[Tuple[Clause, Scope]]:
        """The clauses that CALL or CALL.CLAUSE names, each with its scope."""
        name, _, clause = word.partition(".")
        found: List[Tuple[Clause, Scope]] = []
        for call in self.calls:
            if call.name == name or call.name.endswith("::" + name):
                found += [(c, call.scope) for c in call.clauses if clause in ("", c[0])]
        if not found:
            raise LookupError(f"no public function has the clauses of {word}")
        return found

    def call(self, name: str) -> Call:
        """The one public function of this name."""
        found = [call for call in self.calls if call.name == name and call.text]
        if len(found) != 1:
            raise LookupError(f"{len(found)} public functions have the name {name}")
        return found[0]

    def of(self, words: Iterable[str]) -> List[Key]:
        """The definitions to believe what calls or their clauses say, lowest first."""
        roots: Set[Key] = set()
        for word in words:
            for clause, scope in self.wanted(word):
                roots |= self.roots([clause], scope)
        return self.closure(roots)

    def public(self) -> List[Key]:
        """The definitions that all public clauses cite, lowest first."""
        roots: Set[Key] = set()
        for call in self.calls:
            roots |= self.roots(call.clauses, call.scope)
        return self.closure(roots)

    # ---- types and constants of the code, and words of the kit

    def item(self, crate: str, name: str) -> Optional[Place]:
        """The type or constant that a name stands for in a crate, also by what it gives on."""
        if (crate, name) in self.items:
            return crate, name
        for other, used in self.given.get(crate, ()):
            if used == name and other in self.given and other != crate:
                return self.item(other, name)
        return None

    def item_of_word(self, word: Key) -> Optional[Place]:
        """The type or constant that a word of specs/ stands for, or None."""
        parts = word.module.split(".")[1:] + [word.name]
        if not word.module.startswith("declared"):
            return None
        if "TheConstants" in parts:
            return self.item(word.crate, word.name)
        names = [part for part in parts if part[:1].isupper()]
        return self.item(word.crate, names[0]) if names else None

    def items_in(self, path: str, text: str) -> List[Place]:
        """The types that a text of a file of src/ names."""
        crate, code = path.split("/")[1], masked(read(path))
        home: Dict[str, str] = {}
        for other, group in re.findall(r"^use (\w+)::(?:\w+::)*([\w, {}\n]+);", code, re.M):
            home.update({name: other for name in re.findall(r"\w+", group)})
        words = dict.fromkeys(re.findall(r"(?<![.\w])[A-Z]\w*", masked(text)))
        found = [self.item(home.get(name, crate), name) or self.item(crate, name) for name in words]
        return [key for key in found if key]

    def items_of_call(self, call: Call) -> List[Place]:
        """The types that a function's head and clauses name."""
        return self.items_in(call.path, "\n".join(call.text))

    def items_of(self, keys: Iterable[Key], more: Iterable[Place] = ()) -> List[Place]:
        """The types and constants that definitions name, and those in them that callers see."""
        found: Dict[Place, Item] = {}
        todo = list(more)
        for key in keys:
            todo += filter(None, map(self.item_of_word, self.named_by(key)))
        while todo:
            place = todo.pop()
            if place not in found:
                found[place] = self.items[place]
                todo += self.items_in(found[place].path, seen_text(found[place]))
        rank = {crate: i for i, crate in enumerate(self.crates)}
        return sorted(found, key=lambda key: (rank.get(key[0], len(rank)), found[key].path, key))

    def kit_words(self, key: Key) -> List[Key]:
        """The words of the kit that a definition names."""
        ours = {crate for crate, _ in self.modules}
        return [word for word in self.named_by(key) if word.crate not in ours and word.name]


def seen_text(item: Item) -> str:
    """The part of a type's text that a caller sees: an enum's, and the public fields of others."""
    if item.value or re.match(r"(pub(\(\w+\))? )?const", item.text[0]):
        return ""
    if re.match(r"(pub(\(\w+\))? )?enum", item.text[0]):
        return "\n".join(re.sub(r"^    \w+", "", line) for line in item.text[1:])
    return "\n".join(line for line in item.text[1:] if re.match(r" *pub ", line))


def lowest_first(key: Element, below: Callable[[Element], List[Element]], done: List[Element],
                 above: Tuple[Element, ...] = ()) -> None:
    """Puts a key after all those below it."""
    if key not in done and key not in above:
        for other in below(key):
            lowest_first(other, below, done, above + (key,))
        done.append(key)
