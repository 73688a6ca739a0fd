#!/usr/bin/env python3
"""What a reader has to believe, as pages: one for each call in docs/reading, listed in
docs/proved.md; and what can be called: one for each crate that others call, in docs/calls.

usage: build/reading.py [--into FOLDER]    writes the pages anew, and the sums in docs/proved.md
       build/reading.py --calls CRATE      the public functions of a crate, with sentence and clauses
       build/reading.py --of CALL..        the definitions of calls by name, and their sums
       build/reading.py --page CALL        prints a call's page that has all of its definitions
       build/reading.py --names            names that stand for more than one cited definition
       build/reading.py --twice            cited definitions that stand twice, word for word
       build/reading.py --private          definitions that no public clause cites, by module
       build/reading.py --cited            modules that are cited and say that they aren't

CALL is FUNCTION, TYPE::FUNCTION or one of these with .CLAUSE behind it (`requires` for conditions).

There is a page for each call and not for each crate, since a crate is more than what one doubts.
What `merge` writes is asked most: so its page comes first and has all its definitions, clause by
clause, lowest first. It can be read from the top, and believed where the clause's part ends. Each
further page has what the pages before it don't have, and links for the rest, so that a definition
is printed once. One file of all would have some 300 KB, which is slow to show and to search.

Needs Python 3. Counts lines as statement.py says, and types of the code apart from them.
"""
import argparse
import collections
import glob
import os
import re
import subprocess
import sys
from typing import Callable, Dict, Iterable, List, Match, Set, Tuple

sys.dont_write_bytecode = True
from rattle_text import Key, clauses_after, closing, dedented, masked, read
from statement import Call, Place, Statement

# the library calls of the first rank; the runs of the program are found
LIBRARY = (
    "Frame::read KissReader::feed LogReader::next Report::read MicE::read Book::take Book::merge "
    "read_book"
).split()
# the runs whose pages come first, if they are there
RUNS = "merge_run widen_run show_run history_run".split()
PROVED = "docs/proved.md"
MADE = "<!-- made by `make reading`: change the sources and not this page -->\n"
# the crates that others call, and of each a caller that the gate proves
PROGRAM, TESTS = "crates/aprs_example/src/main.rt", "crates/aprs_tests/src/library.rt"
CALLERS = {
    "aprs_kiss": (TESTS, "send_frame"),
    "aprs_mice": (TESTS, "knots_and_message"),
    "aprs_log": (PROGRAM, "take_log"),
    "aprs_ax25": (TESTS, "beacon"),
    "aprs_report": (TESTS, "latitude"),
    "aprs_book": (TESTS, "heard_last"),
    "aprs_booktext": (TESTS, "book_in"),
    "aprs_tool": (TESTS, "merge_two"),
}


Home = Dict[Tuple[str, ...], str]  # the page on which a definition or a type stands
Printed = Set[Tuple[str, ...]]


class Part:
    """What one clause needs that stands nowhere before: types of the code, and definitions.

    The part of no clause has the types in the head of the call.
    """

    def __init__(self, clause: str, needed: List[Key], items: List[Place], keys: List[Key]) -> None:
        self.clause, self.needed, self.items, self.keys = clause, needed, items, keys


class Page:
    """A call with its parts; `needed` are all definitions that it needs, lowest first."""

    def __init__(self, call: Call, parts: List[Part], needed: List[Key]) -> None:
        self.call, self.parts, self.needed = call, parts, needed
        self.clauses = [part for part in parts if part.clause]
        self.file = call.name.replace("::", ".") + ".md"


# ---- what stands on which page


def calls(facts: Statement) -> List[Call]:
    """The runs of the program and the library calls of the first rank, in the pages' order."""
    given = {name for _, name in facts.given["aprs_tool"] if name.endswith("_run")}
    runs = [name for name in RUNS if name in given] + sorted(given - set(RUNS))
    return [facts.call(name) for name in runs + LIBRARY]


def parts_of(facts: Statement, call: Call, printed: Printed) -> List[Part]:
    """The call's parts: for each clause what neither pages before it nor clauses before it have."""
    head = facts.items_of([], facts.items_of_call(call))
    parts = [Part("", [], [item for item in head if item not in printed], [])]
    printed.update(head)
    for name in dict.fromkeys(name for name, _ in call.clauses):
        clauses = [clause for clause in call.clauses if clause[0] == name]
        needed = facts.closure(facts.roots(clauses, call.scope))
        items = [item for item in facts.items_of(needed) if item not in printed]
        keys = [key for key in needed if key not in printed]
        printed.update(items, keys)
        parts.append(Part(name, needed, items, keys))
    return parts


def pages_of(facts: Statement, wanted: Iterable[Call]) -> Tuple[List[Page], Home]:
    """The pages of calls, in order, and on which page a definition or a type stands."""
    pages: List[Page] = []
    home: Home = {}
    printed: Printed = set()
    for call in wanted:
        parts = parts_of(facts, call, printed)
        page = Page(call, parts, facts.closure(facts.roots(call.clauses, call.scope)))
        home.update({it: page.file for part in parts for it in (*part.items, *part.keys)})
        pages.append(page)
    return pages, home


# ---- how it is written


def number(n: int) -> str:
    """A number as documents have it."""
    return f"{n:,}"


def anchor(key: Tuple[str, ...]) -> str:
    """The anchor of a definition or a type: letters, digits and hyphens alone, but for primes."""
    def plain(c: str) -> str:
        return c if c.isascii() and (c.isalnum() or c in "_-") else f"-{ord(c):x}-"

    return "-".join("".join(map(plain, word)) for word in key)


def link(key: Tuple[str, ...], home: Home, file: str) -> str:
    """A link to a definition or a type, from the page `file`."""
    name = key[-1].replace("|", "\\|")
    page = "" if home[key] == file else home[key]
    return f"[`{name}`]({page}#{anchor(key)})"


def prose(lines: Iterable[str]) -> str:
    """Lines of a comment, so that Markdown shows them as they are; spans of code stay."""
    spans = " ".join(lines).split("`")
    for i in range(0, len(spans), 2):
        spans[i] = re.sub(r"([\\*<>\[\]#$|~]|(?<!\w)_|_(?!\w))", r"\\\1", spans[i])
    return re.sub(r"^([-+]|\d+[.)]) ", r"\\\1 ", "`".join(spans))


def fenced(language: str, lines: List[str]) -> List[str]:
    """A block of code."""
    return [f"```{language}"] + lines + ["```", ""]


def table(heads: List[str], rows: List[List[str]]) -> List[str]:
    """A table: a column of words is aligned left, one of numbers right."""
    marks = ["---:" if re.match(r"[\d,]+$", cell) else "---" for cell in rows[0]]
    return ["| " + " | ".join(row) + " |" for row in [heads, marks] + rows] + [""]


def by_module(keys: Iterable[Key]) -> Dict[Place, List[Key]]:
    """Definitions by module, in order."""
    found: Dict[Place, List[Key]] = collections.defaultdict(list)
    for key in keys:
        found[key[:2]].append(key)
    return found


def spread(facts: Statement, keys: List[Key]) -> List[str]:
    """Lines and definitions, as cells."""
    return [number(facts.size(keys)), number(len(keys))]


def sums_by_crate(facts: Statement, keys: Iterable[Key]) -> str:
    """How many lines each crate has of them, in a sentence."""
    crates: Dict[str, List[Key]] = collections.defaultdict(list)
    for key in keys:
        crates[key.crate].append(key)
    return ", ".join(f"`{crate}` {number(facts.size(crates[crate]))}" for crate in crates)


def clause_table(facts: Statement, page: Page) -> List[str]:
    """A row for each clause: what it needs, and what of that is new at that place of the page."""
    rows = []
    for part in page.clauses:
        counts = spread(facts, part.needed) + spread(facts, part.keys)
        rows.append([f"`{page.call.name}.{part.clause}`"] + counts)
    return table(["clause", "lines", "definitions", "new here: lines", "definitions"], rows)


def reading_order(facts: Statement, page: Page, home: Home) -> List[str]:
    """The definitions that a call needs, by module, each with a link to where it stands."""
    rows = []
    for module, keys in by_module(page.needed).items():
        links = " ".join(link(key, home, page.file) for key in keys)
        rows.append(["/".join(module), number(facts.size(keys)), links])
    return table(["module", "lines", "definitions, in the order of reading"], rows)


def other_words(facts: Statement, page: Page, home: Home) -> List[str]:
    """What a call's definitions name beside each other: types of the code, and words of the kit."""
    items = facts.items_of(page.needed, facts.items_of_call(page.call))
    links = " ".join(link(key, home, page.file) for key in items)
    lines = [f"Types and constants of the code: {links or 'none'}.", ""]
    lines += ["Words of the kit, which its own guides explain:", ""]
    return lines + kit_words(facts, page.needed)


def kit_words(facts: Statement, keys: Iterable[Key]) -> List[str]:
    """The words of the kit that definitions name, by module."""
    found: Dict[str, Set[str]] = collections.defaultdict(set)
    for key in keys:
        for word in facts.kit_words(key):
            module = re.sub(r"^declared\.|\.TheVariants$", "", word.module)
            found[f"{word.crate}.{module}"].add(word.name)
    lines = []
    for module in sorted(found):
        names = " ".join(f"`{name}`" for name in sorted(found[module]))
        lines.append(f"- {module}: {names}")
    return lines + [""]


def item_lines(facts: Statement, key: Place, home: Home, file: str) -> List[str]:
    """A type or a constant of the code, with its doc comment and what contracts see of it."""
    item = facts.items[key]
    lines = [f'<a id="{anchor(key)}"></a>', f"`{key[1]}` of `{item.path}`. " + prose(item.doc), ""]
    if item.value:
        words = sorted(facts.roots([("Value", item.value)], item.scope))
        seen = {it.name: link(it, home, file) for it in words if it in home}
        value = seen.pop(item.value, f"`{item.value}`")
        return lines + [f"In contracts it is of type {' '.join([value, *seen.values()])}.", ""]
    return lines + fenced("rust", item.text)


def definition_lines(facts: Statement, key: Key) -> List[str]:
    """A definition: its anchor, its sentence, of which type its variants are, and its text."""
    it = facts.definitions[key]
    scope, text = facts.modules[key[:2]].scope, "\n".join(it.text)
    words = [name for name in scope if re.search(rf"(?<![\w.]){re.escape(name)}\.[A-Z]", text)]
    types = {name: scope[name].module.split(".") for name in words if not scope[name].name}
    notes = [f"`{name}.` is of `{at[-2]}`" for name, at in types.items() if at[-1] == "TheVariants"]
    lines = [f'<a id="{anchor(key)}"></a>', prose(it.sentence), ""]
    return lines + ([", ".join(notes) + ".", ""] if notes else []) + fenced("text", it.text)


def part_lines(facts: Statement, page: Page, part: Part, home: Home, told: Set[Place]) -> List[str]:
    """A clause's part of a page: the types first, then the definitions by module."""
    if not part.keys and not part.items:
        return []
    lines = ["## Types of its head", ""]
    if part.clause:
        sizes = f"{number(facts.size(part.needed))} lines"
        if len(part.keys) < len(part.needed):
            sizes += f", {number(facts.size(part.keys))} of them here"
        lines = [f"## `{page.call.name}.{part.clause}`: {sizes}", ""]
        lines += ["### Types and constants of the code", ""] if part.items else []
    for item in part.items:
        lines += item_lines(facts, item, home, page.file)
    for module, keys in by_module(part.keys).items():
        lines += [f"### {'/'.join(module)}" + (", more" if module in told else ""), ""]
        if module not in told:
            lines += [prose([facts.modules[module].about]), ""]
        told.add(module)
        for key in keys:
            lines += definition_lines(facts, key)
    return lines


def page_text(facts: Statement, page: Page, home: Home, told: Set[Place]) -> str:
    """The page of a call."""
    call = page.call
    new = sum(len(part.keys) for part in page.parts)
    lines = [f"# `{call.name}`", "", MADE]
    lines += [f"Of `{call.crate}`, in `{call.path}`. " + prose(call.doc), ""]
    lines += fenced("rust", call.text)
    lines += [f"To believe all of it, read {number(facts.size(page.needed))} lines, "]
    lines[-1] += f"{number(len(page.needed))} definitions: {sums_by_crate(facts, page.needed)}."
    if new < len(page.needed):
        lines += [f"{number(new)} of them stand on this page, and the others on those before it."]
    lines += [""] + clause_table(facts, page) + reading_order(facts, page, home)
    lines += other_words(facts, page, home)
    for part in page.parts:
        lines += part_lines(facts, page, part, home, told)
    return "\n".join(lines).rstrip() + "\n"


# ---- a page for each crate that others call


def first_sentence(doc: List[str]) -> str:
    """The first sentence of a comment."""
    return re.split(r"(?<=\.) ", " ".join(doc))[0]


def caller_lines(crate: str) -> Tuple[str, List[str]]:
    """A proved caller of a crate: the imports that name the crate, and the function."""
    path, name = CALLERS[crate]
    text = read(path)
    code = masked(text)
    head = re.search(rf"^(?:pub )?fn {name}\b", code, re.M)
    if not head:
        raise LookupError(f"{path} has no function {name}")
    end = closing(code, code.index("{", head.end())) + 1
    uses = re.findall(rf"^use {crate}(?:::[^;]*)?;", code, re.M)
    return path, uses + [""] + text[head.start() : end].split("\n")


def does_nothing(call: Call) -> bool:
    """Whether the body of a function is empty, as that of a law and of an example."""
    text = read(call.path)
    code = masked(text)
    for head in re.finditer(rf"\bfn {call.name.split('::')[-1]}\b", code):
        _, end = clauses_after(text, code, head.end())
        if dedented(text[text.rindex("\n", 0, head.start()) + 1 : end]) == call.text:
            return text[end : end + 2] == "{}"
    return False


def calls_of(facts: Statement, crate: str) -> List[Call]:
    """The public functions that a crate has, and then those of lower crates that it gives on."""
    found = [call for call in facts.calls if call.text and call.clauses]
    given = facts.given.get(crate, set())
    own = [call for call in found if call.crate == crate]
    return own + [call for call in found if (call.crate, call.name.split("::")[0]) in given]


def types_table(facts: Statement, crate: str) -> List[str]:
    """The public types of a crate, those of lower crates that it gives on among them, each with the
    first sentence of its comment."""
    names = {name for _, name in facts.given[crate]}
    keys = {it for it in (facts.item(crate, name) for name in names) if it}
    own = [(name, facts.items[of, name]) for of, name in keys]
    rows = [[f"`{name}`", prose([first_sentence(item.doc)])] for name, item in own]
    return table(["type or constant", "is"], sorted(rows)) if rows else []


def crate_text(facts: Statement, crate: str, home: Dict[str, str]) -> str:
    """The page of a crate: what it is, a caller, and each public function with its clauses."""
    [about] = re.findall(r"\A(?://!.*\n)+", read(f"crates/{crate}/src/lib.rt"))
    path, caller = caller_lines(crate)
    lines = [f"# `{crate}`", "", MADE]
    lines += [prose(line[3:].strip() for line in about.splitlines()), ""]
    lines += [f"A caller that the gate proves, of `{path}`:", ""] + fenced("rust", caller)
    lines += ["Each function below has its comment, its head and its clauses. `make prove` proves"]
    lines += ["them, and `build/reading.py --page FUNCTION` prints the definitions that they cite.", ""]
    lines += types_table(facts, crate)
    own = calls_of(facts, crate)
    for heading, law in (("Functions", False), ("Laws and examples, which do nothing", True)):
        some = [call for call in own if does_nothing(call) is law]
        lines += [f"## {heading}", ""] if some else []
        for call in some:
            lines += [f"### `{call.name}`", "", prose(call.doc), ""] + fenced("rust", call.text)
            if call.name in home:
                lines += [f"What it cites: [{call.name}](../reading/{home[call.name]}).", ""]
    return "\n".join(lines).rstrip() + "\n"


# ---- the sums in docs/proved.md


def counted(facts: Statement, what: str) -> List[Key]:
    """The definitions that a sum is of: of calls, of all public clauses (`all`), or `specs`."""
    if what == "specs":
        return list(facts.definitions)
    return facts.public() if what == "all" else facts.of(what.replace(",", " ").split())


def with_sums(facts: Statement, text: str) -> str:
    """A document with its sums as they are now.

    A number right before `<!-- lines: CALL.. -->`, `<!-- definitions: CALL.. -->`, `<!-- names -->`
    or `<!-- edits -->` is such a sum, and so are the last two cells of a table's row that has calls
    in the second cell, below a heading `| .. | read | lines | definitions |`.
    """

    def sum_of(match: Match[str]) -> str:
        mark, what = match.group(1), match.group(2)
        if mark == "names":
            value = len(ambiguous(facts))
        elif mark == "edits":
            value = len(glob.glob("crates/*/must-fail/*.edit") + glob.glob("edits/*/*.edit"))
        else:
            keys = counted(facts, what.strip(": "))
            value = facts.size(keys) if mark == "lines" else len(keys)
        return f"{number(value)}<!-- {mark}{what}-->"

    text = re.sub(r"[\d,]+<!-- (lines|definitions|names|edits)([^>]*?)-->", sum_of, text)
    rows, inside = [], False
    for line in text.split("\n"):
        cells = line.split(" | ")
        if inside and len(cells) == 4 and "`" in cells[1]:
            keys = facts.of(re.findall(r"`([^`]*)`", cells[1]))
            line = " | ".join(cells[:2] + spread(facts, keys)) + " |"
        heads = line.endswith("| read | lines | definitions |")
        inside = line.startswith("|") and (inside or heads)
        rows.append(line)
    return "\n".join(rows)


def write(path: str, text: str) -> None:
    """Writes a file whose folder may not be there yet."""
    os.makedirs(os.path.dirname(path), exist_ok=True)
    with open(path, "w", encoding="utf8") as file:
        file.write(text)


def write_all(facts: Statement, folder: str) -> None:
    """Writes all pages below a folder, and takes away those that are no longer made."""
    pages, home = pages_of(facts, calls(facts))
    told: Set[Place] = set()
    inner, called = os.path.join(folder, "reading"), os.path.join(folder, "calls")
    for there in (inner, called):
        for file in os.listdir(there) if os.path.isdir(there) else []:
            os.remove(os.path.join(there, file))
    for page in pages:
        write(os.path.join(inner, page.file), page_text(facts, page, home, told))
    files = {page.call.name: page.file for page in pages}
    for crate in CALLERS:
        write(os.path.join(called, crate + ".md"), crate_text(facts, crate, files))
    listed = subprocess.run(["build/map.py", "--index"], capture_output=True, text=True, check=True)
    write(os.path.join(called, "README.md"), listed.stdout)
    try:
        sums = with_sums(facts, read(PROVED))
    except LookupError as said:
        raise LookupError(f"{PROVED}: {said}") from said
    for page in pages:
        if f"(reading/{page.file})" not in sums:
            raise LookupError(f"{PROVED} has no link to reading/{page.file}")
    write(os.path.join(folder, "proved.md"), sums)


# ---- other answers


def print_list(facts: Statement, words: Iterable[str]) -> None:
    """The definitions of calls by name, with their lines, and the sums."""
    keys = facts.of(words)
    for key in keys:
        print(f"{facts.definitions[key].size:4} {key.crate}/{key.module} {key.name}")
    print(f"{facts.size(keys)} lines, {len(keys)} definitions, {len(by_module(keys))} modules")
    print(sums_by_crate(facts, keys).replace("`", ""))


def print_page(facts: Statement, words: str) -> None:
    """The page of a call as if no other were there."""
    pages, home = pages_of(facts, [facts.call(words)])
    print(page_text(facts, pages[0], home, set()), end="")


def print_calls(facts: Statement, crate: str) -> None:
    """The public functions of a crate, each with the first sentence of its comment and its clauses."""
    found = calls_of(facts, crate)
    if not found:
        raise LookupError(f"there is no crate {crate} with public clauses")
    for call in found:
        print(call.name + ": " + first_sentence(call.doc))
        print("    " + ", ".join(dict.fromkeys(name for name, _ in call.clauses)))


def ambiguous(facts: Statement) -> Dict[str, List[str]]:
    """The names that more than one of the cited definitions has."""
    found: Dict[str, List[str]] = collections.defaultdict(list)
    for key in facts.public():
        found[key.name].append(f"{key.crate}/{key.module}")
    return {name: places for name, places in sorted(found.items()) if len(places) > 1}


def print_names(facts: Statement) -> None:
    """Names with more than one meaning."""
    for name, places in ambiguous(facts).items():
        print(f"{name}: {' '.join(sorted(places))}")


def print_twice(facts: Statement) -> None:
    """Definitions that are the same but for their names."""
    found: Dict[str, List[str]] = collections.defaultdict(list)
    for key in facts.public():
        text = " ".join(" ".join(facts.definitions[key].text).split())
        found[text.replace(key.name, "IT")].append("/".join(key))
    for places in sorted(places for places in found.values() if len(places) > 1):
        print(" ".join(sorted(places)))


def print_private(facts: Statement) -> None:
    """Modules that no public clause cites, and of the others the definitions that none cites."""
    public = set(facts.public())
    for (crate, name), module in sorted(facts.modules.items()):
        free = [key for key in module.names if key not in public]
        rest = "" if len(free) == len(module.names) else ": " + " ".join(k.name for k in free)
        if free:
            print(f"{facts.size(free):4} crates/{crate}/specs/{name}.antt{rest}")


def print_cited(facts: Statement) -> None:
    """Modules whose head says that no public clause cites them, and which one does cite."""
    said = re.compile(r"\bno public clause cites this module\b", re.I)
    for module, keys in by_module(facts.public()).items():
        if said.search(facts.modules[module].about):
            names = " ".join(key.name for key in keys)
            print(f"crates/{module[0]}/specs/{module[1]}.antt: {names}")


ANSWERS: Dict[str, Callable[[Statement], None]] = {
    "names": print_names,
    "twice": print_twice,
    "private": print_private,
    "cited": print_cited,
}


def words_given() -> argparse.Namespace:
    """The words on the command line."""
    usage = (__doc__ or "").split("usage: ")[1].split("\n\n")[0]
    words = argparse.ArgumentParser(usage=usage)
    words.add_argument("--into", default="docs")
    words.add_argument("--of", nargs="+")
    words.add_argument("--page")
    words.add_argument("--calls")
    for name in ANSWERS:
        words.add_argument("--" + name, action="store_true")
    return words.parse_args()


def main() -> None:
    """Answers what the words on the command line ask for."""
    words = words_given()
    os.chdir(os.path.join(os.path.dirname(os.path.abspath(__file__)), ".."))
    facts = Statement()
    asked = [answer for name, answer in ANSWERS.items() if getattr(words, name)]
    if words.of:
        print_list(facts, words.of)
    elif words.page:
        print_page(facts, words.page)
    elif words.calls:
        print_calls(facts, words.calls)
    elif not asked:
        write_all(facts, words.into)
    for answer in asked:
        answer(facts)


if __name__ == "__main__":
    try:
        main()
    except LookupError as said:
        sys.exit(f"build/reading.py: {said}")
