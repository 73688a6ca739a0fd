#!/usr/bin/env python3
"""Changes lines of the page, drawn by lot, one at a time, and says which changes no test sees.

usage: tests/page/mutations.py [--lines 60] [--seed 20261129] [--list] [--browser] [--ran FOLDER]
                               [MODULE..]
       tests/page/mutations.py --of FILE [--list] [--browser] [--ran FOLDER]

A comparison, a constant, an operator or a truth is turned, or a call is left out. Each change is
tried in a copy, with the tests that run what is changed, the nearest ones first, and with the types
(tsc); with --browser those that pass are tried in Chromium and Firefox too, with the tests there
that run what is changed. What these run is kept in FOLDER, and taken from there the next time. At
most 5 of 60 may pass; each that does is explained in SURVIVORS below, by module and text of its
line, and isn't tried in browsers. The status is 1 if more do. With MODULE the lines are of these
alone. FILE is what another run printed: its changes are tried again, where their lines are still as
they were, so that a lot can be tried with the tests that it asked for. Needs node, tsc and, for
what is drawn, node-jsdom; in browsers what tests/browser needs.
"""
import argparse
import concurrent.futures
import contextlib
import functools
import json
import os
import pathlib
import queue
import random
import re
import shutil
import subprocess
import sys
import tempfile
import time
from typing import Callable, Dict, Iterator, List, NamedTuple, Optional, Tuple

from in_browsers import InBrowsers, passes

REPOSITORY = pathlib.Path(__file__).resolve().parents[2]
SOURCES = REPOSITORY / "page/src"
TESTS = REPOSITORY / "tests/page"
MOST = 5
SECONDS = 600  # of types
TIMES = 10  # as long as a test takes, and a minute: one that doesn't end then is seen
# what is turned into what, in the order in which it is looked for
TURNS: List[Tuple[str, str]] = [
    (r" <= ", " < "), (r" >= ", " > "), (r" < ", " <= "), (r" > ", " >= "), (r" === ", " !== "),
    (r" !== ", " === "), (r" && ", " || "), (r" \|\| ", " && "), (r" \+ ", " - "), (r" - ", " + "),
    (r" \* ", " / "), (r" / ", " * "), (r"\btrue\b", "false"), (r"\bfalse\b", "true"),
    (r"\bmin\(", "max("), (r"\bmax\(", "min("), (r"(?<![\w.#\"'`x-])(\d+)(?![\w\"'`.%])", "+1"),
    (r"(?<=[(!])!(?=\w)", ""), (r"^\s+[\w.]+\([^()]*\);$", "call"),
]
# why no test sees a change: by module, and how its line begins
SURVIVORS: Dict[Tuple[str, str], str] = {
    ("map/tracks.js", "if (way >= each"): "arrows of a way of just so many pixels are one more",
    ("map/layers/coastline.js", "const { x, y } = view, side"): "what is beside the view alone",
    ("net/table-reader.js", "const cut = 2 **"): "of two million rows and more alone",
    ("formats/pmtiles.js", "if (at >= bytes.length) throw"): "it is cut short a byte later",
    ("main-node.js", "while (left > 0)"): "where no byte may follow none is read either",
    ("net/clock-offsets.js", "const below = list"): "a zero stands among others in either way",
    ("app/net-panel.js", "const note = input"): "a field is a letter wider",
    ("app/net-panel.js", "const name = input"): "a field is a letter wider",
    ("lists/table-view.js", "const { column, down } = this.order"): "of an order the sign counts",
    ("util/time.js", "const ZONES"): "a time is looked at in a part more",
    ("map/symbols.js", "motorcycle"): "a hub of a wheel is drawn from its other side",
    ("net/book-slices.js", "if (begin < at) pieces"): "a piece of no bytes is one more",
    ("map/symbols.js", "cloud:"): "a bow that is round is turned by a degree",
    ("worker/wasm-host.js", "const NAME_ROOM"): "a fault has no longer name",
    ("net/table-lines.js", "if (n > wanted) at ="): "the end of a line is looked for where it is",
    ("map/station-layer.js", "room.take(width - 130"): "a name stands a pixel nearer to the scale",
    ("net/table-reader.js", "same: new Uint32Array(n), order"): "another order takes its place",
    ("formats/base85.js", "if (out + 4 <="): "the last bytes are written one by one",
    ("formats/file-kinds.js", "Moment:"): "another year is as good an example of a moment",
}


class Change(NamedTuple):
    """Another line of a module, in place of the one that begins there."""
    module: str
    line: int
    begin: int
    before: str
    after: str


def code_lines(text: str) -> Iterator[Tuple[int, int, str]]:
    """The lines that are code, by their numbers and where they begin."""
    inside, begin = False, 0
    for number, line in enumerate(text.split("\n")):
        bare = line.strip()
        inside = inside or bare.startswith("/*")
        if not inside and bare and not bare.startswith(("//", "import ", "} from")):
            yield number, begin, line
        inside = inside and not bare.endswith("*/")
        begin += len(line) + 1


def turned(line: str, some: random.Random) -> Optional[str]:
    """The line with one thing turned; nothing where there is none."""
    ways = []
    plain = re.sub(r"/\*.*?\*/", lambda it: "\0" * len(it[0]), line)
    plain = re.sub(r"//.*", lambda it: "\0" * len(it[0]), plain)
    for pattern, into in TURNS:
        ways += [(found, into) for found in re.finditer(pattern, plain)]
    if not ways:
        return None
    found, into = some.choice(ways)
    if into == "call":
        return line[:len(line) - len(line.lstrip())] + ";"
    new = str(int(found[1]) + 1) if into == "+1" else into
    return line[:found.start()] + new + line[found.end():]


def drawn(count: int, seed: int, modules: List[str]) -> List[Change]:
    """Changes by lot, each in a line of its own."""
    some = random.Random(seed)
    lines = [(path.relative_to(SOURCES).as_posix(), *at)
             for path in sorted(SOURCES.rglob("*.js"))
             for at in code_lines(path.read_text(encoding="utf-8"))]
    some.shuffle(lines)
    changes: List[Change] = []
    for module, number, begin, line in lines:
        after = turned(line, some) if not modules or module in modules else None
        if after is not None and len(changes) < count:
            changes.append(Change(module, number, begin, line, after))
    return changes


# a change as a run prints it at its end
PRINTED = re.compile(r"^(\S+\.js):(\d+)\n- (.*)\n\+ (.*)$", re.M)


def printed(text: str) -> List[Change]:
    """The changes that another run printed, each in its line as that was, the nearest like it."""
    changes: List[Change] = []
    for module, at, before, after in PRINTED.findall(text):
        path = SOURCES / module
        lines = code_lines(path.read_text(encoding="utf-8")) if path.exists() else []
        found = [(abs(number - int(at) + 1), number, begin) for number, begin, line in lines
                 if line == before]
        if found:
            changes.append(Change(module, *min(found)[1:], before, after))
        else:
            print(f"isn't there any more: {module}: {before.strip()}", flush=True)
    return changes


@functools.lru_cache(maxsize=None)
def environment() -> Dict[str, str]:
    """With the file of the module that tests run, which isn't in a copy."""
    done = subprocess.run([str(REPOSITORY / "build/module.py")], stdout=subprocess.PIPE,
                          stderr=subprocess.DEVNULL, check=False)
    file = REPOSITORY / done.stdout.decode().strip()
    return {**os.environ, **({"MODULE": str(file)} if file.is_file() else {})}


class Ran:
    """Which parts of the page's modules a test runs, as the engine of Node counts them."""

    def __init__(self, folder: pathlib.Path, seconds: float) -> None:
        self.seconds = seconds
        # of each process the parts of a module: where they begin and end, and how often they ran
        self.modules: Dict[str, List[List[Tuple[int, int, int]]]] = {}
        for path in folder.glob("*.json"):
            for it in json.loads(path.read_text(encoding="utf-8"))["result"]:
                module = it["url"].rpartition("/page/src/")[2]
                parts = [(part["startOffset"], part["endOffset"], part["count"])
                         for function in it["functions"] for part in function["ranges"]]
                if module != it["url"]:
                    self.modules.setdefault(module, []).append(parts)

    def has(self, module: str, line: range) -> bool:
        """Whether something of a line ran: at a place the smallest part around it counts."""
        def count(parts: List[Tuple[int, int, int]], at: int) -> int:
            around = [(end - begin, n) for begin, end, n in parts if begin <= at < end]
            return min(around)[1] if around else 0
        return any(count(it, at) for it in self.modules.get(module, []) for at in line)

    @property
    def size(self) -> int:
        """Of how many modules it runs something: few are nearer to each of them."""
        return len(self.modules)


def ran_by(test: pathlib.Path) -> Ran:
    """What a test runs; refuses one that fails by itself, which would see each change."""
    with tempfile.TemporaryDirectory() as folder:
        begin = time.monotonic()
        done = subprocess.run(["node", "--test", str(test)], stdout=subprocess.DEVNULL,
                              env={**environment(), "NODE_V8_COVERAGE": folder}, check=False)
        if done.returncode:
            sys.exit(f"fails without a change: {test}")
        return Ran(pathlib.Path(folder), time.monotonic() - begin)


def tests_of(change: Change, ran: Dict[pathlib.Path, Ran]) -> List[pathlib.Path]:
    """The tests that run what is changed; those first that run least else."""
    line = range(change.begin, change.begin + len(change.before))
    found = [it for it, of in ran.items() if of.has(change.module, line)]
    return sorted(found, key=lambda it: (ran[it].size, it))


def trials(change: Change, ran: Dict[pathlib.Path, Ran]
           ) -> Iterator[Tuple[str, List[str], float]]:
    """What may see a change without a browser: its name, its command, and how long that may take at
    most; the cheapest first."""
    for it in tests_of(change, ran):
        most = 60 + TIMES * ran[it].seconds
        yield it.name, ["node", "--test", str(it.relative_to(REPOSITORY))], most
    yield "types", ["tsc", "-p", "page"], SECONDS


class Copies:
    """Copies of what tests need, one for each that tries changes."""

    def __init__(self, folder: pathlib.Path, count: int) -> None:
        self.free: "queue.Queue[pathlib.Path]" = queue.Queue()
        ignored = shutil.ignore_patterns("__pycache__")
        for number in range(count):
            copy = folder / str(number)
            for it in "page", "tests", "examples", "completions", "build", "bench", "tools":
                shutil.copytree(REPOSITORY / it, copy / it, ignore=ignored)
            shutil.copy(REPOSITORY / "package.json", copy)
            self.free.put(copy)

    @contextlib.contextmanager
    def changed(self, change: Change) -> Iterator[pathlib.Path]:
        """A copy with a change, which is undone."""
        copy = self.free.get()
        path = copy / "page/src" / change.module
        text = path.read_text(encoding="utf-8")
        lines = text.split("\n")
        lines[change.line] = change.after
        path.write_text("\n".join(lines), encoding="utf-8")
        try:
            yield copy
        finally:
            path.write_text(text, encoding="utf-8")
            self.free.put(copy)


def reason(change: Change) -> str:
    return next((why for (module, begin), why in SURVIVORS.items()
                 if module == change.module and change.before.strip().startswith(begin)), "")


def left_of(changes: List[Change], seen_by: Callable[[Change], str],
            pool: concurrent.futures.Executor) -> List[Change]:
    """Tries changes, and says what sees each; those that nothing sees."""
    left = []
    for change, name in zip(changes, pool.map(seen_by, changes)):
        print(f"seen by {name}:" if name else "survives:", f"{change.module}:{change.line + 1}",
              change.after.strip() or "(left out)", flush=True)
        if not name:
            left.append(change)
    return left


def tried(changes: List[Change], copies: Copies, pool: concurrent.futures.Executor
          ) -> List[Change]:
    """What no test sees that needs no browser."""
    tests = sorted(TESTS.glob("*.test.js"))
    ran = dict(zip(tests, pool.map(ran_by, tests)))

    def seen_by(change: Change) -> str:
        with copies.changed(change) as copy:
            return next((name for name, command, seconds in trials(change, ran)
                         if not passes(command, copy, seconds, environment())), "")
    return left_of(changes, seen_by, pool)


def tried_in_browsers(changes: List[Change], copies: Copies, pool: concurrent.futures.Executor,
                      ran: pathlib.Path) -> List[Change]:
    """What no test in a browser sees."""
    browsers = InBrowsers(ran)

    def seen_by(change: Change) -> str:
        with copies.changed(change) as copy:
            return browsers.seen_by(copy, change.module, change.line)
    return left_of(changes, seen_by, pool)


def main() -> int:
    parser = argparse.ArgumentParser(description=(__doc__ or "").split("\n\n")[0])
    parser.add_argument("--lines", type=int, default=60)
    parser.add_argument("--seed", type=int, default=20261129)
    parser.add_argument("--jobs", type=int, default=2)
    parser.add_argument("--list", action="store_true", help="the changes alone")
    parser.add_argument("--browser", action="store_true", help="with the tests in browsers")
    parser.add_argument("--ran", type=pathlib.Path, help="where it is kept what these run")
    parser.add_argument("--of", type=pathlib.Path, help="the changes that another run printed")
    parser.add_argument("modules", nargs="*", metavar="MODULE")
    args = parser.parse_args()
    changes = (printed(args.of.read_text(encoding="utf-8")) if args.of
               else drawn(args.lines, args.seed, args.modules))
    left: List[Change] = []
    if not args.list:
        with tempfile.TemporaryDirectory() as folder, \
                concurrent.futures.ThreadPoolExecutor(args.jobs) as pool:
            copies = Copies(pathlib.Path(folder), args.jobs)
            left = tried(changes, copies, pool)
            open_ones = [it for it in left if not reason(it)]
            if open_ones and args.browser:
                ran = args.ran or pathlib.Path(folder, "ran")
                open_ones = tried_in_browsers(open_ones, copies, pool, ran)
                left = [it for it in left if reason(it) or it in open_ones]
    for change in left if not args.list else changes:
        print(f"{change.module}:{change.line + 1}\n- {change.before}\n+ {change.after}\n"
              f"  {reason(change)}")
    print(f"{len(left)} of {len(changes)} changes are seen by no test")
    return len(left) > MOST or any(not reason(it) for it in left)


if __name__ == "__main__":
    sys.exit(main())
