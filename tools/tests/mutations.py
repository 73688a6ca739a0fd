#!/usr/bin/env python3
"""Changes lines of aprs-net by lot, one at a time, and tells which changes no test refuses.

usage: mutations.py [--count N] [--seed SEED] [--jobs N] [--nearest N] [--list] [FILE..]

Each changed copy of tools runs tests that import the line's module, be it by others, until one
fails, file by file by pytest: that of its name, and then the others, the nearer ones first; N of
them in all (6), or FILE.., below tests. A file has to end within ten times what it took unchanged,
which is looked at where it isn't over after a minute. Before, all tests have to pass. What comes of
each change is printed, and the last line says how many survive. At most 5 of 60 may; each that does
is explained in SURVIVORS below, by its module and how its line begins. The status is 1 if more do.
With --list the changes are printed alone. With the programs in PATH more tests run.
"""
import argparse
import ast
import concurrent.futures
import functools
import os
import pathlib
import queue
import random
import re
import shutil
import signal
import subprocess
import sys
import tempfile
import time
from typing import Callable, Dict, Iterator, List, NamedTuple, Optional, Set, Tuple

REPOSITORY = pathlib.Path(__file__).resolve().parents[2]
SOURCES = REPOSITORY / "tools/src/aprsbook_tools"
TESTS = REPOSITORY / "tools/tests"
# what tests read, beside tools
BESIDE = "examples", "build", "page", "packaging", "release", "docs", "man", "completions"
# of a cluster of Dask, which takes a minute: the modules that are its own
CLUSTER = "books/test_cluster.py"
OF_CLUSTER = {"books/cluster.py", "books/executors.py", "books/jobs.py", "commands/cluster.py",
              "commands/job.py"}
PATIENCE = 60, 10  # seconds, and times as long as a file took unchanged: one that never ends fails
MOST = 5  # of the changes may survive
# why no test refuses a change: by module, and how its line begins
SURVIVORS: Dict[Tuple[str, str], str] = {
    ("page/basemap.py", "return int(CLOCK.seconds() > self.end)"):
        "the same but at one moment of the clock",
    ("page/basemap.py", "for row, size in found.fetchmany"):
        "of a view without an end one more row is read",
    ("serving/states.py", "while size > 0:"): "where no byte is left none is read either",
    ("formats/pmtiles.py", "KEPT ="): "how many directories are held is no promise",
    ("serving/pushing.py", "ANSWER ="): "how much of an answer is read at most is no promise",
    ("serving/page_answers.py", "PART ="): "how much of a file is in memory at once is no promise",
    ("serving/server.py", "IDLE = "): "how long is waited for who is slow is no promise",
    ("frame_sources/writer.py", "while self.is_alive() and"):
        "the same but at one moment of the clock",
}
COMPARED = {ast.Lt: "<=", ast.LtE: "<", ast.Gt: ">=", ast.GtE: ">", ast.Eq: "!=", ast.NotEq: "==",
            ast.In: "not in", ast.NotIn: "in", ast.Is: "is not", ast.IsNot: "is"}
COUNTED = {ast.Add: "-", ast.Sub: "+", ast.Mult: "//", ast.FloorDiv: "*", ast.Mod: "*"}


class Change(NamedTuple):
    """A change: where it is, and the whole text of the file with it."""

    path: pathlib.Path
    line: int
    words: str
    text: str

    @property
    def module(self) -> str:
        return self.path.relative_to(SOURCES).as_posix()

    def __str__(self) -> str:
        return f"{self.module}:{self.line}: {' '.join(self.words.split())}"


def reason(it: Change) -> str:
    """Why a change may survive; nothing where nobody said so."""
    line = it.path.read_text(encoding="utf-8").splitlines()[it.line - 1].strip()
    found = [why for (module, begin), why in SURVIVORS.items()
             if module == it.module and line.startswith(begin)]
    return "".join(found[:1])


def module_path(name: str) -> Optional[pathlib.Path]:
    """The file of a module of aprs-net, by its whole name."""
    whole = SOURCES.parent.joinpath(*name.split("."))
    return next((it for it in (whole.with_suffix(".py"), whole / "__init__.py") if it.is_file()),
                None)


@functools.lru_cache(maxsize=None)
def imports_of(path: pathlib.Path) -> Set[pathlib.Path]:
    """The modules that a file imports; a test also those of the commands that it names."""
    tree, names = ast.parse(path.read_text(encoding="utf-8")), set()
    for node in ast.walk(tree):
        if isinstance(node, ast.Import):
            names |= {it.name for it in node.names}
        elif isinstance(node, ast.ImportFrom) and node.module:
            names |= {node.module, *(f"{node.module}.{it.name}" for it in node.names)}
        elif isinstance(node, ast.Constant) and TESTS in path.parents:
            word = str(node.value)
            if re.fullmatch("[a-z0-9-]+", word):
                names.add(f"aprsbook_tools.commands.{word.replace('-', '_')}")
                names.add(f"aprsbook_tools.commands.{word.replace('-', '_')}_")
    found = {module_path(it) for it in names if it.startswith("aprsbook_tools")}
    found |= {it for name in names for it in (TESTS / f"{name}.py", path.parent / f"{name}.py")
              if TESTS in path.parents and it.is_file()}
    return {it for it in found if it is not None}


def steps_to(module: pathlib.Path, test: pathlib.Path) -> int:
    """By how many imports a test comes to a module; -1 where it doesn't."""
    steps, waiting = {test: 0}, [test]
    for path in waiting:
        if path == module:
            return steps[path]
        for it in imports_of(path):
            if it not in steps:
                steps[it] = steps[path] + 1
                waiting.append(it)
    return -1


def tests_of(it: Change) -> List[str]:
    """The tests of a change, the nearest ones first, of which those that name its module often."""
    name = it.path.stem.rstrip("_")
    far: Dict[pathlib.Path, Tuple[bool, int, int, str]] = {}
    for test in TESTS.rglob("test_*.py"):
        steps, text = steps_to(it.path, test), test.read_text(encoding="utf-8")
        if steps > 0 and (it.module in OF_CLUSTER or not str(test).endswith(CLUSTER)):
            times = len(re.findall(rf"\b{name.replace('_', '[-_]')}\b", text))
            far[test] = not test.stem.startswith(f"test_{name}"), steps, -times, str(test)
    return [test.relative_to(TESTS).as_posix() for test in sorted(far, key=lambda it: far[it])]


def replaced(text: str, node: ast.expr, new: str) -> str:
    """A text in which other words stand for an expression."""
    lines = text.encode().splitlines(keepends=True)
    begin = sum(map(len, lines[:node.lineno - 1])) + node.col_offset
    end = sum(map(len, lines[:(node.end_lineno or 0) - 1])) + (node.end_col_offset or 0)
    octets = text.encode()
    return (octets[:begin] + new.encode() + octets[end:]).decode()


def other_of(node: ast.AST, said: Callable[[ast.expr], str]) -> Optional[str]:
    """What may stand for an expression, with another meaning; `said` is what a part of it says."""
    if isinstance(node, ast.Compare) and len(node.ops) == 1:
        sign = COMPARED[type(node.ops[0])]
        return f"{said(node.left)} {sign} {said(node.comparators[0])}"
    if isinstance(node, ast.BoolOp):
        sign = " and " if isinstance(node.op, ast.Or) else " or "
        return f"({sign.join(map(said, node.values))})"
    if isinstance(node, ast.UnaryOp) and isinstance(node.op, ast.Not):
        return said(node.operand)
    if isinstance(node, ast.BinOp) and type(node.op) in COUNTED:
        return f"{said(node.left)} {COUNTED[type(node.op)]} {said(node.right)}"
    if isinstance(node, ast.Constant) and type(node.value) is int:
        return str(node.value + 1)
    if isinstance(node, ast.Constant) and type(node.value) is bool:
        return str(not node.value)
    return None


def nodes_of(path: pathlib.Path) -> Iterator[ast.expr]:
    """What can be changed in a file, but within a text with fields, whose places Python doesn't say
    before 3.12."""
    tree = ast.parse(path.read_text(encoding="utf-8"))
    within = {id(it) for whole in ast.walk(tree) if isinstance(whole, ast.JoinedStr)
              for it in ast.walk(whole)}
    for node in ast.walk(tree):
        if isinstance(node, ast.expr) and id(node) not in within:
            if other_of(node, lambda _: "") is not None:
                yield node


def change_of(path: pathlib.Path, node: ast.expr) -> Change:
    """The change of an expression."""
    text = path.read_text(encoding="utf-8")
    before = ast.get_source_segment(text, node)
    other = other_of(node, lambda it: f"({ast.get_source_segment(text, it)})") or ""
    return Change(path, node.lineno, f"{before} -> {other}", replaced(text, node, other))


def by_lot(count: int, seed: int) -> List[Change]:
    """Changes of so many lines, each drawn with the same chance."""
    lines: Dict[Tuple[pathlib.Path, int], List[ast.expr]] = {}
    for path in sorted(SOURCES.rglob("*.py")):
        for node in nodes_of(path):
            lines.setdefault((path, node.lineno), []).append(node)
    draw = random.Random(seed)
    drawn = draw.sample(sorted(lines), min(count, len(lines)))
    return [change_of(it[0], draw.choice(lines[it])) for it in drawn]


class Copy:
    """A copy of what tests read, in which one module at a time is changed."""

    def __init__(self, folder: pathlib.Path) -> None:
        self.folder, self.changes = folder, 0
        folder.mkdir()
        shutil.copytree(REPOSITORY / "tools", folder / "tools", symlinks=True,
                        ignore=shutil.ignore_patterns("__pycache__"))
        for name in filter(lambda it: (REPOSITORY / it).exists(), BESIDE):
            (folder / name).symlink_to(REPOSITORY / name)
        self.environment = {**os.environ, "PYTHONPYCACHEPREFIX": str(folder / "compiled")}

    def write(self, path: pathlib.Path, text: str) -> None:
        """Lays a text in place of a module, of a second of its own: by that Python knows it."""
        self.changes += 1
        changed = self.folder / path.relative_to(REPOSITORY)
        changed.write_text(text, encoding="utf-8")
        os.utime(changed, (self.changes, self.changes))

    def passes(self, test: str, unchanged: Callable[[], float]) -> bool:
        """Whether a file of tests passes; `unchanged` is how many seconds it takes elsewhere."""
        command = [sys.executable, "-m", "pytest", "-q", "-x", "-p", "no:cacheprovider", "-p",
                   "no:xdist", f"tests/{test}"]
        with subprocess.Popen(command, cwd=self.folder / "tools", env=self.environment,
                              stdin=subprocess.DEVNULL, stdout=subprocess.DEVNULL,
                              stderr=subprocess.DEVNULL, start_new_session=True) as run:
            begun = time.monotonic()
            try:
                try:
                    status = run.wait(PATIENCE[0])
                except subprocess.TimeoutExpired:
                    end = begun + max(PATIENCE[0], PATIENCE[1] * unchanged())
                    status = run.wait(max(0, end - time.monotonic()))
                return status in (0, 5)  # 5: there is none to run
            except subprocess.TimeoutExpired:
                return False
            finally:
                if run.poll() is None:
                    os.killpg(run.pid, signal.SIGKILL)


class Trial:
    """Changes that are tried side by side, each in one of some copies; another copy stays."""

    def __init__(self, folder: pathlib.Path, jobs: int, nearest: int, files: List[str]) -> None:
        self.nearest, self.files, self.same = nearest, files, Copy(folder / "same")
        self.took: Dict[str, float] = {}  # seconds of a file of tests unchanged
        self.copies: "queue.Queue[Copy]" = queue.Queue()
        for number in range(jobs):
            self.copies.put(Copy(folder / str(number)))

    def took_of(self, test: str) -> float:
        """How many seconds a file of tests takes unchanged, which passes."""
        if test not in self.took:
            begun = time.monotonic()
            if not self.same.passes(test, lambda: 3600):
                raise SystemExit(f"{test} fails unchanged")
            self.took[test] = time.monotonic() - begun
        return self.took[test]

    def refused_by(self, change: Change) -> str:
        """The first file of tests that fails with a change, or nothing."""
        copy = self.copies.get()
        copy.write(change.path, change.text)
        try:
            for test in self.files or tests_of(change)[:self.nearest]:
                if not copy.passes(test, functools.partial(self.took_of, test)):
                    return test
            return ""
        finally:
            copy.write(change.path, change.path.read_text(encoding="utf-8"))
            self.copies.put(copy)


def tell(drawn: List[Change], jobs: int, nearest: int, files: List[str]) -> int:
    """Tries changes, and says what comes of each; how many survive that nobody explained, or all
    where these are too many."""
    left: List[Change] = []
    with tempfile.TemporaryDirectory(prefix="mutations-") as folder, \
            concurrent.futures.ThreadPoolExecutor(jobs) as pool:
        trial = Trial(pathlib.Path(folder), jobs, nearest, files)
        for it, refused in zip(drawn, pool.map(trial.refused_by, drawn)):
            print(f"refused {it} by {refused}" if refused else f"survives {it} {reason(it)}",
                  flush=True)
            left += [] if refused else [it]
    print(f"{len(drawn)} lines changed, {len(left)} survive")
    return len(left) if len(left) > MOST else sum(not reason(it) for it in left)


def main() -> int:
    parser = argparse.ArgumentParser(usage=(__doc__ or "").split("usage: ")[1].split("\n")[0])
    parser.add_argument("--count", type=int, default=60)
    parser.add_argument("--seed", type=int, default=1)
    parser.add_argument("--jobs", type=int, default=1)
    parser.add_argument("--nearest", type=int, default=6)
    parser.add_argument("--list", action="store_true")
    parser.add_argument("files", nargs="*")
    args = parser.parse_args()
    drawn = by_lot(args.count, args.seed)
    if args.list:
        print("\n".join(map(str, drawn)))
        return 0
    return 1 if tell(drawn, args.jobs, args.nearest, args.files) else 0


if __name__ == "__main__":
    sys.exit(main())
