"""Which tests in Chromium and Firefox run a line of the page, and how these are tried in a copy."""
import hashlib
import json
import os
import pathlib
import re
import signal
import subprocess
import sys
import tempfile
from typing import Dict, Iterator, List, NamedTuple, Sequence, Set, Tuple

REPOSITORY = pathlib.Path(__file__).resolve().parents[2]
sys.path.append(str(REPOSITORY / "build"))
import page as build  # noqa: E402 (it lies there)

# has no test of the same name in Chromium
FIREFOX_ALONE = "test_event_in_firefox.py"
FILES = ("test_layers.py", "test_event_in_chromium.py", "test_page_alone.py", "test_served.py",
         "test_page_reads.py", FIREFOX_ALONE)
PYTEST = ["/usr/bin/python3", "-m", "pytest", "-qx", "-p", "no:cacheprovider"]
EVENT_PAGE = "tools/src/aprsbook_tools/data/event.html"
RUNS = "30"  # random ones, of the module
SECONDS = 3600  # of a file of tests at most, and of a build
LEAST, TIMES = 600, 10  # seconds, and as long as tests take: what doesn't end then is seen
LETTERS = "ABCDEFGHIJKLMNOPQRSTUVWXYZabcdefghijklmnopqrstuvwxyz0123456789+/"


class Test(NamedTuple):
    """A test in Chromium, how long it takes, and where what it runs begins and ends: of each
    script, by its length."""
    file: str
    name: str
    seconds: float
    ran: Dict[int, List[Tuple[int, int]]]

    @staticmethod
    def of(path: pathlib.Path) -> "Test":
        it = json.loads(path.read_text(encoding="utf-8"))
        ran = {int(size): of for size, of in it["ran"].items()}
        return Test(it["file"], it["test"], it["seconds"], ran)

    def runs(self, size: int, places: Sequence[int]) -> bool:
        return any(begin <= at < end for begin, end in self.ran.get(size, []) for at in places)

    @property
    def size(self) -> int:
        """How much it runs: little is nearer to each line of it."""
        return sum(end - begin for each in self.ran.values() for begin, end in each)


class Script(NamedTuple):
    """A bundle: its length, its modules, and where in it each line of each stands."""
    size: int
    modules: Set[str]
    places: Dict[Tuple[str, int], List[int]]

    def places_of(self, module: str, line: int) -> Sequence[int]:
        """Where a line stands; one that stands nowhere, as a constant does, may be anywhere."""
        anywhere = range(self.size if module in self.modules else 0)
        return self.places.get((module, line), anywhere)


def numbers_of(text: str) -> List[int]:
    """The numbers of a part of a source map."""
    found, value, shift = [], 0, 0
    for letter in text:
        digit = LETTERS.index(letter)
        value += (digit & 31) << shift
        shift += 5
        if digit < 32:
            found.append(-(value >> 1) if value & 1 else value >> 1)
            value, shift = 0, 0
    return found


def places_in(text: str, source_map: Dict[str, object]) -> Iterator[Tuple[str, int, int]]:
    """The parts of a bundle: module, number of the line there, place in the bundle."""
    sources = [str(it).rpartition("src/")[2] for it in source_map["sources"]]  # type: ignore
    source = line = begin = 0
    for generated, parts in zip(text.split("\n"), str(source_map["mappings"]).split(";")):
        column = 0
        for part in filter(None, parts.split(",")):
            by = numbers_of(part)
            column += by[0]
            if len(by) > 1:
                source, line = source + by[1], line + by[2]
                # as build.bundle writes tabs
                tabs = generated[:column].count("\t")
                yield sources[source], line, begin + column + tabs
        begin += len(generated) + generated.count("\t") + 1


def script_of(entry: str) -> Script:
    """The bundle of an entry."""
    with tempfile.TemporaryDirectory() as name:
        out = pathlib.Path(name, "out.js")
        build.esbuild(str(build.PAGE / "src" / f"{entry}.js"), "--bundle", "--format=iife",
                      "--minify", "--sourcemap=external", f"--metafile={out}.json",
                      f"--outfile={out}")
        text = out.read_text(encoding="utf-8")
        source_map, of = (json.loads(pathlib.Path(f"{out}.{it}").read_text(encoding="utf-8"))
                          for it in ("map", "json"))
    places: Dict[Tuple[str, int], List[int]] = {}
    for module, line, at in places_in(text, source_map):
        places.setdefault((module, line), []).append(at)
    modules = {it.rpartition("src/")[2] for it in of["inputs"]}
    return Script(len(text) + text.count("\t"), modules, places)


def scripts() -> List[Script]:
    """Those of both pages; where tests build one elsewhere, it lacks its first word."""
    strict = len('"use strict";')
    found = []
    for entry in "main-event", "main-reader":
        script = script_of(entry)
        less = {line: [at - strict for at in all] for line, all in script.places.items()}
        found += [script, Script(script.size - strict, script.modules, less)]
    return found


def passes(command: List[str], folder: pathlib.Path, seconds: float, env: Dict[str, str]) -> bool:
    """Whether a command ends well in time; where it doesn't, what it has begun is ended too."""
    with subprocess.Popen(command, cwd=str(folder), stdout=subprocess.DEVNULL,
                          stderr=subprocess.DEVNULL, start_new_session=True, env=env) as process:
        try:
            return process.wait(seconds) == 0
        except BaseException as fault:
            os.killpg(process.pid, signal.SIGKILL)
            if isinstance(fault, subprocess.TimeoutExpired):
                return False
            raise


def sum_of_sources() -> str:
    """Of the page, and of its tests in browsers."""
    found = hashlib.sha256()
    for folder in "page", "tests/browser":
        for path in sorted((REPOSITORY / folder).rglob("*.*")):
            if path.suffix in (".js", ".py", ".html", ".css"):
                found.update(path.read_bytes())
    return found.hexdigest()[:16]


def said_by(command: str) -> List[str]:
    """The lines that a program here prints."""
    done = subprocess.run([str(REPOSITORY / command)], stdout=subprocess.PIPE, check=True)
    return done.stdout.decode().splitlines()


class InBrowsers:
    """The tests in browsers, with what each runs: it is counted where a folder hasn't got it."""

    def __init__(self, ran: pathlib.Path) -> None:
        self.module = str(REPOSITORY / said_by("build/module.py")[0])
        self.programs = str((REPOSITORY / said_by("build/programs.sh")[0]).parent)
        self.scripts = scripts()
        self.worker = script_of("main-worker").modules
        counted = ran / sum_of_sources()
        if not counted.is_dir():
            self.count(counted)
        self.tests = sorted(map(Test.of, counted.glob("*.json")), key=lambda it: it.size)
        self.firefox = self.names("Firefox")

    def env(self, top: pathlib.Path) -> Dict[str, str]:
        """With aprs-net of a copy, and the programs."""
        path = os.pathsep.join([str(top / "tools/bin"), self.programs, os.environ["PATH"]])
        return {**os.environ, "PATH": path, "RUNS": os.environ.get("RUNS", RUNS),
                "PYTHONDONTWRITEBYTECODE": "1"}

    def builds(self, top: pathlib.Path) -> bool:
        """Builds the pages of a copy."""
        pages = ["event", EVENT_PAGE], ["reader", self.module, "out/aprsbook.html"]
        return all(passes(["build/page.py", *words], top, SECONDS, self.env(top))
                   for words in pages)

    def count(self, ran: pathlib.Path) -> None:
        """Runs all, and refuses what fails by itself, which would see each change."""
        self.builds(REPOSITORY)
        part = ran.with_suffix(".part")
        part.mkdir(parents=True, exist_ok=True)
        env = {**self.env(REPOSITORY), "RAN": str(part.resolve())}
        for name in FILES:
            if not passes([*PYTEST, f"tests/browser/{name}"], REPOSITORY, SECONDS, env):
                sys.exit(f"fails without a change: {name}")
        part.rename(ran)

    def names(self, browser: str) -> List[Tuple[str, str]]:
        """The tests in a browser, by their files."""
        done = subprocess.run(
            [*PYTEST, "--collect-only", "-k", browser, "tests/browser"], cwd=str(REPOSITORY),
            env=self.env(REPOSITORY), stdout=subprocess.PIPE, check=True)
        return re.findall(r"(test_\w+\.py)::(\S+)", done.stdout.decode())

    def running(self, module: str, line: int) -> List[Test]:
        """The tests in Chromium that run a line, and those that may, in a worker."""
        found = [(it.size, it.places_of(module, line)) for it in self.scripts]
        readers = {it.size for it in self.scripts[2:]}
        return [it for it in self.tests if any(it.runs(*where) for where in found)
                or (module in self.worker and readers & set(it.ran))]

    def trials(self, module: str, line: int) -> Iterator[Tuple[str, List[str], float]]:
        """Which tests may see a change of a line: their names, their command, and how long that
        may take at most. In Chromium first, then in Firefox."""
        running = self.running(module, line)
        also = {(it.file, it.name.replace("Chromium", "Firefox")) for it in running}
        firefox = [it for it in self.firefox if running and (it in also or it[0] == FIREFOX_ALONE)]
        seconds = LEAST + TIMES * sum(it.seconds for it in running)
        for browser, tests in (("Chromium", [(it.file, it.name) for it in running]),
                               ("Firefox", firefox)):
            for file in dict.fromkeys(file for file, _ in tests):
                names = [f"tests/browser/{file}::{name}" for of, name in tests if of == file]
                yield f"{file} in {browser}", [*PYTEST, *names], seconds

    def seen_by(self, top: pathlib.Path, module: str, line: int) -> str:
        """What sees the change of a line in a copy, or nothing: it has to fail twice."""
        if not self.running(module, line):
            return ""
        if not self.builds(top):
            return "esbuild"
        for name, command, seconds in self.trials(module, line):
            if not any(passes(command, top, seconds, self.env(top)) for _ in range(2)):
                return name
        return ""
