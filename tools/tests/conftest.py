"""What the tests share: the command, the examples, and what is left out without a program."""
import csv
import functools
import io
import os
import pathlib
import shutil
import subprocess
import sys
import tempfile
import time
from typing import Any, Callable, Dict, List, Optional

import pytest
from forking import Forking
from hypothesis import settings

pytest_plugins = ["clubs", "standing"]  # their fixtures `club` and `programs`

HERE = pathlib.Path(__file__).resolve().parent
SOURCES = HERE.parent / "src"
SAMPLES = HERE / "samples"  # what other programs wrote themselves
EXAMPLES = HERE.parent.parent / "examples"
EVENING = sorted(str(it) for it in EXAMPLES.glob("evening/*.log"))
KEPT = "PYTHONPYCACHEPREFIX"  # says where Python keeps what it has compiled
SHARING = {"test_cluster": 3, "test_hostile": 1, "test_serving": 1}

settings.register_profile("net", deadline=None, max_examples=100)
settings.load_profile("net")

Hook = Callable[[List[pytest.Item]], None]
# a hook that comes before pytest-xdist reads the marks
first: Callable[[Hook], Hook] = pytest.hookimpl(tryfirst=True)


def pytest_configure(config: pytest.Config) -> None:
    """What Python compiles of the sources is kept for all processes that tests begin: to compile is
    half of a start."""
    if KEPT not in os.environ:
        folder = tempfile.mkdtemp(prefix="aprs-net-compiled-")
        os.environ[KEPT] = folder  # also that of the processes of pytest-xdist
        config.add_cleanup(lambda: shutil.rmtree(folder, ignore_errors=True))


@first
def pytest_collection_modifyitems(items: List[pytest.Item]) -> None:
    """Tests that share a server, a cluster or a page are done by so many processes of pytest-xdist,
    each of which begins its own."""
    for stem, count in SHARING.items():
        own = [it for it in items if it.path.stem == stem]
        for number, it in enumerate(own):
            it.add_marker(pytest.mark.xdist_group(f"{stem} {number * count // len(own)}"))
    for it in items:
        if "both" in getattr(it, "fixturenames", ()):  # what the page says of cases of a kind
            it.add_marker(pytest.mark.xdist_group(it.name.partition("[")[2].rstrip("]")))


def environment(**more: str) -> Dict[str, str]:
    """The environment in which the command runs from its sources, buffered as a user's is."""
    own = {name: it for name, it in os.environ.items()
           if name not in ("PYTHONUNBUFFERED", "PYTHONDONTWRITEBYTECODE")}
    return {**own, "PYTHONPATH": str(SOURCES), **more}


def command(*arguments: object) -> List[str]:
    """aprs-net with arguments, as a process is given it."""
    return [sys.executable, "-m", "aprsbook_tools", *map(str, arguments)]


@functools.lru_cache(maxsize=None)
def forking() -> Forking:
    """A process that has aprs-net imported."""
    return Forking(environment())


def tried(*arguments: object, given: bytes = b"", status: int = 0,
          **keywords: Any) -> "subprocess.CompletedProcess[bytes]":
    """What aprs-net, which ends so, prints and says."""
    keywords.setdefault("env", environment())
    if forking().can_run(keywords):
        done = forking().run([*map(str, arguments)], given, **keywords)
    else:
        done = subprocess.run(command(*arguments), input=given, capture_output=True, **keywords)
    assert b"Traceback" not in done.stderr, done.stderr.decode()
    assert done.returncode == status, (arguments, done)
    return done


def started(*arguments: object, rate: float = 1, **keywords: Any) -> "subprocess.Popen[bytes]":
    """aprs-net, which runs on, by a clock that runs so many times as fast."""
    keywords.setdefault("env", environment())
    keywords.setdefault("stderr", subprocess.PIPE)
    words = command(*arguments)
    if rate != 1:
        words[1:3] = [str(HERE / "hurried.py"), str(rate)]
    return subprocess.Popen(words, **keywords)


def named(text: str) -> List[Dict[str, str]]:
    """The lines of a table with tabs between the fields, by the names in the first."""
    return [*csv.DictReader(io.StringIO(text), delimiter="\t", quoting=csv.QUOTE_NONE)]


def wait_for(condition: Callable[[], Any], words: str = "", seconds: float = 20) -> Any:
    """Waits until a condition holds; its value."""
    end = time.monotonic() + seconds
    while True:
        value = condition()
        if value:
            return value
        assert time.monotonic() < end, f"waited in vain: {words}"
        time.sleep(0.02)


def lay_script(path: pathlib.Path, text: str) -> None:
    """Writes a script of Python, which begins quickly: it finds the standard library alone."""
    path.write_text(f"#!{sys.executable} -SE\n{text}")
    path.chmod(0o755)


def program(name: str) -> str:
    """A program's path; the test is left out where it is missing."""
    path: Optional[str] = shutil.which(name)
    if path is None:
        pytest.skip(f"needs {name}")
    return path


def run(*words: object, given: bytes = b"", status: int = 0) -> bytes:
    """What one of aprsbook's programs prints; the test is left out where it is missing."""
    done = subprocess.run([program(str(words[0])), *map(str, words[1:])], input=given,
                          capture_output=True)
    assert done.returncode == status, (words, done.stderr)
    return done.stdout
