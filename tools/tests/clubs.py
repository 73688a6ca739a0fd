"""A folder with logs of a club, for tests of aprs-net book."""
import os
import pathlib
import shutil
import subprocess
from typing import List, Optional, Set

import pytest

from aprsbook_tools.formats import log_file
from conftest import EVENING, HERE, environment, lay_script, tried

PATH = os.environ["PATH"]
ALL = "hill", "coast", "north"


class Club:
    """A folder with logs of the evening, and the programs."""

    def __init__(self, folder: pathlib.Path, programs: str,
                 bin: Optional[pathlib.Path] = None) -> None:
        self.folder = folder
        self.bin = bin  # the stand-ins, which a test may replace; None where they are the programs
        self.runs = folder / "runs.txt"
        self.env = environment(PATH=programs, STAND_IN_RUNS=str(self.runs))

    def path(self, name: str) -> pathlib.Path:
        return self.folder / name

    def lay(self, name: str, *of: str) -> pathlib.Path:
        """A file of logs of the evening, one after another."""
        text = b"".join(pathlib.Path(it).read_bytes() for it in EVENING
                        if pathlib.Path(it).stem in of)
        self.path(name).parent.mkdir(parents=True, exist_ok=True)
        self.path(name).write_bytes(text)
        return self.path(name)

    def merged(self, gap: int, *names: str) -> bytes:
        """The book of logs of the evening."""
        paths = [it for it in EVENING if pathlib.Path(it).stem in names]
        return subprocess.run(["aprsbook", "merge", "--gap", str(gap), "--", *paths], env=self.env,
                              stdout=subprocess.PIPE, check=True).stdout

    def book(self, *arguments: object, status: int = 0) -> str:
        """What the command says."""
        self.runs.write_bytes(b"")
        done = tried("book", *arguments, cwd=self.folder, env=self.env, status=status)
        assert done.stdout == b""
        return done.stderr.decode()

    def read(self, name: str = "net.book") -> bytes:
        return self.path(name).read_bytes()

    def names(self) -> Set[str]:
        """All that lies there but the notes and locks beside books."""
        return {str(it.relative_to(self.folder)) for it in self.folder.rglob("*")
                if not (it.name.startswith(".") and it.suffix in (".of", ".lock"))
                and it != self.runs}


@pytest.fixture(params=["stand-in", "aprsbook"])
def club(request: pytest.FixtureRequest, tmp_path_factory: pytest.TempPathFactory) -> Club:
    folder, bin = tmp_path_factory.mktemp("club"), tmp_path_factory.mktemp("bin")
    if request.param == "aprsbook":
        if not shutil.which("aprsbook", path=PATH):
            pytest.skip("needs aprsbook")
        return Club(folder, PATH)
    for name in "aprsbook", "aprsbook-fold", "aprsbook-table":
        lay_script(bin / name, (HERE / "stand_in.py").read_text())
    rest = [it for it in PATH.split(os.pathsep)
            if not os.path.exists(os.path.join(it, "aprsbook-fold"))]
    return Club(folder, os.pathsep.join([str(bin), *rest]), bin)


def without_folds(club: Club) -> None:
    """No program that folds is there for what comes, but a stand-in for the others."""
    if club.bin is None:
        pytest.skip("needs the stand-in")
    (club.bin / "aprsbook-fold").unlink()
    rest = [it for it in PATH.split(os.pathsep)
            if not os.path.exists(os.path.join(it, "aprsbook-fold"))]
    club.env["PATH"] = os.pathsep.join([str(club.bin), *rest])


def write_large(club: Club, name: str, megabytes: int) -> List[bytes]:
    """A log of many lines of the evening, each at another moment; its lines."""
    first = log_file.read_line(club.lay("kept", "hill").read_bytes().splitlines()[0])
    assert first is not None
    count = megabytes * 1_100_000 // len(first.write())
    lines = [first._replace(moment=first.moment + 31_000 * it).write() for it in range(count)]
    club.path(name).parent.mkdir(parents=True, exist_ok=True)
    club.path(name).write_bytes(b"".join(lines))
    return lines


def runs_of(club: Club) -> int:
    return len(club.runs.read_text().splitlines())
