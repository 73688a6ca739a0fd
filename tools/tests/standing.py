"""A stand-in for the programs: tables as texts, which scripts in the PATH print."""
import os
import pathlib
from typing import Any, Dict, Iterable, Iterator, List, Sequence

import pytest
from conftest import lay_script

from aprsbook_tools import cli, table_output
from aprsbook_tools.reports import track_files, tracks
from aprsbook_tools.reports.roster import Roster
from aprsbook_tools.reports.table import WORDS, Message, Row, Station, Thing, columns_of

# prints the table that is asked for, and as a book what it is given; it notes how it was called
SCRIPT = """\
import os, sys
name = os.path.basename(sys.argv[0])
words = [it for it in sys.argv[1:] if it in {words!r}]
given = sys.argv[sys.argv.index("--") + 1:] if "--" in sys.argv else []
read = b"".join(open(it, "rb").read() for it in given or [0])
with open({folder!r} + "/calls", "a") as calls:
    calls.write(" ".join([name, *sys.argv[1:]]) + "\\n")
if read.startswith(b"faulty"):
    sys.exit(f"{{name}}: {{given[0] if given else 'standard input'}}: line 1: Moment")
if name == "aprsbook-table":
    path = {folder!r} + "/" + (words or ["rows"])[0] + ".tsv"
    sys.stdout.buffer.write(open(path, "rb").read())
elif sys.argv[1:2] == ["merge"]:
    sys.stdout.buffer.write(b"APRSBOOK 3 30\\n" + read)
else:
    sys.stdout.write(name + "\\n")
"""


def at(clock: str) -> str:
    """A moment of one evening, such as 18:00."""
    parts = [*clock.split(":"), "00"]
    return f"2024-06-21T{parts[0]}:{parts[1]}:{parts[2]}.000Z"


def row(kind: str, clock: str, source: str, **more: Any) -> Row:
    """A row that one receiver heard once."""
    plain = Row(
        kind=kind,
        first=at(clock),
        last=at(clock),
        receivers=("RX1",),
        receiver="RX1",
        source=source,
        destination="APRS",
    )
    return plain._replace(**more)


def place(clock: str, source: str, north: float, east: float, **more: Any) -> Row:
    """A row with the place of a station."""
    plain = row(
        "position",
        clock,
        source,
        latitude=north,
        longitude=east,
        ambiguity=0,
        compressed=False,
        symbol="/>",
    )
    return plain._replace(**more)


def put(clock: str, source: str, name: str, north: float, east: float, **more: Any) -> Row:
    """A row with the place of an object."""
    plain = place(clock, source, north, east, kind="object", name=name, state="live")
    return plain._replace(**more)


def message(clock: str, source: str, addressee: str, text: str, **more: Any) -> Message:
    """A message that was heard once."""
    plain = Message(
        source=source,
        addressee=addressee,
        text=text,
        state="unanswered",
        first=at(clock),
        last=at(clock),
    )
    return plain._replace(**more)


def station(clock: str, source: str, transmissions: int = 1, receiver: str = "RX1") -> Station:
    return Station(source=source, transmissions=transmissions, last=at(clock), receiver=receiver)


def shown(value: Any) -> str:
    """A value as the table shows it."""
    if value is None:
        return ""
    if isinstance(value, bool):
        return "yes" if value else "no"
    if isinstance(value, tuple):
        return ",".join(map(shown, value))
    if isinstance(value, float):
        return f"{value:.7f}"
    return "".join(
        chr(it) if 0x20 <= it <= 0x7E and it != 0x5C else f"\\x{it:02x}"
        for it in str(value).encode("utf-8", "surrogateescape")
    )


def table_text(kind: Any, items: Sequence[Any]) -> str:
    """The table of these items, with a column that this version doesn't know."""
    lines = [[*map(shown, it), "?"] for it in items]
    head = [*columns_of(kind), "of_later"]
    return "".join("\t".join(line) + "\n" for line in [head, *lines])


def tracks_of(form: str, things: Iterable[tracks.Thing]) -> Iterator[str]:
    """The tracks of things in a format, without a roster."""
    if form in track_files.TRACKS:
        return track_files.TRACKS[form](things, Roster(), "net")
    head = track_files.head_of(Roster())
    lines = [it[:len(head)] for it in track_files.lines_of(things, Roster())]
    return table_output.lines_of(form, head, lines)


class Programs:
    """Stand-ins in the PATH, with the tables that they print."""

    def __init__(
        self, folder: pathlib.Path, patch: pytest.MonkeyPatch, capture: pytest.CaptureFixture[str]
    ) -> None:
        self.folder, self.capture = folder, capture
        bin_folder = folder / "bin"
        bin_folder.mkdir()
        words = [*WORDS.values()]
        for name in "aprsbook", "aprsbook-table":
            lay_script(bin_folder / name, SCRIPT.format(folder=str(folder), words=words))
        patch.setenv("PATH", f"{bin_folder}{os.pathsep}{os.environ['PATH']}")
        self.say()

    def say(self, *items: Any) -> None:
        """From now on these are the tables."""
        by_kind: Dict[Any, List[Any]] = {kind: [] for kind in (Row, Message, Station, Thing)}
        for it in items:
            by_kind[type(it)].append(it)
        for kind, own in by_kind.items():
            (self.folder / f"{WORDS[kind]}.tsv").write_text(table_text(kind, own))

    @property
    def calls(self) -> List[str]:
        path = self.folder / "calls"
        return path.read_text().splitlines() if path.exists() else []

    def run(self, *words: str, status: int = 0) -> str:
        """What a command prints, which ends so."""
        self.capture.readouterr()
        try:
            ended = cli.run(list(words))
        except SystemExit as it:
            ended = int(it.code or 0)
        out = self.capture.readouterr()
        self.said = out.err
        assert ended == status, (words, ended, out.err)
        return out.out

    def lines(self, *words: str) -> List[List[str]]:
        """The fields of the lines that a command prints."""
        return [line.split("\t") for line in self.run(*words).splitlines()]


@pytest.fixture
def programs(
    tmp_path: pathlib.Path, monkeypatch: pytest.MonkeyPatch, capfd: pytest.CaptureFixture[str]
) -> Programs:
    """Stand-ins for the programs, and a log for them, `net.log`, in the present folder."""
    monkeypatch.chdir(tmp_path)
    monkeypatch.delenv("APRS_NET_DAYS", raising=False)
    monkeypatch.delenv("APRS_NET_GAP", raising=False)
    (tmp_path / "net.log").write_text("")
    return Programs(tmp_path, monkeypatch, capfd)
