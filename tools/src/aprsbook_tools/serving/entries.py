"""The journals of desks: what its entries say, and what all of them together say.

An entry is a line of JSON in one spelling, with an id of its own. None is changed or deleted: what
takes a line of voice traffic away is an entry too. Journals are united as sets.
"""
import json
import os
import re
from typing import Any, Dict, Iterable, Iterator, List, NamedTuple, Optional, Set, Tuple

from aprsbook_tools.errors import Fault, said
from aprsbook_tools.formats import moments

FOLDER = "desks"  # of the journals, below that of the logs
SUFFIX = ".jsonl"
ENTRY = 1 << 18  # bytes of an entry
ID = re.compile("[0-9a-f]{32}")
HALF = re.compile("[\ud800-\udfff]")  # of a letter in UTF-16, which no text of UTF-8 can have
# what an entry of a kind says beside who, when and what kind: texts of so many letters at most
KINDS: Dict[str, Dict[str, int]] = {
    "line": {"time": 15, "from": 40, "to": 40, "number": 20, "text": 2000},
    "gone": {"of": 32},  # the line of this id is taken away
    "name": {"call": 9, "name": 40},  # a station's tactical name
    "dealt": {"alarm": 200, "note": 200},  # somebody sees to an alarm
    "note": {"call": 9, "text": 2000},  # what desks should know of a station
    "setting": {"name": 20, "value": 200_000},  # of the net, for all its pages
}
SETTINGS = ("title", "roster", "course", "silent", "tiles")  # the names of settings


def spelling(entry: Any) -> bytes:
    """The one spelling of an entry: ASCII, names in order, no blanks."""
    return json.dumps(entry, sort_keys=True, separators=(",", ":")).encode("ascii")


def refusal(line: bytes, desk: str) -> Optional[str]:
    """Why a line isn't taken as an entry of a desk, or None."""
    if len(line) > ENTRY:
        return "LongLine"
    try:
        entry = json.loads(line)
        is_spelled = isinstance(entry, dict) and spelling(entry) == line
    except (ValueError, RecursionError):
        return "NoObject"
    if not is_spelled:
        return "Spelling"
    form = KINDS.get(str(entry.get("kind")))
    if form is None:
        return "Kind"
    if set(entry) != {"at", "desk", "id", "kind", *form}:
        return "Names"
    if entry["desk"] != desk:
        return "OtherDesk"
    return refusal_of_values(entry, form)


def refusal_of_values(entry: Dict[str, Any], form: Dict[str, int]) -> Optional[str]:
    if not isinstance(entry["id"], str) or not ID.fullmatch(entry["id"]):
        return "Id"
    if type(entry["at"]) is not int or not 0 <= entry["at"] < moments.END:
        return "Moment"
    if not all(is_text(entry[it], most) for it, most in form.items()):
        return "Text"
    if entry["kind"] == "line" and not is_moment(entry["time"]):
        return "Time"
    if entry["kind"] == "setting" and entry["name"] not in SETTINGS:
        return "Setting"
    return None


def is_text(value: Any, most: int) -> bool:
    """Whether a value is a text of so many letters at most."""
    return isinstance(value, str) and len(value) <= most and not HALF.search(value)


def is_moment(text: str) -> bool:
    """Whether a text is a number of milliseconds that a log can have."""
    return bool(re.fullmatch("[0-9]{1,13}", text, re.ASCII)) and int(text) < moments.END


class Entry(NamedTuple):
    """An entry. Where two say different things of one matter, the greater one counts."""
    at: int
    desk: str
    spelled: bytes
    id: str
    kind: str
    says: Dict[str, str]


def entry_in(line: bytes) -> Optional[Entry]:
    """The entry of a line, whoever's it is; None where it is none."""
    try:
        it = json.loads(line)
        desk = str(it["desk"])
    except (ValueError, RecursionError, TypeError, KeyError):
        return None
    if refusal(line, desk) is not None:
        return None
    says = {name: it[name] for name in KINDS[it["kind"]]}
    return Entry(it["at"], desk, line, it["id"], it["kind"], says)


class VoiceLine(NamedTuple):
    """A line of voice traffic: when, from whom, to whom, its number and text, and whose desk wrote
    it."""
    moment: int
    sender: str
    addressee: str
    number: str
    text: str
    desk: str


class Journals:
    """What the entries of all desks say together, in whatever order they came."""

    def __init__(self, entries: Iterable[Entry]) -> None:
        self.entries = sorted({it.spelled: it for it in entries}.values(),
                              key=lambda it: (it.at, it.spelled))

    def of_kind(self, kind: str) -> Iterator[Entry]:
        return (it for it in self.entries if it.kind == kind)

    @property
    def lines(self) -> List[VoiceLine]:
        """The lines of voice traffic that nobody took away."""
        gone: Set[str] = {it.says["of"] for it in self.of_kind("gone")}
        found = (VoiceLine(int(says["time"]), says["from"], says["to"], says["number"],
                           says["text"], it.desk)
                 for it in self.of_kind("line") if it.id not in gone for says in [it.says])
        return sorted(found)

    def last(self, kind: str, of: str, value: str) -> Dict[str, str]:
        """What the last entry of a kind says of each matter."""
        return {it.says[of]: it.says[value] for it in self.of_kind(kind)}

    @property
    def text(self) -> str:
        """All entries, a line each, as a page carries them."""
        return "\n".join(it.spelled.decode("ascii") for it in self.entries)

    @property
    def names(self) -> Dict[str, str]:
        """The tactical names by calls."""
        return {call: name for call, name in self.last("name", "call", "name").items() if name}


def paths_of(folder: str) -> List[str]:
    """The journals of a folder of logs, or of a folder of journals."""
    for it in (os.path.join(folder, FOLDER), folder):
        try:
            names = sorted(os.listdir(it))
        except FileNotFoundError:
            continue
        except OSError as fault:
            raise Fault(said(fault)) from fault
        return [os.path.join(it, name) for name in names
                if name.endswith(SUFFIX) and not name.startswith(".")]
    raise Fault(f"{folder}: no such folder")


def read(folder: str) -> Tuple[Journals, int]:
    """The journals of a folder, and how many of their lines are no entries."""
    found: List[Entry] = []
    others = 0
    for path in paths_of(folder):
        with open(path, "rb") as file:
            for line in file.read().split(b"\n"):
                entry = entry_in(line) if line else None
                if entry is not None:
                    found.append(entry)
                elif line:
                    others += 1
    return Journals(found), others
