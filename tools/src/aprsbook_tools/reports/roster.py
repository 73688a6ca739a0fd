"""The roster of a net: who is expected, by call, name and group.

A line is a call, and after a blank the name of who or what has it: `Q1RUN-7 Leader`. `Q1RUN-*` is
that call with any SSID or none, `Q1RUN` and `Q1RUN-0` are the call without one; letters may be
small. Where a comma, a semicolon or a tab follows the call, the fields are call, name, group and
bib, as a spreadsheet saves them, perhaps in quotes, within which a line may break (RFC 4180). A
head line may name them in another order, and one of `sep=;` the sign between them. Empty lines,
rows of empty cells and lines that begin with # say nothing, and a byte order mark is passed over.
"""
from __future__ import annotations

import enum
import re

from aprsbook_tools import TYPE_CHECKING
from aprsbook_tools.errors import Fault
from aprsbook_tools.formats.forms import form
from aprsbook_tools.records import NamedTuple

if TYPE_CHECKING:
    from typing import Dict, Iterable, Iterator, List, Optional, Sequence, Tuple, Union

ANY = "-*"  # stands for any SSID
LONGEST = 100_000  # letters of a line
FEW = 20  # faults that are said
BEGIN = form(r'\s*(?:"[^"]*"|[^\s,;"]+) *([,;\t])| *([,;])')
QUOTED = form(r'"(?:[^"]|"")*"')
PLAIN = form(r'\s*"?([^\s"]+)"?\s*(.*)')
LINE_END = form(r"\r\n|\n|\r")
EMPTY = form(r'[\s,;"]*')
SEPARATOR = form(r"sep=([,;\t])\s*", re.IGNORECASE)
CELL = 20  # lines at most that a cell in quotes goes over
# the names of columns in a head line
HEADS = {
    "call": "call",
    "callsign": "call",
    "station": "call",
    "name": "name",
    "tactical": "name",
    "who": "name",
    "group": "group",
    "team": "group",
    "class": "group",
    "bib": "bib",
    "number": "bib",
    "no": "bib",
}
ORDER = ("call", "name", "group", "bib")


class Expected(NamedTuple):
    """Who is expected: a call such as Q1RUN-7, or Q1RUN-* for any SSID, and what is said of it."""

    call: str
    name: str = ""
    group: str = ""
    bib: str = ""

    @property
    def is_any(self) -> bool:
        return self.call.endswith(ANY)

    def is_of(self, call: str) -> bool:
        """Whether a station's call is one that this entry stands for."""
        return base_of(call) == base_of(self.call) if self.is_any else call == self.call


class LineFault(NamedTuple):
    """A line that isn't understood."""

    line: int
    reason: str

    def __str__(self) -> str:
        return f"line {self.line}: {self.reason}"


def base_of(call: str) -> str:
    """A call without its SSID."""
    return call.partition("-")[0]


def call_of(text: str) -> Optional[str]:
    """A call as it is heard, or one of any SSID; nothing where it is none."""
    from aprsbook_tools.formats import ax25  # where there is a call alone, as below

    text = text.strip()
    if not text.endswith(ANY):
        return ax25.spelled(text)
    call = ax25.spelled(text[:-len(ANY)])
    return None if call is None or "-" in text[:-len(ANY)] else call + ANY


class Roster:
    """Who is expected, in the order of the lines, and the lines that aren't understood."""

    def __init__(self, expected: Iterable[Expected] = (), faults: Iterable[LineFault] = (),
                 is_given: bool = False) -> None:
        self.expected = list(expected)
        self.is_given = is_given or bool(self.expected)  # an empty file is a roster too
        self.faults = list(faults)
        self._by_call: Dict[str, Expected] = {it.call: it for it in self.expected}

    def entry_of(self, call: str) -> Optional[Expected]:
        """The entry of a station: that of its call, or else that of any SSID."""
        return self._by_call.get(call) or self._by_call.get(base_of(call) + ANY)

    def name_of(self, call: str) -> str:
        """The tactical name of a station, empty where there is none."""
        entry = self.entry_of(call)
        return entry.name if entry else ""

    def said(self, call: str) -> str:
        """A call for a reader, with its tactical name before it: Leader (Q1RUN-7)."""
        name = self.name_of(call)
        return f"{name} ({call})" if name else call

    def words_of_faults(self) -> List[str]:
        """What isn't understood, in words; of a file that is no roster not each line."""
        more = len(self.faults) - FEW
        return [*map(str, self.faults[:FEW]), *([f"lines more: {more}"] if more > 0 else [])]

    @property
    def has_names(self) -> bool:
        return any(it.name for it in self.expected)


class Quotes(enum.Enum):
    """How the quotes of a line end: as a spreadsheet writes them, with something behind them, or
    not at all."""

    WHOLE = enum.auto()
    LOOSE = enum.auto()
    OPEN = enum.auto()


def quotes_of(line: str, sign: str) -> Quotes:
    """How the cells in quotes of a line end."""
    if not sign:
        found = PLAIN.match(line)
        line, sign = found[2] if found else "", "\x1f"
    at, result = 0, Quotes.WHOLE
    while True:
        begin = len(line) - len(line[at:].lstrip(" "))
        if line[begin:begin + 1] == '"':
            end = QUOTED.match(line, begin)
            if end is None:
                return Quotes.OPEN
            begin = end.end()
            rest = line[begin:].lstrip(" ")
            if rest and not rest.startswith(sign):
                result = Quotes.LOOSE
        at = line.find(sign, begin) + 1
        if not at:
            return result


def sign_in(row: str, own: str) -> str:
    """The sign that parts the fields of a row: that of the head, where it is there."""
    return own if own and own in row else sign_of(row)


class _Reader:
    """Reads a roster row by row."""

    def __init__(self, text: str) -> None:
        self.lines = LINE_END.split(text.lstrip("\ufeff"))
        self.order: Sequence[str] = ORDER
        self.sign = ""
        self.is_first = True
        self.expected: List[Expected] = []
        self.faults: List[LineFault] = []
        self.seen: Dict[str, int] = {}

    def rows(self) -> Iterator[Tuple[int, str]]:
        """The rows that say something, each with the number of its first line: a row goes on where
        a line breaks within a cell."""
        at = 0
        while at < len(self.lines):
            row, at = self.lines[at], at + 1
            number, separator = at, SEPARATOR.fullmatch(row)
            if separator:
                self.sign = separator[1]
            elif not EMPTY.fullmatch(row) and not row.lstrip().startswith("#"):
                longer = self.longer(row, at) if self.quotes_of(row) is Quotes.OPEN else []
                at += max(0, len(longer) - 1)
                yield number, " ".join(longer) or row

    def longer(self, row: str, at: int) -> List[str]:
        """The lines of a row that ends within a cell; none where no line ends that."""
        for more in range(1, min(CELL, len(self.lines) - at + 1)):
            lines = [row, *self.lines[at:at + more]]
            if self.quotes_of(" ".join(lines)) is Quotes.WHOLE:
                return lines
        return []

    def quotes_of(self, row: str) -> Quotes:
        return Quotes.LOOSE if len(row) > LONGEST else quotes_of(row, sign_in(row, self.sign))

    def read(self, number: int, row: str) -> None:
        """Takes a row: a head, an entry, or what isn't understood."""
        import csv  # where there is a roster alone

        is_first, self.is_first = self.is_first, False
        if len(row) > LONGEST:
            self.refuse(number, f"longer than {LONGEST} letters")
            return
        try:
            fields = fields_of(row, self.sign)
        except csv.Error as fault:  # as a NUL is to an older Python
            self.refuse(number, str(fault))
            return
        head = head_of(fields) if is_first else None
        if head:
            # a first column that isn't the call may be empty, or have blanks
            self.sign = self.sign if head[0] == "call" else sign_in(row, self.sign)
            self.order = head
            return
        entry = entry_of(fields, self.order)
        if sign_in(row, self.sign) and self.quotes_of(row) is Quotes.OPEN:
            self.refuse(number, "a quote stands open")
        elif isinstance(entry, str):
            is_head = is_first and sign_in(row, self.sign)
            more = f", and no head, whose names are {', '.join(HEADS)}" if is_head else ""
            self.refuse(number, entry + more)
        elif entry.call in self.seen:
            self.refuse(number, f"{entry.call} is on line {self.seen[entry.call]} already")
        else:
            self.seen[entry.call] = number
            self.expected.append(entry)

    def refuse(self, number: int, why: str) -> None:
        self.faults.append(LineFault(number, why))


def read_roster(text: str) -> Roster:
    """The roster of a text; a fault for each row that isn't understood, or has a call again."""
    reader = _Reader(text)
    for number, row in reader.rows():
        reader.read(number, row)
    return Roster(reader.expected, reader.faults, is_given=True)


def sign_of(line: str) -> str:
    """The sign after the first word of a line, or before it, where its first field is empty."""
    begin = BEGIN.match(line)
    return (begin[1] or begin[2]) if begin else ""


def fields_of(line: str, own: str) -> List[str]:
    """The fields of a line: what its head's own sign parts, or a comma, semicolon or tab after the
    first word, or else a call and a name."""
    sign = sign_in(line, own)
    if sign:
        return parted(line.strip(" "), sign)
    plain = PLAIN.match(line)
    return [plain[1], *parted(plain[2], "\x1f")] if plain else []


def parted(line: str, sign: str) -> List[str]:
    """The fields that a sign parts, some in quotes."""
    import csv

    return [it.strip() for it in next(csv.reader([line], delimiter=sign, skipinitialspace=True))]


def head_of(fields: Sequence[str]) -> Optional[List[str]]:
    """The columns that a head line names, empty for one that means nothing here, or that is named
    before."""
    names = [HEADS.get(it.lower(), "") for it in fields]
    if len(names) == 2 and names[0] == "call" and not names[1]:
        return list(ORDER)
    if "call" not in names:
        return None
    return ["" if it in names[:at] else it for at, it in enumerate(names)]


def entry_of(fields: Sequence[str], order: Sequence[str]) -> Union[Expected, str]:
    """The entry of a line, or why it is none."""
    said = {name: field for name, field in zip(order, fields) if name}
    call = call_of(said.get("call", ""))
    if call is None:
        return f"{said.get('call', '')!r} is no call"
    return Expected(call, said.get("name", ""), said.get("group", ""), said.get("bib", ""))


def text_of(roster: Roster) -> str:
    """The text of a roster, which is read as this one."""
    def field(text: str) -> str:
        quoted = text.replace('"', '""')
        return f'"{quoted}"' if re.search(r'[",;\t\r\n]|^\s|\s$', text) else text
    rows = [",".join(map(field, (it.call, it.name, it.group, it.bib))) for it in roster.expected]
    return "".join(f"{it}\n" for it in ["call,name,group,number", *rows])


def roster_of(path: Optional[str]) -> Roster:
    """The roster of a file, which has no fault; an empty one where there is no file."""
    if path is None:
        return Roster()
    from aprsbook_tools.system import user_text

    roster = read_roster(user_text.read(path))
    if roster.faults:
        raise Fault(f"{path}: " + "; ".join(roster.words_of_faults()))
    return roster
