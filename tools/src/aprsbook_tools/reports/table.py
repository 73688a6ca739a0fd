"""The table of a book, by column names: a named tuple for each kind. Columns that this doesn't
know are passed over, and those that an older aprsbook-table lacks are empty."""
from __future__ import annotations

import collections
import itertools
import operator
import re

from aprsbook_tools import TYPE_CHECKING
from aprsbook_tools.errors import Fault
from aprsbook_tools.formats.forms import form
from aprsbook_tools.records import NamedTuple
from aprsbook_tools.system import programs

if TYPE_CHECKING:
    from typing import (
        Any, Callable, Dict, Iterable, Iterator, List, Optional, Sequence, Tuple, Type, TypeVar)

    T = TypeVar("T")
    Columns = List[Sequence[Any]]  # the values of each column of some rows
    ConvertColumn = Callable[[Sequence[str]], Sequence[Any]]
    # says of the lines of a column whether one has to be written anew
    Changes = Callable[[str], bool]
    DictOfAny = Dict[str, Any]
else:
    DictOfAny = dict

SHOWN = form(r"((?:\\x[0-9a-f]{2})+)|\\\\")
BIDI = frozenset("\u061c\u200e\u200f\u202a\u202b\u202c\u202d\u202e\u2066\u2067\u2068\u2069")


def is_readable(character: str) -> bool:
    """Whether a character stands in a text as itself: no control, no end of line, no direction."""
    import unicodedata  # where a text has something else than ASCII alone

    return character not in BIDI and unicodedata.category(character) not in ("Cc", "Cs", "Zl", "Zp")


def read_bytes(octets: bytes) -> str:
    """Bytes as text where they are UTF-8 that can be read, and as \\xNN elsewhere."""
    result, at = [], 0
    while at < len(octets):
        for size in (1, 2, 3, 4):
            try:
                character = octets[at:at + size].decode("utf-8")
            except UnicodeDecodeError:
                continue
            if len(character) == 1 and is_readable(character):
                result.append(character)
                at += size
                break
        else:
            result.append(f"\\x{octets[at]:02x}")
            at += 1
    return "".join(result)


def text_of(shown: str) -> str:
    """A field as text: \\xNN becomes what it stands for in UTF-8, and \\\\ a backslash."""
    def put(found: "re.Match[str]") -> str:
        return read_bytes(bytes.fromhex(found[1].replace("\\x", ""))) if found[1] else "\\"
    return SHOWN.sub(put, shown) if "\\" in shown else shown


def names(shown: str) -> Tuple[str, ...]:
    """A field with commas, as receivers or digipeaters."""
    return tuple(text_of(it) for it in shown.split(",")) if shown else ()


def number(shown: str) -> Optional[int]:
    return int(shown) if shown else None


def decimal(shown: str) -> Optional[float]:
    return float(shown) if shown else None


def yes(shown: str) -> Optional[bool]:
    return {"yes": True, "no": False}.get(shown)


class Row(NamedTuple):
    """A transmission. Moments are their 24 bytes, which sort as text."""
    kind: str = ""
    first: str = ""
    last: str = ""
    receivers: Tuple[str, ...] = ()
    receiver: str = ""
    source: str = ""
    destination: str = ""
    via: Tuple[str, ...] = ()
    gate: str = ""
    name: str = ""
    state: str = ""
    id: str = ""
    latitude: Optional[float] = None
    longitude: Optional[float] = None
    ambiguity: Optional[int] = None
    compressed: Optional[bool] = None
    symbol: str = ""
    stamp: str = ""
    course: Optional[int] = None
    speed_knots: Optional[int] = None
    altitude_m: Optional[float] = None
    wind_from: Optional[int] = None
    wind_mph: Optional[int] = None
    gust_mph: Optional[int] = None
    temperature_f: Optional[int] = None
    rain_hour: Optional[int] = None
    rain_day: Optional[int] = None
    rain_midnight: Optional[int] = None
    humidity: Optional[int] = None
    pressure_tenths: Optional[int] = None
    luminosity: Optional[int] = None
    telemetry_sequence: str = ""  # as they were sent: 005 isn't 5, and 1.50 not 1.5
    a1: str = ""
    a2: str = ""
    a3: str = ""
    a4: str = ""
    a5: str = ""
    bits: str = ""
    says: str = ""
    text: str = ""
    messaging: Optional[bool] = None
    fix: str = ""
    range_miles: Optional[float] = None
    phg_watts: Optional[int] = None
    phg_height_ft: Optional[int] = None
    phg_gain_db: Optional[int] = None
    phg_direction: Optional[int] = None
    frequency_khz: Optional[int] = None
    tone: str = ""
    offset_khz: Optional[int] = None
    finer_latitude: Optional[float] = None
    finer_longitude: Optional[float] = None


NO_TRAFFIC = frozenset(["query", "telemetry", "answer"])  # classes of messages


class Message(NamedTuple):
    """A time that a message was sent, with its states, and the answers that decide them."""
    source: str = ""
    addressee: str = ""
    id: str = ""
    text: str = ""
    state: str = ""
    first: str = ""
    last: str = ""
    answer: str = ""
    answer_source: str = ""
    reply_ack: str = ""
    reply_answer: str = ""
    gate: str = ""
    class_: str = ""  # the column is called class, a word of Python
    number: str = ""
    outcome: str = ""
    outcome_moment: str = ""

    @property
    def final_state(self) -> str:
        """What came of it, by any answer to its number where the table has that."""
        return self.outcome or self.reply_ack or self.state

    @property
    def said_number(self) -> str:
        """Its number, also where that stands in its text for reply-acks."""
        return self.number or self.id

    @property
    def is_traffic(self) -> bool:
        """Whether somebody says something: no definition of telemetry, no query, no answer."""
        return self.class_ not in NO_TRAFFIC


class Station(NamedTuple):
    """A station with its last position and its last status, and how many frames of others it passed
    on."""
    source: str = ""
    transmissions: Optional[int] = None
    last: str = ""
    receiver: str = ""
    stamp: str = ""
    latitude: Optional[float] = None
    longitude: Optional[float] = None
    ambiguity: Optional[int] = None
    compressed: Optional[bool] = None
    symbol: str = ""
    text: str = ""
    status_last: str = ""
    status_receiver: str = ""
    status_stamp: str = ""
    status_text: str = ""
    heard: str = ""
    passed: Optional[int] = None


class Thing(NamedTuple):
    """An object or an item with its last state."""
    kind: str = ""
    name: str = ""
    state: str = ""
    last: str = ""
    receiver: str = ""
    source: str = ""
    stamp: str = ""
    latitude: Optional[float] = None
    longitude: Optional[float] = None
    ambiguity: Optional[int] = None
    compressed: Optional[bool] = None
    symbol: str = ""
    text: str = ""


WORDS: Dict[Type[Any], str] = {
    Row: "rows", Message: "messages", Station: "stations", Thing: "things"}
# how a field of a type is read
READERS: Dict[str, Callable[[str], Any]] = {
    "str": text_of, "Tuple[str, ...]": names, "Optional[int]": number,
    "Optional[float]": decimal, "Optional[bool]": yes}
# the first column that was added after the first version of a table
LATE: Dict[Type[Any], str] = {Row: "messaging", Message: "reply_ack", Station: "heard"}
# the moments by which a row is of a time: when it was first heard, or what is last known, last
MOMENTS: Dict[Type[Any], Tuple[str, ...]] = {
    Row: ("first",), Message: ("first",), Station: ("last", "status_last", "heard"),
    Thing: ("last",)}


class Time(NamedTuple):
    """From a moment on, and before another; their texts sort as moments do."""
    since: str = ""
    until: str = "~"


ALWAYS = Time()
BATCH = 200  # lines
KNOWN = 2_000  # texts of a column whose values are kept
FIELDS = operator.methodcaller("count", "\t")  # of a line, without the first
BETWEEN = "\t\n\t"  # two lines: a mark that no line has
REST = "*"  # in place of a column's name: what stands behind all others that are read


def column_of(name: str) -> str:
    """The column of a field, whose name has a _ behind a word of Python."""
    return name.rstrip("_")


def columns_of(kind: Type[Any]) -> List[str]:
    return [*map(column_of, kind._fields)]


def readers_of(kind: Type[Any]) -> Dict[str, Callable[[str], Any]]:
    """How each column of a kind is read, by what the field is."""
    return {column_of(name): READERS[of] for name, of in kind.__annotations__.items()}


def late_of(kind: Type[Any]) -> List[str]:
    """The columns that an older program lacks."""
    names = columns_of(kind)
    return names[names.index(LATE[kind]):] if kind in LATE else []


def places_of(kind: Type[Any], names: Sequence[str], head: Sequence[str]) -> List[int]:
    """Where columns stand in a line; one that an older program lacks, behind its end."""
    late = late_of(kind)
    for it in names:
        if it not in head and it not in late:
            raise Fault(f"the table of {WORDS[kind]} has no column {it}")
    return [head.index(it) if it in head else len(head) for it in names]


class Wanted(NamedTuple):
    """Which lines of a table are wanted: those of a time that have something in a column."""
    time: Time = ALWAYS
    having: str = ""  # one of the columns that are read, or nothing


ALL = Wanted()


class Layout:
    """Where columns stand in the lines of a table, of which some are wanted. REST, which may be the
    last name, is all that stands behind the others."""

    def __init__(self, kind: Type[Any], head: str, names: Sequence[str], wanted: Wanted) -> None:
        self.kind, self.time, self.head = kind, wanted.time, head.split("\t")
        self.having = names.index(wanted.having) if wanted.having else -1
        self.at = places_of(kind, [it for it in names if it != REST], self.head)
        self.times = places_of(kind, MOMENTS[kind], self.head) if self.time != ALWAYS else []
        self.most = max([*self.at, *self.times]) + 1
        self.is_short = REST in names
        self.at += [self.most] if self.is_short else []

    def columns(self, lines: Iterator[str]) -> Iterator[Columns]:
        """The columns of the lines behind the first, of many lines at once: so each costs least."""
        number_ = 2
        for batch in iter(lambda: [*itertools.islice(lines, BATCH)], []):
            column_at = self.short(batch, number_) if self.is_short else self.whole(batch, number_)
            columns_ = [*map(column_at, self.at)]
            if self.times:
                are = [*map(self.is_within, zip(*map(column_at, self.times)))]
                columns_ = kept(columns_, are)
            if self.having >= 0:
                columns_ = kept(columns_, columns_[self.having])
            if columns_[0]:
                yield columns_
            number_ += len(batch)

    def whole(self, lines: Sequence[str], number_: int) -> Callable[[int], Sequence[str]]:
        """The columns of lines, of which the first has this number, by their places."""
        size, count = len(self.head), len(lines)
        step = size + 1  # a line's fields, and the mark behind them, which is no field's text
        fields = BETWEEN.join(lines).split("\t")
        if len(fields) != step * count - 1 or fields[size::step].count("\n") != count - 1:
            self.check(lines, [*map(FIELDS, lines)], size - 1, number_)
        return lambda at: fields[at::step] if at < size else [""] * count

    def short(self, lines: Sequence[str], number_: int) -> Callable[[int], Sequence[str]]:
        """The same, of which the last one is all that stands behind those that are read."""
        rows = [*map(str.split, lines, itertools.repeat("\t"), itertools.repeat(self.most))]
        size = min(self.most + 1, len(self.head))
        if {*map(len, rows)} != {size}:
            self.check(lines, [*map(len, rows)], size, number_)
        turned = [*zip(*rows)]
        return lambda at: turned[at] if at < len(turned) else [""] * len(rows)

    def check(self, lines: Sequence[str], sizes: Sequence[int], size: int, number_: int) -> None:
        """Refuses lines, of which the first has this number, that aren't all of a size."""
        at = next(at for at, it in enumerate(sizes) if it != size)
        raise Fault(f"the table of {WORDS[self.kind]}: line {number_ + at} has "
                    f"{FIELDS(lines[at]) + 1} fields, and {len(self.head)} columns are named")

    def is_within(self, moments: Sequence[str]) -> bool:
        """Whether one of a row's moments is of the time."""
        return any(self.time.since <= it < self.time.until for it in moments if it)


def is_empty(column: Sequence[Any]) -> bool:
    """Whether no row has something in a column that is shown: to count finds most as they are."""
    return not (column and column[0]) and column.count("") == len(column)


def kept(columns: Columns, are: Sequence[Any]) -> Columns:
    """The columns of those rows for which there is something."""
    return [[*itertools.compress(it, are)] for it in columns]


def tuples(kind: Type[Any], lines: Iterable[str], names: Sequence[str],
           wanted: Wanted = ALL) -> Iterator[Tuple[str, ...]]:
    """These columns of the table's lines, as they are shown, of those that are wanted."""
    for shown in columns(kind, lines, wanted, names):
        yield from zip(*shown)


def columns(kind: Type[Any], lines: Iterable[str], wanted: Wanted = ALL,
            names: Sequence[str] = ()) -> Iterator[Columns]:
    """All columns of the table's lines, or those of these names, as they are shown, of the lines
    that are wanted: of many lines at once."""
    lines = iter(lines)
    yield from Layout(kind, next(lines, ""), names or columns_of(kind), wanted).columns(lines)


class Known(DictOfAny):
    """The values of texts, each of which is read once."""

    def __init__(self, read: Callable[[str], Any]) -> None:
        super().__init__()
        self.read = read

    def __missing__(self, shown: str) -> Any:
        value = self[shown] = self.read(shown)
        return value


def converter(read: Callable[[str], Any], empty: Any, changes: Optional[Changes] = None
              ) -> ConvertColumn:
    """What converts a column that is shown: what is alike is read once, and one that is empty is
    `empty`. All stand as they are where nothing changes one of them."""
    known = Known(read)

    def convert(values: Sequence[str]) -> Sequence[Any]:
        if is_empty(values):
            return [empty] * len(values)
        if changes is not None and not changes("\n".join(values)):
            return values
        if len(known) > KNOWN:
            known.clear()
        known[""] = empty
        return [*map(known.__getitem__, values)]
    return convert


def decimals(empty: Any) -> ConvertColumn:
    """What converts a column of decimals, of which few are alike."""
    def convert(values: Sequence[str]) -> Sequence[Any]:
        if is_empty(values):
            return [empty] * len(values)
        if "" in values:
            return [float(it) if it else empty for it in values]
        return [*map(float, values)]
    return convert


def is_escaped(lines: str) -> bool:
    """Whether a line of what is shown isn't what it stands for."""
    return "\\" in lines


def maker(name: str, columns_: Sequence[str]) -> Any:
    """What makes named tuples of these columns."""
    return collections.namedtuple(name, columns_)


def named(make: Any, rows: Iterable[Tuple[Any, ...]]) -> Iterator[Any]:
    """Tuples of a size as named tuples of that size, which costs less than to make those."""
    return map(tuple.__new__, itertools.repeat(make), rows)


def read(kind: Type[T], lines: Iterable[str], names: Sequence[str] = (),
         wanted: Wanted = ALL) -> Iterator[T]:
    """The table's lines as a kind, or as named tuples of some of its columns."""
    make: Any = maker(kind.__name__, names) if names else kind
    names = names or columns_of(kind)
    own = [decimals(None) if it is decimal else
           converter(it, it(""), is_escaped if it is text_of else None)
           for it in map(readers_of(kind).__getitem__, names)]
    for shown in columns(kind, lines, wanted, names):
        try:
            values = [convert(it) for convert, it in zip(own, shown)]
        except ValueError as fault:
            raise Fault(f"the table of {WORDS[kind]}: {fault}") from fault
        yield from named(make, zip(*values))


def lines_of(kind: Type[Any], inputs: Sequence[str], gap: Optional[int] = None,
             given: programs.Given = None) -> Iterator[str]:
    """The table of logs and books, or of standard input where there are none."""
    # the first table, rows, needs no word, also of an older program
    words = [] if kind is Row else [WORDS[kind]]
    command = programs.with_gap(["aprsbook-table", *words], gap, inputs)
    return programs.lines(*command, given=given)


def of(kind: Type[T], inputs: Sequence[str], gap: Optional[int] = None,
       given: programs.Given = None, names: Sequence[str] = (), wanted: Wanted = ALL
       ) -> Iterator[T]:
    """The same as a kind, or as named tuples of some of its columns."""
    return read(kind, lines_of(kind, inputs, gap, given), names, wanted)


def rows(inputs: Sequence[str], gap: Optional[int] = None) -> Iterator[Row]:
    return of(Row, inputs, gap)
