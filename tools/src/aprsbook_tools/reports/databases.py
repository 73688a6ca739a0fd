"""A database of SQLite with the tables of a book, in which numbers are numbers."""
from __future__ import annotations

import contextlib
import functools
import itertools
import os
import sqlite3

from aprsbook_tools import TYPE_CHECKING
from aprsbook_tools.errors import ExitStatus, Fault
from aprsbook_tools.records import NamedTuple
from aprsbook_tools.reports import table, table_files, tactical
from aprsbook_tools.reports.roster import Roster
from aprsbook_tools.reports.table import Message, Row, Station, Thing
from aprsbook_tools.system import atomic

if TYPE_CHECKING:
    from typing import (
        Any, Callable, Dict, Iterable, Iterator, List, Mapping, Sequence, Tuple, Type)

    from aprsbook_tools.reports.table import Columns

# the table's name for each kind of the book's table
TABLES: Dict[str, Type[Any]] = {
    "transmissions": Row,
    "messages": Message,
    "stations": Station,
    "things": Thing,
}
# what is told as it was sent, and is a number
SENT = {f"a{number}": "real" for number in range(1, 6)}
MAGIC = b"SQLite format 3\0"
WAIT = 10.0  # seconds for another program's writing
CACHE = 4_096  # KiB of memory, in which indices are sorted
FEW = 3  # parts of some rows: more of them cost more than they save,
LEAST = 50  # unless they have so many rows each
TOGETHER = 8  # rows that one statement puts in, of which each costs less than alone
# of a file that nobody knows yet: a run that ends too early leaves none
NEW = ("page_size = 16384", "journal_mode = off", "synchronous = off", "locking_mode = exclusive")
# each place, but for 0, 0, which GPS without a fix says, and the last one of each thing; a kill at
# 0, 0 is where the thing was
VIEWS = {
    "tracks": """create view tracks as select
        case when kind in ('object', 'item') then kind else 'station' end as kind,
        case when kind in ('object', 'item') then name else source end as name,
        case when state = '' then 'live' else state end as state,
        first, last, receivers, receiver, source, latitude, longitude, ambiguity, compressed,
        symbol, course, speed_knots, altitude_m, text
        from transmissions where latitude <> 0 or longitude <> 0
        union all select kill.kind, kill.name, kill.state, kill.first, kill.last, kill.receivers,
        kill.receiver, kill.source, was.latitude, was.longitude, kill.ambiguity, kill.compressed,
        kill.symbol, kill.course, kill.speed_knots, kill.altitude_m, kill.text
        from transmissions as kill join transmissions as was on was.rowid = (
            select rowid from transmissions as it where it.kind = kill.kind
            and it.name = kill.name and (it.latitude <> 0 or it.longitude <> 0)
            and (it.first, it.rowid) < (kill.first, kill.rowid)
            order by it.first desc, it.rowid desc limit 1)
        where kill.state = 'killed' and kill.latitude = 0 and kill.longitude = 0""",
    # of a group a column stands for the row that has the greatest
    "places": """create view places as select kind, name, state, first, last, receivers, receiver,
        source, latitude, longitude, ambiguity, compressed, symbol, course, speed_knots, altitude_m,
        text, max(last || ' ' || receiver) as heard from tracks group by kind, name""",
}
INDICES = [
    "create index transmissions_source on transmissions (source, first)",
    "create index transmissions_first on transmissions (first)",
]


def sql_type(hint: str) -> str:
    """The column type of a field: a number where it is one, and otherwise text."""
    if hint == "Optional[int]":
        return "integer"
    return "real" if hint == "Optional[float]" else "text"


def columns_of(kind: Type[Any]) -> Dict[str, str]:
    """The columns of a kind, each with its type."""
    return {table.column_of(name): SENT.get(name) or sql_type(of)
            for name, of in kind.__annotations__.items()}


def converter_of(name: str, read: Callable[[str], Any]) -> table.ConvertColumn:
    """What makes the values of a column of what is shown there; nothing stays an empty text."""
    if name in SENT:
        return lambda values: values
    if read is table.decimal:
        return table.decimals("")
    return table_files.converter(read, lambda cell: cell, "", table.is_escaped)


def is_null(name: str, read: Callable[[str], Any]) -> bool:
    """Whether what isn't known is null in a column, and no empty text."""
    return name in SENT or table_files.cell_of(read("")) is None


def parts_of(kinds: Sequence[str]) -> Iterator[Tuple[int, int]]:
    """Where parts of rows begin and end that are alike in the first column, the kind of a row: then
    more of the others are empty. All rows are one where these would be many."""
    counts = [len([*group]) for _, group in itertools.groupby(kinds)]
    are_few = len(counts) <= max(FEW, len(kinds) // LEAST)
    ends = [*itertools.accumulate(counts)] if are_few else [len(kinds)]
    return zip([0, *ends], ends)


class Column(NamedTuple):
    """How a column of what is shown becomes one of a table: what makes its values, and what stands
    for it in a statement where all are empty."""

    convert: table.ConvertColumn
    empty: str


def columns_put(name: str, count: int) -> List[Column]:
    """The columns of a table, and so many of names behind them."""
    own = [Column(converter_of(*it), "null" if is_null(*it) else "''")
           for it in table.readers_of(TABLES[name]).items()]
    return own + [Column(converter_of("", str), "''")] * count


class Part(NamedTuple):
    """Some rows: what stands in a statement for one of them, what is bound once for all, and what
    is bound for each."""

    row: str
    alike: List[Any]
    own: List[Sequence[Any]]
    size: int

    def values(self, begin: int, end: int, together: int) -> Iterable[Any]:
        """What is bound for the rows from one to another, where a statement has so many."""
        if not self.own:
            return [self.alike] * ((end - begin) // together)
        own = [it[begin + at:end:together] for at in range(together) for it in self.own]
        return zip(*map(itertools.repeat, self.alike), *own)

    def put_into(self, base: sqlite3.Connection, name: str) -> None:
        """Puts the rows into a table, in their order."""
        whole = self.size - self.size % TOGETHER
        for begin, end, together in (0, whole, TOGETHER), (whole, self.size, 1):
            if begin < end:
                words = statement(name, self.row, len(self.alike), len(self.own), together)
                base.executemany(words, self.values(begin, end, together))


@functools.lru_cache(maxsize=128)
def statement(name: str, row: str, alike: int, own: int, together: int) -> str:
    """SQL that puts so many rows into a table, where so many values are alike in all, and so many
    are of each row."""
    numbers = itertools.count(alike + 1)
    rows = [row.format(*(f"?{it}" for it in itertools.islice(numbers, own)))
            for _ in range(together)]
    return f"insert into {name} values ({'), ('.join(rows)})"


def part_of(put: Sequence[Column], columns: Mapping[int, Sequence[str]], size: int) -> Part:
    """So many rows as they are bound, of what is shown in columns by their places. To bind costs
    most, and to bind a null most of all: so nulls stand in the statement, and what all rows have is
    bound once. Columns that are as the one before, as a row's two moments mostly are, are one."""
    values = [it.empty for it in put]
    alike: List[Any] = []
    own: List[Sequence[Any]] = []
    for at, shown in columns.items():
        convert, empty = put[at]
        if table.is_empty(shown):
            continue
        if shown[0] == shown[-1] and shown.count(shown[0]) == size:
            alike += convert(shown[:1])
            values[at] = f"?{len(alike)}"
            continue
        converted = convert(shown)
        if not own or converted != own[-1]:
            own.append(converted)
        values[at] = f"{{{len(own) - 1}}}"
        if empty == "null" and "" in shown:
            values[at] = f"nullif({values[at]}, '')"
    return Part(", ".join(values), alike, own, size)


def insert(base: sqlite3.Connection, name: str, tables: Iterable[Columns], count: int) -> None:
    """Puts columns, of which so many are of names, into a table."""
    put = columns_put(name, count)
    for columns in tables:
        filled = [at for at, shown in enumerate(columns) if not table.is_empty(shown)]
        for begin, end in parts_of(columns[0]):
            shown = {at: columns[at][begin:end] for at in filled}
            part_of(put, shown, end - begin).put_into(base, name)


def check(path: str, inputs: Sequence[str]) -> str:
    """Refuses a file that is there and is no database, an input or a log; the path behind links is
    the result."""
    real = atomic.check(path, inputs)
    if os.path.exists(path) and os.path.getsize(path):
        with open(path, "rb") as file:
            if file.read(len(MAGIC)) != MAGIC:
                raise Fault(f"{path} is no database of SQLite, and isn't replaced",
                            ExitStatus.ARGUMENTS)
    return real


@contextlib.contextmanager
def writing(path: str, inputs: Sequence[str]) -> Iterator[sqlite3.Connection]:
    """A transaction, which is taken back where its block ends by a fault."""
    real = check(path, inputs)
    with atomic.locked(path):  # so that nobody waits for a new one that a fault takes away
        if os.path.exists(real):
            yield from transaction(path, real)
            return
        with atomic.writing(path, inputs) as new:
            yield from transaction(path, new.path, NEW)
            if os.path.exists(real):
                raise Fault(f"{path}: another program has made it meanwhile", ExitStatus.OUTPUT)


def transaction(path: str, file: str, settings: Sequence[str] = ()) -> Iterator[sqlite3.Connection]:
    """As `writing`, of the file in which the database of the path is for now."""
    try:
        base = sqlite3.connect(file, timeout=WAIT, isolation_level=None)
        try:
            for it in (*settings, f"cache_size = -{CACHE}"):
                base.execute(f"pragma {it}")
            base.execute("begin immediate")
            yield base
            base.execute("commit")
        finally:
            base.close()  # what wasn't committed is taken back
    except sqlite3.Error as fault:
        take_back(file)
        raise Fault(f"{path}: {fault}", ExitStatus.OUTPUT) from fault


def take_back(file: str) -> None:
    """Reads a database, in which a full disk has left half of what was written: SQLite takes that
    back then, and its journal away."""
    with contextlib.suppress(sqlite3.Error), contextlib.closing(sqlite3.connect(file)) as base:
        base.execute("select count(*) from sqlite_master").fetchall()


def drop(base: sqlite3.Connection, name: str) -> None:
    """Takes a table or a view of this name away, if there is one."""
    for (kind,) in base.execute("select type from sqlite_master where name = ?", [name]).fetchall():
        base.execute(f'drop {kind} "{name}"')


def fill(base: sqlite3.Connection, name: str, tables: Iterable[Columns], roster: Roster) -> None:
    """Makes one table anew, with the columns of names that a roster brings."""
    kind = TABLES[name]
    columns, names = columns_of(kind), tactical.names_of(kind, roster)
    drop(base, name)
    types = [f"{it} {of}" for it, of in columns.items()] + [f"{it} text" for it in names]
    base.execute(f"create table {name} ({', '.join(types)})")
    insert(base, name, tactical.named(kind, roster, tables), len(names))


def write(path: str, tables: Mapping[str, Iterable[Columns]], inputs: Sequence[str],
          roster: Roster) -> None:
    """Puts the tables, whose columns are as the program shows them, in place of those that are
    there; all else of the database stays."""
    with writing(path, inputs) as base:
        for name in VIEWS:
            drop(base, name)
        for name, columns in tables.items():
            fill(base, name, columns, roster)
        for view in VIEWS.values():
            base.execute(view)
        for index in INDICES:
            base.execute(index)
