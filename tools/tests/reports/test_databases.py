"""The tables of a book in SQLite and as CSV."""
import concurrent.futures
import pathlib
import sqlite3
import subprocess
import time
from typing import Any, Dict, List, Sequence, Tuple

import pytest
from hypothesis import given
from hypothesis import strategies as st
from standing import Programs, at, message, place, put, row, station

from aprsbook_tools.errors import Fault
from aprsbook_tools.formats.spreadsheet import read_csv
from aprsbook_tools.reports import databases, table, table_files
from aprsbook_tools.reports.roster import Roster


def asked(path: pathlib.Path, what: str) -> List[Any]:
    base = sqlite3.connect(path)
    try:
        return base.execute(what).fetchall()
    finally:
        base.close()


def fill(programs: Programs) -> pathlib.Path:
    programs.say(
        place("18:00", "Q1A", 9.5, -3.5, altitude_m=304.8, course=7, text="=1+1"),
        place("18:01", "Q1A", 54.5, -3.5),
        put("18:02", "Q1NET", "CP 1", 54.6, -3.4, state="killed"),
        row("status", "18:03", "Q1NET", text="Käppeli", receivers=("RX1", "RX2")),
        message("18:04", "Q1A", "Q1NET", "hi", id="1"),
        station("18:01", "Q1A", 12),
    )
    programs.run("sqlite", "net.db", "net.log")
    return programs.folder / "net.db"


def test_numbers_are_numbers(programs: Programs) -> None:
    """Latitude and longitude were text, so that 9.5 was north of 54.5."""
    path = fill(programs)
    assert asked(
        path, "select max(latitude), typeof(latitude), typeof(course) from transmissions"
    ) == [(54.5 + 0.1, "real", "null")]
    assert asked(path, "select latitude from tracks where latitude > 10 order by latitude") == [
        (54.5,),
        (54.6,),
    ]
    assert asked(path, "select typeof(transmissions), transmissions from stations") == [
        ("integer", 12)
    ]


def test_what_isn_t_known_is_null(programs: Programs) -> None:
    path = fill(programs)
    assert asked(
        path, "select kind, text, receivers from transmissions where latitude is null"
    ) == [("status", "Käppeli", "RX1,RX2")]
    assert asked(
        path, "select altitude_m, compressed from transmissions order by first limit 1"
    ) == [(304.8, "no")]
    assert asked(path, "select kind, name, state from places where name = 'CP 1'") == [
        ("object", "CP 1", "killed")
    ]
    assert asked(path, "select state, id, text, first from messages") == [
        ("unanswered", "1", "hi", at("18:04"))
    ]


def test_telemetry_is_numbers_where_it_was_sent_so(programs: Programs) -> None:
    """`1.50` and `-3` are values of telemetry, and `005` is the number of a report."""
    programs.say(
        row("telemetry", "18:00", "Q1WX", telemetry_sequence="005", a1="1.50", a2="-3", a3="007"),
        row("status", "18:01", "Q1WX"),
    )
    programs.run("sqlite", "net.db", "net.log")
    assert asked(
        programs.folder / "net.db",
        "select telemetry_sequence, a1, a2, a3, a4, "
        "typeof(a1) from transmissions where kind = 'telemetry'",
    ) == [("005", 1.5, -3.0, 7.0, None, "real")]
    assert asked(programs.folder / "net.db", "select count(*) from transmissions where a1 > 1") == [
        (1,)
    ]
    assert ",005,1.50,-3,007," in programs.run("csv", "--table", "rows", "net.log")


def test_a_text_that_all_rows_have(programs: Programs, tmp_path: pathlib.Path) -> None:
    """It isn't bound row by row, whatever it has; numbers and what isn't known stay so."""
    (tmp_path / "names").write_bytes(b"Q1A It's \0 \"it\"\n")
    said = [row("telemetry", f"18:0{it}", "Q1A", text="it's; --", a1="1.50", course=7, name=name)
            for it, name in enumerate(["", "x", ""])]
    programs.say(*said)
    programs.run("sqlite", "--roster", "names", "net.db", "net.log")
    names = "kind, text, a1, typeof(a1), course, latitude, name, source_name, cast(first as text)"
    assert asked(tmp_path / "net.db", f"select {names} from transmissions order by first") == [
        ("telemetry", "it's; --", 1.5, "real", 7, None, name, 'It\'s \0 "it"', at(f"18:0{it}"))
        for it, name in enumerate(["", "x", ""])]


def test_a_book_is_no_merge_and_is_named(programs: Programs, tmp_path: pathlib.Path) -> None:
    (tmp_path / "net.book").write_text("APRSBOOK 3 30\nEND 0\n")
    programs.say(place("18:00", "Q1A", 1, 2))
    programs.run("sqlite", "net.db", "net.book")
    assert not any(" merge " in it for it in programs.calls)
    (tmp_path / "net.book").write_text("faulty\n")
    programs.run("sqlite", "net.db", "net.book", status=1)
    assert programs.said.startswith("aprsbook-table: net.book: line 1: Moment")
    assert asked(tmp_path / "net.db", "select count(*) from transmissions") == [(1,)]
    (tmp_path / "net.book").write_text("")
    programs.run("sqlite", "net.db", "net.book", status=1)
    assert programs.said == "aprs-net: net.book is empty, which no book is: put back a copy\n"


def test_the_last_place_of_each(programs: Programs) -> None:
    path = fill(programs)
    assert asked(path, "select kind, name, latitude, first from places order by name") == [
        ("object", "CP 1", 54.6, at("18:02")),
        ("station", "Q1A", 54.5, at("18:01")),
    ]


def test_a_place_at_0_0_is_none(programs: Programs) -> None:
    """As in tracks and on the page."""
    there = place("18:01", "Q1B", 0, 1), place("18:02", "Q1C", 1, 0)
    programs.say(place("18:00", "Q1A", 0, 0), *there, row("status", "18:03", "Q1D"))
    programs.run("sqlite", "net.db", "net.log")
    for view in "tracks", "places":
        asked_of = asked(programs.folder / "net.db", f"select name from {view} order by name")
        assert asked_of == [("Q1B",), ("Q1C",)]


def test_a_kill_at_0_0_is_where_the_thing_was(programs: Programs) -> None:
    """Or a killed object was live for ever in the views."""
    programs.say(
        put("18:00", "Q1NET", "CP 1", 54.6, -3.4),
        put("18:01", "Q1NET", "CP 1", 54.7, -3.5),
        put("18:02", "Q1NET", "CP 1", 0, 0, state="killed"),
        put("18:03", "Q1NET", "CP 1", 54.8, -3.6),
        put("18:04", "Q1NET", "CP 2", 0, 0, state="killed"),
        put("18:05", "Q1NET", "CP 3", 54.9, -3.7),
        put("18:06", "Q1B", "CP 3", 0, 0, state="killed"),
    )
    programs.run("sqlite", "net.db", "net.log")
    path = programs.folder / "net.db"
    kills = "select name, first, latitude, source from tracks where state = 'killed' order by name"
    assert asked(path, kills) == [
        ("CP 1", at("18:02"), 54.7, "Q1NET"),
        ("CP 3", at("18:06"), 54.9, "Q1B"),
    ]
    assert asked(path, "select name, state, latitude from places order by name") == [
        ("CP 1", "live", 54.8),
        ("CP 3", "killed", 54.9),
    ]


def test_other_tables_stay(programs: Programs) -> None:
    path = fill(programs)
    base = sqlite3.connect(path)
    base.execute("create table mine (a)")
    base.execute("insert into mine values (1)")
    base.execute("drop view places")
    base.execute("create table places (old)")  # as an older program made it
    base.commit()
    base.close()
    programs.say(place("18:00", "Q1A", 1, 2))
    programs.run("sqlite", "net.db", "net.log")
    assert asked(path, "select * from mine") == [(1,)]
    assert (
        asked(path, "select count(*) from transmissions")
        == [(1,)]
        == asked(path, "select count(*) from places")
    )


def test_a_fault_takes_nothing_away(programs: Programs) -> None:
    path = fill(programs)
    before = path.read_bytes()
    (programs.folder / "bad.log").write_text("faulty\n")
    programs.run("sqlite", "net.db", "bad.log", status=1)
    programs.run("sqlite", "new.db", "bad.log", status=1)
    assert path.read_bytes() == before and not (programs.folder / "new.db").exists()
    (programs.folder / "messages.tsv").write_text("other\n")
    programs.run("sqlite", "net.db", "net.log", status=1)
    assert asked(path, "select count(*) from transmissions") == [(4,)]
    assert "has no column" in programs.said
    # a link to nothing stays one
    (programs.folder / "link.db").symlink_to("new.db")
    programs.run("sqlite", "link.db", "net.log", status=1)
    assert (programs.folder / "link.db").is_symlink() and not (programs.folder / "new.db").exists()


def test_a_full_disk_takes_nothing_away(tmp_path: pathlib.Path) -> None:
    """Half of what was written was left, and a journal by which SQLite takes it back later."""
    resource = pytest.importorskip("resource")
    path, most = tmp_path / "net.db", resource.getrlimit(resource.RLIMIT_FSIZE)
    with databases.writing(str(path), []) as base:
        base.execute("create table mine (a)")
        base.executemany("insert into mine values (?)", 100 * [(1000 * "x",)])
    before = path.read_bytes()
    with pytest.raises(Fault, match="net.db: "), databases.writing(str(path), []) as base:
        resource.setrlimit(resource.RLIMIT_FSIZE, (1 << 20, most[1]))
        try:
            base.execute("delete from mine")
            base.executemany("insert into mine values (?)", 20_000 * [(1000 * "y",)])
        finally:
            resource.setrlimit(resource.RLIMIT_FSIZE, most)
    assert path.read_bytes() == before
    assert sorted(it.name for it in tmp_path.iterdir()) == [".net.db.lock", "net.db"]


@pytest.mark.parametrize("name", ["net.log", "net.book", "notes.txt", "other.log"])
def test_what_is_no_database_is_kept(programs: Programs, name: str) -> None:
    (programs.folder / "net.book").write_text("APRSBOOK 3 30\nEND 0\n")
    (programs.folder / "notes.txt").write_text("notes\n")
    (programs.folder / "other.log").write_text("")
    before = (programs.folder / name).read_bytes()
    programs.run("sqlite", name, "net.log", "net.book", status=2)
    assert (programs.folder / name).read_bytes() == before


def test_a_database_that_is_written_is_waited_for(programs: Programs) -> None:
    path = fill(programs)
    hold = (
        "import sqlite3, sys, time\nb = sqlite3.connect(sys.argv[1], isolation_level=None)\n"
        "b.execute('begin immediate')\nprint('held', flush=True)\ntime.sleep(1)\n"
    )
    with subprocess.Popen(["python3", "-c", hold, str(path)], stdout=subprocess.PIPE) as other:
        assert other.stdout and other.stdout.readline() == b"held\n"
        programs.run("sqlite", "net.db", "net.log")


def test_a_new_database_that_a_fault_takes_away_is_made_by_who_waits(
    tmp_path: pathlib.Path,
) -> None:
    path = tmp_path / "net.db"
    none: Dict[str, List[Any]] = {name: [] for name in databases.TABLES}
    with concurrent.futures.ThreadPoolExecutor(1) as pool:
        with pytest.raises(Fault, match="a fault"), databases.writing(str(path), []):
            waits = pool.submit(databases.write, str(path), none, [], Roster())
            time.sleep(0.3)
            raise Fault("a fault")
        waits.result()
    assert asked(path, "select count(*) from places") == [(0,)]


def test_a_new_database_is_there_once_it_is_whole(tmp_path: pathlib.Path) -> None:
    """And one that another program has made meanwhile stays."""
    path = tmp_path / "net.db"
    with databases.writing(str(path), []) as base:
        base.execute("create table mine (a)")
        assert not path.exists()
    assert asked(path, "select count(*) from mine") == [(0,)]
    path.unlink()
    with pytest.raises(Fault, match="another program has made it meanwhile"):
        with databases.writing(str(path), []):
            path.write_text("other")
    assert path.read_text() == "other"
    assert sorted(it.name for it in tmp_path.iterdir()) == [".net.db.lock", "net.db"]


Shown = Tuple[str, str, str, str, str]
SHOWN = st.tuples(st.sampled_from(["object", "item"]), st.sampled_from(["A", "it's", "{0}", ""]),
                  st.sampled_from(["", "1.50", "-0.0001"]), st.sampled_from(["", "0", "7"]),
                  st.sampled_from(["", "yes", "no"]))


@given(st.lists(SHOWN, max_size=40), st.sampled_from([1, 7, 200]))
def test_rows_put_in_together_are_those_put_in_alone(told: List[Shown], size: int) -> None:
    """In their order, with numbers as numbers, and null for what isn't known."""
    wanted = [(kind, name, name, float(north) if north else None, int(close) if close else None,
               packed or None, "") for kind, name, north, close, packed in told]
    names = table.columns_of(table.Thing)
    own = ["kind", "name", "source", "latitude", "ambiguity", "compressed", "text"]
    base = sqlite3.connect(":memory:")
    base.execute(f"create table things ({', '.join(map(' '.join, columns_in_sql()))})")
    lines = [dict(zip(own, (kind, name, name, *rest, ""))) for kind, name, *rest in told]
    for at_ in range(0, len(lines), size):
        part = lines[at_:at_ + size]
        shown: List[Sequence[str]] = [[it.get(name, "") for it in part] for name in names]
        databases.insert(base, "things", [shown], 0)
    found = base.execute(f"select {', '.join(own)} from things order by rowid").fetchall()
    assert list(map(repr, found)) == list(map(repr, wanted))


def columns_in_sql() -> List[Tuple[str, str]]:
    return [*databases.columns_of(table.Thing).items()]


def test_csv_of_a_table(programs: Programs) -> None:
    fill(programs)
    shown = programs.run("csv", "--table", "rows", "net.log")
    rows = [dict(zip(line, line)) for line in read_csv(shown)[:1]]
    assert "latitude" in rows[0] and "receivers" in rows[0]
    text = programs.run("csv", "--table", "rows", "net.log")
    assert "'=1+1" in text and "Käppeli" in text and '"RX1,RX2"' in text
    assert read_csv(programs.run("csv", "--table", "stations", "net.log"))[1][:2] == ["Q1A", "12"]


def test_tactical_names(programs: Programs) -> None:
    fill(programs)
    (programs.folder / "names").write_text("q1net-* Control\n")
    words = "csv", "--table", "messages", "--roster", "names"
    [head, line] = read_csv(programs.run(*words, "net.log"))
    told = dict(zip(head, line))
    assert [told["source_name"], told["addressee_name"]] == ["", "Control"]
    programs.run("sqlite", "--roster", "names", "net.db", "net.log")
    assert asked(
        programs.folder / "net.db",
        "select distinct source, source_name from transmissions order by source",
    ) == [("Q1A", ""), ("Q1NET", "Control")]
    # the roster isn't replaced, and without names the columns are as before
    programs.run("sqlite", "--roster", "names", "names", "net.log", status=2)
    assert "source_name" not in programs.run("csv", "--table", "rows", "net.log")


def test_csv_of_fields(programs: Programs) -> None:
    text = "call\tsaid\nQ1A\t=1+1\nQ1B\ta, b\nQ1C\tK\\xc3\\xa4ppeli \\xe9\n"
    (programs.folder / "fields").write_text(text)
    assert programs.run("csv", "--table", "fields", "fields") == (
        'call,said\nQ1A,\'=1+1\nQ1B,"a, b"\nQ1C,Käppeli \\xe9\n'
    )


@pytest.mark.parametrize("shown", [
    "54.5108333", "-3.6156667", "0.1", "10.5", "0.0000167", "-0.0001", "304.8", "0", "7", "12.0",
    "-0.5", "54.5000000", "0.00012", "99999.123456789", "100000.5", "007.5", ""])
def test_a_number_is_written_as_python_writes_it(shown: str) -> None:
    """Those that stand as they are are told by their look."""
    wanted = table_files.csv_field(float(shown)) if shown else ""
    assert table_files.decimals(table_files.csv_field)([shown, "1"]) == [wanted, "1"]


def test_columns_that_are_empty_are_one() -> None:
    columns = [["a", "b"], ["", ""], ["", ""], ["", "c"], ["", ""]]
    rows = [",".join(it) for it in zip(*table_files.without_empty(columns, ","))]
    assert rows == [",".join(it) for it in zip(*columns)] == ["a,,,,", "b,,,c,"]


@pytest.mark.parametrize("kinds, sizes", [
    ("a", [1]), ("aab", [2, 1]), ("abbc", [1, 2, 1]), ("abca", [4]), ("", []),
    (4 * (50 * "a" + 50 * "b"), 8 * [50]), (4 * (50 * "a" + 49 * "b"), [396])])
def test_rows_of_a_kind_are_put_in_at_once(kinds: str, sizes: List[int]) -> None:
    """Where there are few kinds one behind another; all rows stand in their order."""
    parts = [*databases.parts_of(kinds)]
    assert [end - begin for begin, end in parts] == sizes
    assert [at for it in parts for at in range(*it)] == [*range(len(kinds))]
