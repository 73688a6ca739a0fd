"""The columns of a table, by their names, however many rows come at once."""
from typing import List, Sequence

import pytest
from standing import at, place, row, table_text

from aprsbook_tools.errors import Fault
from aprsbook_tools.reports import table
from aprsbook_tools.reports.table import REST, Row, Station, Time, Wanted

SHORT = "source", "destination", REST
ROWS = [row("status", f"18:{number:02}", f"Q1{number}", text=f"{number}") for number in range(4)]
LINES = table_text(Row, ROWS).splitlines()


def shown(lines: Sequence[str], *names: str, time: Time = table.ALWAYS, having: str = ""
          ) -> List[List[str]]:
    """The rows of these columns."""
    return [[*it] for it in table.tuples(Row, lines, names, Wanted(time, having))]


def test_columns_by_their_names() -> None:
    assert shown(LINES, "text", "kind") == [[str(it), "status"] for it in range(4)]
    assert shown(LINES, "source")[-1] == ["Q13"]
    [head, first, *_] = LINES
    assert shown([head, first], *SHORT)[0][:2] == ["Q10", "APRS"]
    assert shown([head, first], *SHORT)[0][2] == first.split("\tAPRS\t")[1]
    assert shown(LINES[:1], "text") == []


def test_rows_of_a_time() -> None:
    for names in [("source",), SHORT]:
        found = shown(LINES, *names, time=Time(at("18:01"), at("18:03")))
        assert [it[0] for it in found] == ["Q11", "Q12"]
    assert shown(LINES, "source", time=Time(at("19:00"))) == []
    stations = [Station(source="Q1A", last=at("18:00"), heard=at("18:05")), Station(source="Q1B")]
    text = table_text(Station, stations).splitlines()
    late = table.read(Station, text, wanted=Wanted(Time(at("18:04"))))
    assert [it.source for it in late] == ["Q1A"]


def test_rows_that_have_a_column() -> None:
    rows = [place("18:00", "Q1A", 0.0, -3.5), ROWS[0], place("18:02", "Q1A", 54.5, -3.5)]
    lines = table_text(Row, rows).splitlines()
    for names in [("first", "latitude"), ("first", "latitude", "text"),
                  ("first", "latitude", REST)]:
        found = shown(lines, *names, having="latitude")
        assert [it[0] for it in found] == [at("18:00"), at("18:02")]
        found = shown(lines, *names, time=Time(at("18:01")), having="latitude")
        assert [it[0] for it in found] == [at("18:02")]


def test_what_is_kept_of_a_column_is_bounded() -> None:
    """And each text is read as it is."""
    convert = table.converter(int, 0)
    for number in range(0, 3 * table.KNOWN, 3):
        assert [*convert([str(number), "", str(number)])] == [number, 0, number]
    closure = convert.__closure__ or ()
    [known] = [it.cell_contents for it in closure if isinstance(it.cell_contents, table.Known)]
    assert len(known) <= table.KNOWN + 2


@pytest.mark.parametrize("having", ["", "source"])
@pytest.mark.parametrize("names", [("source", "text"), ("source", "destination"), SHORT])
@pytest.mark.parametrize("number", [2, 3, table.BATCH + 1, table.BATCH + 2])
def test_a_line_without_its_fields(names: Sequence[str], number: int, having: str) -> None:
    """It is named, also where another line has one more, so that all are as many."""
    lines = [LINES[0], *LINES[1:2] * (table.BATCH + 4)]
    lines[number - 1] = "status\tbroken"
    lines[number] += "\tmore" * (len(lines[0].split("\t")) - 2)
    with pytest.raises(Fault) as fault:
        shown(lines, *names, having=having)
    assert fault.value.words == (f"the table of rows: line {number} has 2 fields, and "
                                 f"{len(lines[0].split())} columns are named")


def test_columns_of_an_older_program() -> None:
    """Its table ends with the text; what came later is empty there."""
    size = table.columns_of(Row).index("text") + 1
    lines = ["\t".join(it.split("\t")[:size]) for it in LINES]
    assert shown(lines, "text", "tone", "source")[2] == ["2", "", "Q12"]
    assert [it.tone for it in table.read(Row, lines)] == [""] * 4
    assert shown(lines, "text", REST)[2] == ["2", ""]
    assert shown(lines, "text", "tone", REST)[2] == ["2", "", ""]
    with pytest.raises(Fault, match="the table of rows has no column text"):
        shown([lines[0].replace("\ttext", "")], "text")


def test_decimals() -> None:
    """Some, all or none of a column; what is none is refused."""
    convert = table.decimals(None)
    assert [*convert(["1.5", "", "-0.25"])] == [1.5, None, -0.25]
    assert [*convert(["49.0003333"] * 2)] == [49.0003333] * 2
    assert [*convert(["", ""])] == [None, None] and [*convert([])] == []
    lines = table_text(Row, [place("18:00", "Q1A", 54.5, -3.5)]).replace("54.5", "north")
    with pytest.raises(Fault, match="the table of rows: .*north"):
        [*table.read(Row, lines.splitlines())]


def test_a_table_without_rows() -> None:
    assert [*table.read(Row, LINES[:1])] == []
    with pytest.raises(Fault, match="the table of rows has no column kind"):
        [*table.read(Row, [])]
