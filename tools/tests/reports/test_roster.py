"""One syntax of a roster."""
import pathlib
from typing import List

import pytest
from conftest import tried
from hypothesis import given
from hypothesis import strategies as st

from aprsbook_tools.reports.roster import LONGEST, Expected, call_of, read_roster, roster_of

CALLS = st.from_regex(r"[A-Z0-9]{1,6}(-([1-9]|1[0-5]|\*))?", fullmatch=True)
NAMES = st.text(st.characters(blacklist_categories=("C", "Z")), min_size=1, max_size=12)


@pytest.mark.parametrize(
    "line, wanted",
    [
        ("Q1RUN-7", Expected("Q1RUN-7")),
        ("Q1RUN-7 Leader", Expected("Q1RUN-7", "Leader")),
        ("  q1run-7\tLeader\t Front ", Expected("Q1RUN-7", "Leader", "Front")),
        ("Q1RUN-0 Base camp", Expected("Q1RUN", "Base camp")),
        ("q1run-* sweepers, 2", Expected("Q1RUN-*", "sweepers, 2")),
        ("Q1RUN-7,Leader,Front,118", Expected("Q1RUN-7", "Leader", "Front", "118")),
        ("Q1RUN-7;Leader;Front", Expected("Q1RUN-7", "Leader", "Front")),
        ('"Q1RUN-7","Leader, the",Front', Expected("Q1RUN-7", "Leader, the", "Front")),
        ("Q1RUN-7 , Leader", Expected("Q1RUN-7", "Leader")),
        ("\ufeffQ1RUN-7 Leader", Expected("Q1RUN-7", "Leader")),
        ("Q1RUN-15", Expected("Q1RUN-15")),
    ],
)
def test_a_line(line: str, wanted: Expected) -> None:
    roster = read_roster(line + "\r\n")
    assert roster.faults == [] and roster.expected == [wanted]


@pytest.mark.parametrize(
    "line",
    [
        "Q1RUN-16",
        "Q1RUN-07",
        "Q1RUNNER",
        "Q1RUN-",
        "-7",
        "Q1*",
        "Q1RUN-**",
        "Q1RUN-7-*",
        "Q1RUN-0-*",
        "Q1RÜN",
        ",Leader",
        "()",
    ],
)
def test_a_line_that_is_no_call_is_said_with_its_number(line: str) -> None:
    roster = read_roster(f"Q1NET control\n\n# more\n{line}\nQ1MED")
    assert [it.call for it in roster.expected] == ["Q1NET", "Q1MED"]
    assert [it.line for it in roster.faults] == [4]
    assert "is no call" in str(roster.faults[0])


def test_any_ssid_is_kept() -> None:
    """`Q1RUN-*` was dropped without a word by the page, which then said 0 of 1 in green."""
    [entry] = read_roster("Q1RUN-*").expected
    assert entry.is_any
    assert all(entry.is_of(call) for call in ("Q1RUN", "Q1RUN-1", "Q1RUN-15"))
    assert not entry.is_of("Q1RUNS")


def test_a_call_without_an_ssid_is_that_call_alone() -> None:
    [entry] = read_roster("Q1RUN").expected
    assert entry.is_of("Q1RUN") and not entry.is_of("Q1RUN-7")


@pytest.mark.parametrize("head", ["call,name,group", "Callsign;Name;Team", "CALL\tWho\tclass"])
def test_a_head_line_is_none_of_a_station(head: str) -> None:
    between = next(it for it in ",;\t" if it in head)
    roster = read_roster(f"# made by hand\n{head}\n" + between.join(["Q1RUN-7", "Leader", "Front"]))
    assert roster.faults == [] and roster.expected == [Expected("Q1RUN-7", "Leader", "Front")]


def test_a_head_line_names_the_order() -> None:
    roster = read_roster("Bib,Name,Age,Call\n118,Anna,31,q1run-7\n")
    assert roster.expected == [Expected("Q1RUN-7", "Anna", "", "118")]


@pytest.mark.parametrize(
    "text, wanted",
    [
        ("Callsign,Location\nQ1A,Start", Expected("Q1A", "Start")),
        ("call,name,who\nQ1A,one,two", Expected("Q1A", "one")),
        ("number,callsign,name\n,Q1A,second post", Expected("Q1A", "second post")),
        (",callsign,name\n,Q1A,second post", Expected("Q1A", "second post")),
        ("number,callsign\nfirst post,Q1A", Expected("Q1A", "", "", "first post")),
        ("number,callsign\n7;Q1A", Expected("Q1A", "", "", "7")),
        ("call,name\nQ1A Leader, in red", Expected("Q1A", "Leader, in red")),
    ],
)
def test_a_line_below_a_head(text: str, wanted: Expected) -> None:
    roster = read_roster(text)
    assert roster.faults == [] and roster.expected == [wanted]


def test_a_head_line_of_words() -> None:
    assert read_roster("call name\nQ1RUN-7 Leader").expected == [Expected("Q1RUN-7", "Leader")]


def test_a_call_that_stands_twice_is_said() -> None:
    roster = read_roster("Q1RUN-0 one\nq1run two\n")
    assert [str(it) for it in roster.faults] == ["line 2: Q1RUN is on line 1 already"]


def test_the_name_is_that_of_the_call_before_that_of_any_ssid() -> None:
    roster = read_roster("Q1RUN-* sweepers\nQ1RUN-7 Leader\n")
    assert roster.name_of("Q1RUN-7") == "Leader" and roster.name_of("Q1RUN-8") == "sweepers"
    assert roster.said("Q1RUN-7") == "Leader (Q1RUN-7)" and roster.said("Q1NET") == "Q1NET"


@given(CALLS)
def test_each_call_is_itself(call: str) -> None:
    assert call_of(call.lower()) == (call if call else None)


@given(
    st.dictionaries(CALLS, NAMES, min_size=1, max_size=5),
    st.sampled_from([" ", ",", ";", "\t"]),
    st.sampled_from(["\n", "\r\n", "\r"]),
    st.booleans(),
)
def test_what_is_written_is_read(
    names: "dict[str, str]", between: str, end: str, mark: bool
) -> None:
    def quoted(name: str) -> str:
        return name if between == " " else '"' + name.replace('"', '""') + '"'

    text = "".join(f"{call}{between}{quoted(name)}{end}" for call, name in names.items())
    if between == " " and any(name[0] in ',;"' for name in names.values()):
        return  # then it parts the line, or begins a field in quotes
    roster = read_roster("\ufeff" * mark + text)
    assert {it.call: it.name for it in roster.expected} == names and not roster.faults


@given(st.text(max_size=80))
def test_each_line_is_an_entry_or_a_fault_or_says_nothing(text: str) -> None:
    roster = read_roster(text)
    assert all(call_of(it.call) == it.call for it in roster.expected)
    assert all(it.line >= 1 for it in roster.faults)


def test_a_field_without_end_is_said_with_its_line() -> None:
    roster = read_roster('call,name\nQ1A,"' + "x" * 200_000 + '"\nQ1B,Back\n')
    assert [it.line for it in roster.faults] == [2] and [it.call for it in roster.expected] == [
        "Q1B"
    ]


def test_a_log_in_place_of_a_roster_is_not_told_line_by_line(tmp_path: pathlib.Path) -> None:
    """As where another file is named."""
    path = tmp_path / "net.log"
    path.write_text("2024-06-21T18:00:00.000Z RX1 c0c0\n" * 1000)
    said = tried("roster", "--roster", path, path, status=1).stderr.decode()
    assert "line 1: " in said and "lines more: 980" in said and len(said) < 2000


@pytest.mark.parametrize("text, names", [
    ('Q1NET,"Con\ntrol"\nQ1MED,Medic\n', ["Con trol", "Medic"]),
    ('Q1NET;"Con\r\ntrol ""one""\r\nhere";Base\r\nQ1MED\r\n', ['Con trol "one" here', ""]),
    ('Q1NET "Con\ntrol"\nQ1MED "Bob" x\n', ["Con trol", "Bob x"]),
    ('name,call\n"Con, \ntrol",Q1NET\nMed ic,Q1MED\n', ["Con,  trol", "Med ic"]),
])
def test_a_cell_in_quotes_goes_over_lines(text: str, names: List[str]) -> None:
    roster = read_roster(text)
    assert roster.faults == []
    assert [(it.call, it.name) for it in roster.expected] == [*zip(["Q1NET", "Q1MED"], names)]


def test_a_quote_that_stands_open_is_said_and_takes_no_other_line() -> None:
    roster = read_roster('Q1NET,"Medic\nQ1RUN-7,"Spare"\nQ1MED,Medic\n')
    assert [it.call for it in roster.expected] == ["Q1RUN-7", "Q1MED"]
    assert [str(it) for it in roster.faults] == ["line 1: a quote stands open"]


@pytest.mark.parametrize("row", [",,,,", ";;;", "\t\t", ' , "" ,', '"";""'])
def test_an_empty_row_of_a_sheet_says_nothing(row: str) -> None:
    roster = read_roster(f"{row}\nQ1NET,Control\n{row}\n")
    assert roster.faults == [] and [it.name for it in roster.expected] == ["Control"]


def test_the_sign_that_excel_is_told() -> None:
    roster = read_roster("sep=;\r\nName;Call\r\nBase camp;Q1NET\r\nA, B;Q1MED\r\n")
    assert roster.faults == []
    assert [(it.call, it.name) for it in roster.expected] == [
        ("Q1NET", "Base camp"), ("Q1MED", "A, B")]


def test_heads_that_are_known_are_said() -> None:
    [fault] = read_roster("Rufzeichen;Name\nQ1NET;Control\n").faults
    assert "no head, whose names are call, callsign, station, name," in str(fault)
    [fault] = read_roster("Q1NET;Control\nRufzeichen;Name\n").faults
    assert "no head" not in str(fault)


def test_a_line_has_so_many_letters_at_most() -> None:
    longest = "Q1RUN-7 " + "x" * (LONGEST - 8)
    assert [it.call for it in read_roster(longest + "\n").expected] == ["Q1RUN-7"]
    [fault] = read_roster(f"Q1NET\n{longest}x\n").faults
    assert str(fault) == "line 2: longer than 100000 letters"


def test_each_line_with_an_open_quote_is_a_fault_of_its_own() -> None:
    assert len(read_roster('Q1NET,"a\n' * 20_000).faults) == 20_000


def test_nobody_is_expected_of_an_empty_file(tmp_path: pathlib.Path) -> None:
    (tmp_path / "empty.txt").write_text("")
    roster = roster_of(str(tmp_path / "empty.txt"))
    assert roster.is_given and not roster.expected and not roster_of(None).is_given
