"""Entries of desks: their one spelling, and what they say together."""
import json
import pathlib
import random
from typing import Any, Dict, List

import pytest
from hypothesis import given
from hypothesis import strategies as st

from aprsbook_tools.commands.page import with_desks
from aprsbook_tools.reports.roster import read_roster
from aprsbook_tools.serving import entries
from aprsbook_tools.serving.entries import Journals, entry_in, refusal, spelling

TIME = 1_718_992_800_000
LINE = {"at": TIME, "desk": "BASE", "id": "0" * 32, "kind": "line", "time": str(TIME),
        "from": "Gate 1", "to": "NET", "number": "1", "text": "Gr\u00fc\u00dfe \U0001f600\n"}


def entry(number: int, kind: str, desk: str = "BASE", at: int = TIME, **says: str) -> bytes:
    return spelling({"at": at, "desk": desk, "id": f"{number:032x}", "kind": kind, **says})


def line(number: int, text: str, desk: str = "BASE", at: int = TIME) -> bytes:
    return spelling({**LINE, "id": f"{number:032x}", "text": text, "desk": desk, "at": at})


def test_an_entry_that_is_taken() -> None:
    assert refusal(spelling(LINE), "BASE") is None
    assert spelling(LINE).isascii()
    found = entry_in(spelling(LINE))
    assert found is not None and found.says["text"] == LINE["text"]


@pytest.mark.parametrize("change, why", [
    ({"desk": "OTHER"}, "OtherDesk"),
    ({"id": "x"}, "Id"),
    ({"id": "0" * 31 + "G"}, "Id"),
    ({"at": "1"}, "Moment"),
    ({"at": True}, "Moment"),
    ({"at": -1}, "Moment"),
    ({"at": 4_102_444_800_000}, "Moment"),
    ({"text": 5}, "Text"),
    ({"text": "x" * 2001}, "Text"),
    ({"time": "soon"}, "Time"),
    ({"time": "\u0661"}, "Time"),
    ({"kind": "other"}, "Kind"),
    ({"kind": ["line"]}, "Kind"),
    ({"more": ""}, "Names"),
])
def test_an_entry_that_is_refused(change: Dict[str, Any], why: str) -> None:
    assert refusal(spelling({**LINE, **change}), "BASE") == why


@pytest.mark.parametrize("octets, why", [
    (b"", "NoObject"), (b"{", "NoObject"), (b"[" * 5000, "NoObject"), (b"[]", "Spelling"),
    (b"null", "Spelling"), (json.dumps(LINE).encode(), "Spelling"), (b"\xff", "NoObject"),
    (b'{"a":1,"a":1}', "Spelling"), (b'{"a":NaN}', "Kind"), (b"x" * (1 << 18 | 1), "LongLine"),
])
def test_what_is_no_entry(octets: bytes, why: str) -> None:
    assert refusal(octets, "BASE") == why and entry_in(octets) is None


@pytest.mark.parametrize("name, why", [("title", None), ("colour", "Setting")])
def test_settings(name: str, why: str) -> None:
    assert refusal(entry(1, "setting", name=name, value="Fell race"), "BASE") == why


def test_what_desks_say_together() -> None:
    all_lines = [
        line(1, "first"), line(2, "wrong", "GATE"), entry(3, "gone", of=f"{2:032x}"),
        entry(4, "name", call="Q0A", name="Leader", at=TIME + 1), line(1, "first"),
        entry(5, "name", "GATE", call="Q0A", name="Sweep", at=TIME + 2),
        entry(6, "name", call="Q0B", name="Hill"), entry(7, "name", call="Q0B", name="",
                                                        at=TIME + 9),
    ]
    found = [it for it in map(entry_in, all_lines) if it is not None]
    assert len(found) == len(all_lines)
    said = []
    for seed in range(9):
        random.Random(seed).shuffle(found)
        it = Journals(found)
        said.append(([of.text for of in it.lines], it.names))
    assert said == [(["first"], {"Q0A": "Sweep"})] * 9


@given(st.lists(st.integers(0, 30)), st.lists(st.integers(0, 30)), st.randoms())
def test_journals_are_united_as_sets(one: List[int], other: List[int], chance: Any) -> None:
    def entries_of(numbers: List[int]) -> List[entries.Entry]:
        texts = [entry(it, "gone", of=f"{it // 3:032x}") if it % 3 == 2 else line(it, f"text {it}",
                                                                                  at=TIME + it)
                 for it in numbers]
        return [it for it in map(entry_in, texts) if it is not None]
    mixed = entries_of(one) + entries_of(other) + entries_of(one)
    chance.shuffle(mixed)
    assert Journals(mixed).lines == Journals(entries_of(sorted({*one, *other}))).lines


def test_journals_of_a_folder(tmp_path: pathlib.Path) -> None:
    folder = tmp_path / "desks"
    folder.mkdir()
    (folder / "BASE.jsonl").write_bytes(line(1, "one") + b"\nno entry\n")
    (folder / "GATE.jsonl").write_bytes(line(2, "two", "GATE") + b"\n" + line(3, "torn")[:30])
    for path in tmp_path, folder:
        found, others = entries.read(str(path))
        assert [(it.text, it.desk) for it in found.lines] == [("one", "BASE"), ("two", "GATE")]
        assert others == 2
    with pytest.raises(Exception, match="no such folder"):
        entries.read(str(tmp_path / "none"))


def test_a_page_of_an_event_carries_the_journal() -> None:
    its = [spelling({**LINE, "desk": "GATE", "time": "1718992800500"}),
           entry(2, "name", call="Q1A", name='The "Lead",\nnow'),
           entry(3, "name", call="?", name="x"), entry(4, "dealt", alarm="17 Q1A", note="car")]
    journals = entries.Journals(it for it in map(entry_in, its) if it is not None)
    given = {"title": "Race", "roster": "call;name\nQ1B;Sweep\nQ1A;Runner 1\n"}
    data = with_desks(given, journals)
    assert data["lines"] == [{"at": 1718992800.5, "from": "Gate 1", "to": "NET", "id": "1",
                              "text": LINE["text"], "desk": "GATE"}]
    assert len(data["marks"].split("\n")) == 4 and '"alarm":"17 Q1A"' in data["marks"]
    roster = read_roster(data["roster"])
    assert not roster.faults and roster.name_of("Q1B") == "Sweep"
    assert roster.name_of("Q1A") == 'The "Lead", now' and len(roster.expected) == 2
    assert with_desks(given, entries.Journals([]))["roster"] == given["roster"]
