"""Which lines are refused, and by whom."""
import random
from typing import List, Optional, Tuple

import pytest

from aprsbook_tools.errors import Fault
from aprsbook_tools.formats import log_file
from aprsbook_tools.serving import judging
from aprsbook_tools.serving.judging import Judged, Own, judge_all, judged
from conftest import program

LINE = b"2024-06-21T18:00:00.000Z RX_1-2 c00082a0a4a64040e09c60868298986f03f03e4869c0"
LETTERS = b"0123456789abcdefABCDEFTZ:.- _RXg\r\0\xff\t"


def mutated(chance: random.Random) -> bytes:
    """A line with a few faults, or none."""
    line = bytearray(LINE)
    if chance.random() < .3:
        del line[19:23]  # whole seconds
    for _ in range(chance.choice([0, 1, 1, 2, 3])):
        at = chance.randrange(min(len(line), 45))
        how = chance.randrange(6)
        if how < 3:
            line[at] = chance.choice(LETTERS)
        elif how == 3:
            del line[at]
        elif how == 4:
            line.insert(at, chance.choice(LETTERS))
        else:
            line += chance.choice([b"0", b"c0" * 4100, b" ", b"\r"])
    return bytes(line).replace(b"\n", b" ")


def test_a_line_is_good_for_a_site_as_the_program_judges_it() -> None:
    program("aprsbook")
    chance = random.Random(7)
    lines = [mutated(chance) for _ in range(400)]
    found = judge_all([[it] for it in lines])
    for line, it in zip(lines, found):
        assert bool(it.good) == (log_file.read_line(line) is not None), (line, it)
    reasons = {it.refused[0].why for it in found if it.refused}
    assert reasons == {"Moment", "Receiver", "Hex", "LongLine"}


def stand_in(lines: List[bytes]) -> Optional[Tuple[int, str]]:
    for number, it in enumerate(lines, 1):
        if it.startswith(b"bad"):
            return number, "Hex"
    return None


@pytest.mark.parametrize("lines, good, numbers, total", [
    ([], [], [], 0),
    ([b"a", b"b"], [b"a", b"b"], [], 2),
    ([b"bad", b"a", b"bad 2", b"b", b"bad 3"], [b"a", b"b"], [1, 3, 5], 5),
    ([b"bad"] * 60 + [b"a"], [], [*range(1, 51)], 50),
    ([b"bad"] * 50, [], [*range(1, 51)], 50),
])
def test_behind_a_bad_line_the_rest_is_judged(
        monkeypatch: pytest.MonkeyPatch, lines: List[bytes], good: List[bytes],
        numbers: List[int], total: int) -> None:
    monkeypatch.setattr(judging, "first_fault", stand_in)
    it = judged(lines)
    assert (it.good, [of.number for of in it.refused], it.total) == (good, numbers, total)
    assert judge_all([[b"x"], lines]) == [Judged([b"x"], [], 1), it]


def test_a_fault_of_the_machine_is_nobody_s_line(monkeypatch: pytest.MonkeyPatch) -> None:
    monkeypatch.setenv("PATH", "/none")
    with pytest.raises(Fault, match="isn't in the PATH"):
        judged([b"a"])


@pytest.mark.parametrize("line, why", [
    (b"2024-06-21T18:00:00Z HILL c0", None), (b"2024-06-21T18:00:00Z HILL-15 c0", None),
    (b"2024-06-22T00:00:00Z HILL c0", "OtherDay"), (b"2024-06-21T18:00:00Z HILL-16 c0",
                                                    "OtherReceiver"),
    (b"2024-06-21T18:00:00Z COAST c0", "OtherReceiver"),
    (b"2024-06-21T18:00:00Z HILL2 c0", "OtherReceiver"),
])
def test_lines_of_other_logs(line: bytes, why: Optional[str]) -> None:
    own = Own("HILL", "2024-06-21")
    assert own.refusal(line) == why
    other = Own("HILL", "2024-06-21", is_feed=True).refusal(line)
    assert other == (why if why == "OtherDay" else None)
    it = own.sift(Judged([b"2024-06-21T18:00:01Z HILL c0", line], [], 2))
    assert [of.number for of in it.refused] == ([2] if why else []) and it.total == 2


@pytest.mark.parametrize("text, is_day", [
    ("2024-06-21", True), ("1970-01-01", True), ("2099-12-31", True), ("2024-02-31", False),
    ("1969-12-31", False), ("2100-01-01", False), ("2024-6-1", False), ("", False),
    ("2024-06-21\n", False), ("\u0662024-06-21", False)])
def test_days(text: str, is_day: bool) -> None:
    assert judging.is_day(text) == is_day
