"""What is known of those who ask a net that is served."""
import time
from typing import List

import pytest

from aprsbook_tools.serving.net import Wrong
from aprsbook_tools.serving.pushing import LEFT_OUT, Log


def test_ten_wrong_tokens_of_an_address_are_answered_in_a_minute(
        monkeypatch: pytest.MonkeyPatch) -> None:
    now = [0.0]
    monkeypatch.setattr(time, "monotonic", lambda: now[0])
    wrong = Wrong()
    assert [wrong.is_often("192.0.2.1") for _ in range(12)] == [False] * 10 + [True] * 2
    assert not wrong.is_often("192.0.2.2")
    now[0] = 59.9
    assert wrong.is_often("192.0.2.1")
    now[0] = 60.0
    assert not wrong.is_often("192.0.2.1")


def test_the_first_lines_that_are_not_taken_are_named_and_then_their_number() -> None:
    said: List[str] = []
    log = Log("HILL.log", "2024-06-21", "HILL")
    for number in range(1, 2001):
        log.leave_out("Hex", b"line %d" % number, said.append)
    assert len(said) == LEFT_OUT + 2
    assert said[0] == "HILL.log: a line isn't taken, Hex: b'line 1'"
    assert said[LEFT_OUT - 1] == "HILL.log: a line isn't taken, Hex: b'line 10'"
    assert said[LEFT_OUT:] == ["HILL.log: lines that aren't taken: 1000",
                               "HILL.log: lines that aren't taken: 2000"]
