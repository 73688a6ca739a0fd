"""States of sets of lines."""
from typing import List

import pytest
from hypothesis import given
from hypothesis import strategies as st

from aprsbook_tools.serving.states import EMPTY, State, hash_of, lines_of, state_in

LINES = st.lists(st.binary(max_size=20).map(lambda it: it.replace(b"\n", b" ")), max_size=20)


def state_of(lines: List[bytes]) -> State:
    state = EMPTY
    for it in lines:
        state = state.plus(it)
    return state


@given(LINES, st.randoms())
def test_a_state_is_that_of_the_lines_in_any_order(lines: List[bytes], random: object) -> None:
    mixed = [*lines]
    getattr(random, "shuffle")(mixed)
    assert state_of(mixed) == state_of(lines)
    assert state_in(state_of(lines).text) == state_of(lines)


@given(LINES, LINES)
def test_other_lines_have_another_state(one: List[bytes], other: List[bytes]) -> None:
    assert (state_of(one) == state_of(other)) == (sorted(one) == sorted(other))


def test_states_of_old_are_states_now() -> None:
    assert state_of([b"a", b"b"]).text == f"2-{(hash_of(b'a') + hash_of(b'b')) % 2 ** 128:032x}"
    assert EMPTY.text == "0-" + 32 * "0"


@pytest.mark.parametrize("text", ["", "1", "1-2", "-1-" + 32 * "0", "1-" + 32 * "G",
                                  "1-" + 33 * "0"])
def test_what_is_no_state(text: str) -> None:
    with pytest.raises(ValueError):
        state_in(text)


@given(LINES)
def test_lines_of_a_file(tmp_path_factory: pytest.TempPathFactory, lines: List[bytes]) -> None:
    path = tmp_path_factory.getbasetemp() / "lines"
    octets = b"".join(it + b"\n" for it in lines)
    path.write_bytes(octets + b"torn")
    assert [*lines_of(str(path), len(octets))] == lines
    assert [*lines_of(str(path), len(octets) + 4)] == [*lines, b"torn"]
