"""What memory doesn't hold is sorted on the disk."""
from typing import List, Tuple

import pytest
from hypothesis import given
from hypothesis import strategies as st

from aprsbook_tools.system import sorting

ITEMS = st.lists(st.tuples(st.integers(0, 3), st.text(max_size=3)), max_size=60)


@pytest.mark.parametrize("size", [1, 7, 60, 1000])
@given(items=ITEMS)
def test_it_is_as_sorted_in_memory(size: int, items: "List[Tuple[int, str]]") -> None:
    numbered = [(*it, at, (None, 1.5, True, ("a",))) for at, it in enumerate(items)]
    assert [*sorting.in_order(iter(numbered), size)] == sorted(numbered, key=lambda it: it[:3])


def test_blocks_of_a_run(monkeypatch: pytest.MonkeyPatch) -> None:
    monkeypatch.setattr(sorting, "BLOCK", 3)
    items = [(it * 37 % 101, it) for it in range(101)]
    assert [*sorting.in_order(items, 10)] == sorted(items)
