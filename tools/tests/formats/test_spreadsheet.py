"""No text off the air is a formula, and a CSV is read back."""
import pytest
from hypothesis import given
from hypothesis import strategies as st

from aprsbook_tools.formats.spreadsheet import csv_text, guarded, read_csv, unguarded

TEXTS = st.text(st.characters(blacklist_categories=("Cs",), blacklist_characters="\0\r\n"))
ODD = st.text("'=+-@ 1.a\t\n\u3000\uff1d")
WIDE = ["\n=1", "\u00a0=1", "\u3000+1+1", "\uff1d1", "\uff0b1", "\uff0d1", "\uff20A"]


@pytest.mark.parametrize("text", ["=1+1", "+1+1", "-1+1", "@SUM(1)", "  =1", "'=1", "\t=1", *WIDE])
def test_a_formula_is_text(text: str) -> None:
    assert guarded(text) == "'" + text


@pytest.mark.parametrize("text", ["", "-5", "-3.25", "12", "a=1", "it's", "'a", "1-2"])
def test_another_text_stays(text: str) -> None:
    assert guarded(text) == text


@given(st.one_of(TEXTS, ODD))
def test_what_is_guarded_is_read_back(text: str) -> None:
    assert unguarded(guarded(text)) == text


@given(st.one_of(TEXTS, ODD))
def test_what_is_guarded_begins_no_formula(text: str) -> None:
    assert guarded(text)[:1] not in ("=", "+", "@", "\t") and guarded(guarded(text)).endswith(text)


@given(st.lists(st.lists(st.one_of(TEXTS, ODD), min_size=2, max_size=4), max_size=4))
def test_a_csv_is_read_back(rows: "list[list[str]]") -> None:
    assert read_csv(csv_text(rows)) == rows


def test_numbers_are_numbers() -> None:
    assert csv_text([["north", "n"], [-4.5, -3]]) == "north,n\n-4.5,-3\n"
    assert csv_text([[None, "x", 54.0]]) == ",x,54\n"


@pytest.mark.parametrize("blank", [
    " ", "\u00a0", "\u1680", "\u2003", "\u200b", "\u2028", "\u202e", "\u2060", "\u3000", "\ufeff",
    "'", "\u00ad\u3164 "])
def test_no_blank_hides_a_formula(blank: str) -> None:
    for sign in "=+-@":
        text = f"{blank}{sign}1+1"
        assert csv_text([[text]]).lstrip('"').startswith("'")
        assert read_csv(csv_text([[text]])) == [[text]]
