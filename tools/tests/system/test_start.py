"""What a report begins with, and the named tuples that it makes."""
import os
import pickle
import subprocess
import sys
from typing import Any, List, NamedTuple, Tuple

import pytest
from conftest import environment

from aprsbook_tools import records
from aprsbook_tools.reports.table import Message, Row, Time

REPORTS = ["last_heard", "roster", "messages", "stations", "places", "tracks"]
# what takes longer than such a report
SLOW = ["typing", "subprocess", "threading", "tempfile", "dataclasses", "datetime", "json"]
NEEDED = "import argparse, collections, contextlib, signal, sys"


def loaded(words: str) -> List[str]:
    """Those of SLOW that a Python has loaded after it did this."""
    command = f"{NEEDED}; {words}; print(*[it for it in {SLOW} if it in sys.modules])"
    return subprocess.run([sys.executable, "-c", command], env=environment(), check=True,
                          stdout=subprocess.PIPE, text=True).stdout.split()


@pytest.mark.parametrize("name", REPORTS)
def test_a_report_loads_nothing_that_is_slow(name: str) -> None:
    own = f"from aprsbook_tools import argv, cli; argv.parser_of({name.replace('_', '-')!r})"
    assert loaded(own) == loaded("pass")


class Known(NamedTuple):
    """As `typing` makes one."""

    name: str
    many: int = 2

    @property
    def twice(self) -> int:
        return 2 * self.many


def test_named_tuples_are_as_those_of_typing() -> None:
    space = {it: vars(Known)[it] for it in ("__doc__", "twice", "__annotations__")}
    base: Any = records.NamedTuple
    made = type(base)("Known", (base,), {**space, "__module__": __name__, "many": 2})
    one, other = made("a"), Known("a")
    assert one == other and repr(one) == repr(other) and one.twice == 4
    assert made._fields == Known._fields and made._field_defaults == Known._field_defaults
    assert made.__doc__ == Known.__doc__ and made.__module__ == Known.__module__
    assert one._replace(many=3).twice == 6
    with pytest.raises(TypeError):
        made()


@pytest.mark.parametrize("one", [Row(kind="status"), Message(number="1"), Time()])
def test_named_tuples_are_copied(one: Tuple[str, ...]) -> None:
    again = pickle.loads(pickle.dumps(one))
    assert again == one and type(again) is type(one)


def test_words_of_the_parser_stay_english() -> None:
    """Wherever Python finds translations."""
    own = {**environment(), "LANGUAGE": "de", "LC_ALL": "C.UTF-8"}
    command = [sys.executable, "-m", "aprsbook_tools", "help", "last-heard"]
    said = subprocess.run(command, env=own, check=True, stdout=subprocess.PIPE, text=True).stdout
    assert "usage: aprs-net last-heard" in said and os.linesep + "examples:" in said
