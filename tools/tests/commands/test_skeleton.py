"""The parts that all commands share."""
import os
import pathlib

import pytest

from aprsbook_tools.errors import Fault
from aprsbook_tools.reports import table
from aprsbook_tools.system import atomic
from standing import row, table_text


def test_bytes_are_read_where_they_are_utf_8() -> None:
    assert table.text_of("caf\\xc3\\xa9 \\\\ \\xff \\x0a") == "café \\ \\xff \\x0a"


def test_a_row_of_any_number_of_receivers() -> None:
    """Python's csv has no field of more than 131,072 letters, if it isn't told."""
    names = tuple(f"RECEIVER-{number:07}" for number in range(60_000))
    one = row("status", "18:00", "Q1A", receivers=names)
    assert [it.receivers for it in table.read(table.Row, table_text(table.Row, [one]).splitlines())
            ] == [names]


def test_a_file_is_written_whole(tmp_path: pathlib.Path) -> None:
    path = tmp_path / "net.book"
    assert atomic.write(str(path), b"one")
    assert not atomic.write(str(path), b"one")
    assert path.read_bytes() == b"one"
    assert os.listdir(tmp_path) == ["net.book"]


def test_a_log_is_never_replaced(tmp_path: pathlib.Path) -> None:
    log = tmp_path / "log"
    log.write_bytes(b"2024-05-01T12:00:00.000Z RX1 c0c0\n")
    with pytest.raises(Fault):
        atomic.write(str(log), b"page")
