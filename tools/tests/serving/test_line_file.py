"""Files of lines that are sets: what is added, what is known, torn ends and holes."""
import errno
import pathlib
from typing import List, Tuple

import pytest
from hypothesis import given
from hypothesis import strategies as st

from aprsbook_tools.serving.line_file import Batch, LineFile, Taken, close_holes
from aprsbook_tools.serving.states import EMPTY, State

SAID: List[str] = []
MOST = 1 << 20
A, B, C, D, E, X, Y, Z = (b"2024-06-21T18:00:00.000Z HILL c000%02xc0" % it for it in b"abcdexyz")
SIZE = len(A) + 1  # with its line feed


def file_in(folder: pathlib.Path, most: int = MOST) -> LineFile:
    return LineFile(str(folder / "2024-06-21" / "HILL.log"), most)


def add(to: LineFile, *batches: Batch) -> List[Taken]:
    with to.adding([*batches], SAID.append) as addition:
        addition.write()
    return addition.taken


def lines_in(it: LineFile) -> List[bytes]:
    return pathlib.Path(it.path).read_bytes().split(b"\n")[:-1]


def test_lines_are_there_once(tmp_path: pathlib.Path) -> None:
    it = file_in(tmp_path)
    first, second = add(it, Batch([A, B]), Batch([B, C, C]))
    assert (first.added, first.known) == (2, 0)
    assert (second.added, second.known) == (1, 2)
    assert lines_in(it) == [A, B, C]
    assert it.look() == second.state == file_in(tmp_path).look()


def test_what_is_for_another_state_is_refused(tmp_path: pathlib.Path) -> None:
    it = file_in(tmp_path)
    [taken] = add(it, Batch([A], EMPTY))
    assert taken == Taken(EMPTY.plus(A), 1)
    late, right = add(it, Batch([B], EMPTY), Batch([B], taken.state))
    assert not late.fits and late.state == taken.state
    assert right.fits and lines_in(it) == [A, B]


def test_a_file_that_is_full(tmp_path: pathlib.Path) -> None:
    it = file_in(tmp_path, 2 * SIZE - 1)
    add(it, Batch([A]))
    with pytest.raises(OSError) as fault:
        add(it, Batch([B]))
    assert fault.value.errno == errno.EDQUOT
    assert lines_in(it) == [A] and it.look() == EMPTY.plus(A)
    assert add(it, Batch([A]))[0].known == 1
    it.most += 1
    assert add(it, Batch([B]))[0].added == 1


def test_another_program_writes_it_too(tmp_path: pathlib.Path) -> None:
    it = file_in(tmp_path)
    add(it, Batch([A]))
    path = pathlib.Path(it.path)
    path.write_bytes(path.read_bytes() + B + b"\ntorn")
    assert it.look() == EMPTY.plus(A).plus(B)
    [taken] = add(it, Batch([B, C]))
    assert (taken.added, taken.known) == (1, 1)
    assert lines_in(it) == [A, B, C]
    other = path.with_name("new")  # as rsync does: another file of the same size
    other.write_bytes(b"\n".join([X, Y, Z, b""]))
    other.replace(path)
    assert it.look() == EMPTY.plus(X).plus(Y).plus(Z)


def test_a_fault_leaves_what_is_known_in_doubt(tmp_path: pathlib.Path) -> None:
    it = file_in(tmp_path)
    add(it, Batch([A]))
    with pytest.raises(ZeroDivisionError):
        with it.adding([Batch([B])], SAID.append):
            raise ZeroDivisionError
    assert it.look() == EMPTY.plus(A)
    assert add(it, Batch([B]))[0].added == 1


@given(st.lists(st.tuples(st.lists(st.sampled_from([A, B, C, D, E]), max_size=4),
                          st.integers(0, 4)), max_size=8))
def test_any_batches_make_their_union(tmp_path_factory: pytest.TempPathFactory,
                                      batches: List[Tuple[List[bytes], int]]) -> None:
    it = file_in(tmp_path_factory.mktemp("set"))
    model: List[bytes] = []
    for lines, how in batches:
        if how == 0:
            it.forget()
        if how == 1:
            it = LineFile(it.path, it.most)
        [taken] = add(it, Batch(lines))
        new = [line for line in dict.fromkeys(lines) if line not in model]
        assert (taken.added, taken.known) == (len(new), len(lines) - len(new))
        model += new
        state = State()
        for line in model:
            state = state.plus(line)
        assert taken.state == state == LineFile(it.path, it.most).look()
        if model:
            assert lines_in(it) == model


def test_holes_that_a_power_failure_left(tmp_path: pathlib.Path) -> None:
    path = tmp_path / "HILL.log"
    path.write_bytes(b"first\nsec" + b"\0" * 5000 + b"ond\nthird\n" + b"\0" * 10)
    said: List[str] = []
    close_holes(str(path), 1 << 20, said.append)
    assert path.read_bytes() == b"first\nthird\n" and "NUL bytes" in said[0]
    close_holes(str(path), 1 << 20, said.append)
    assert path.read_bytes() == b"first\nthird\n" and len(said) == 1
    # the line begins before the bytes that are looked at
    path.write_bytes(b"first\n" + b"x" * 100 + b"\0" * 3000 + b"\nlast\n")
    close_holes(str(path), 2000, said.append)
    assert path.read_bytes() == b"first\nlast\n"
    close_holes(str(tmp_path / "none"), 10, said.append)
