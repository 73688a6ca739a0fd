"""Framing: what is wrapped is cut out again, in whatever pieces it comes."""
from typing import List

from hypothesis import given, strategies as st

from aprsbook_tools.formats import kiss

FRAMES = st.lists(st.binary(min_size=1, max_size=400), max_size=8)


def cut(stream: bytes, size: int) -> List[bytes]:
    framer = kiss.Framer()
    pieces = [stream[at:at + size] for at in range(0, len(stream), size)]
    return [frame for piece in pieces for frame in framer.feed(piece)]


@given(FRAMES, st.integers(1, 50))
def test_frames_come_back_however_a_stream_is_cut(frames: List[bytes], size: int) -> None:
    found = cut(b"".join(map(kiss.wrap, frames)), size)
    assert [kiss.unwrap(it[1:-1]) for it in found] == frames


@given(st.binary(max_size=300).filter(lambda it: b"\xc0" not in it), st.integers(1, 50))
def test_what_stands_before_the_first_fend_is_dropped(start: bytes, size: int) -> None:
    assert cut(start + kiss.wrap(b"Hi"), size) == [kiss.wrap(b"Hi")]


def test_noise_is_left_out_and_said_once() -> None:
    said: List[str] = []
    framer = kiss.Framer(said.append)
    noise, frame = bytes(range(1, 192)) * 50, kiss.wrap(b"Hi")
    stream = noise + frame * 2 + noise + frame + noise[:2049] + frame
    assert list(framer.feed(stream)) == [frame] * 4
    assert said == [kiss.NOISE] * 3


def test_the_longest_frame_is_taken() -> None:
    longest = b"\xc0" + b"\xdb\xdd" * 1024 + b"\xc0"
    assert list(kiss.Framer().feed(longest)) == [longest]


def test_a_port_is_that_of_its_frame() -> None:
    assert [kiss.port_of(bytes([0xC0, first, 0xC0])) for first in (0x00, 0x10, 0xF0)] == [0, 1, 15]
