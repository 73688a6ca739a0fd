"""Distances, and the one rule of the date line."""
import math

import pytest
from hypothesis import assume, given
from hypothesis import strategies as st

from aprsbook_tools.geo import (
    DEGREE_METRES, Spot, bearing, chord, cut_at_date_line, eastward, metres_between)

NORTHS = st.floats(-89, 89)
EASTS = st.floats(-180, 180)
SPOTS = st.builds(Spot, NORTHS, EASTS)


@pytest.mark.parametrize(
    "start, end, way",
    [
        (0, 10, 10),
        (170, -170, 20),
        (-170, 170, -20),
        (0, 180, 180),
        (0, -180, 180),
        (10, 10, 0),
        (180, -180, 0),
    ],
)
def test_eastward_is_the_shorter_way(start: float, end: float, way: float) -> None:
    assert eastward(start, end) == way


@pytest.mark.parametrize(
    "one, other, metres",
    [
        (Spot(0, 0), Spot(1, 0), DEGREE_METRES),
        (Spot(0, 179.5), Spot(0, -179.5), DEGREE_METRES),
        (Spot(60, 0), Spot(60, 0), 0),
        (Spot(0, 0), Spot(0, 180), 180 * DEGREE_METRES),
        (Spot(90, 0), Spot(-90, 77), 180 * DEGREE_METRES),
    ],
)
def test_metres_between(one: Spot, other: Spot, metres: float) -> None:
    assert metres_between(one, other) == pytest.approx(metres, abs=0.01)


@given(SPOTS, SPOTS)
def test_both_ways_are_as_long(one: Spot, other: Spot) -> None:
    assert metres_between(one, other) == pytest.approx(metres_between(other, one), abs=0.01)
    assert 0 <= bearing(one, other) < 360


@pytest.mark.parametrize(
    "end, degrees", [(Spot(1, 0), 0), (Spot(0, 1), 90), (Spot(-1, 0), 180), (Spot(0, -1), 270)]
)
def test_bearing(end: Spot, degrees: float) -> None:
    assert bearing(Spot(0, 0), end) == pytest.approx(degrees)


def test_a_way_across_a_circle_between_two_places_is_seen() -> None:
    """Neither place is in the circle of 60 metres, which the way crosses in its midst."""
    found = chord(Spot(54.5, -3.5), 60, Spot(54.499, -3.5), Spot(54.501, -3.5))
    assert (
        found and found.nearest == pytest.approx(0.5) and found.metres == pytest.approx(0, abs=0.1)
    )
    assert (found.leaves - found.enters) * 0.002 * DEGREE_METRES == pytest.approx(120, abs=0.1)
    assert chord(Spot(54.5, -3.5), 60, Spot(54.499, -3.499), Spot(54.501, -3.499)) is None


def test_a_way_across_the_date_line() -> None:
    found = chord(Spot(0, 180), 100, Spot(0, 179.99), Spot(0, -179.99))
    assert found and found.nearest == pytest.approx(0.5)


@given(
    SPOTS,
    st.floats(1, 5000),
    st.floats(-0.1, 0.1),
    st.floats(-0.1, 0.1),
    st.floats(-0.1, 0.1),
    st.floats(-0.1, 0.1),
)
def test_a_chord_is_within_its_circle(
    middle: Spot, radius: float, n: float, e: float, to_n: float, to_e: float
) -> None:
    assume(abs(middle.north) < 80)
    start = Spot(middle.north + n, middle.east + e)
    end = Spot(middle.north + to_n, middle.east + to_e)
    found = chord(middle, radius, start, end)
    if found:
        assert 0 <= found.enters <= found.nearest + 1e-9 and found.nearest <= found.leaves + 1e-9
        assert found.leaves <= 1 and found.metres <= radius


@given(st.lists(SPOTS, min_size=2, max_size=8))
def test_no_part_crosses_the_date_line(spots: "list[Spot]") -> None:
    lines = cut_at_date_line(spots)
    for line in lines:
        assert all(abs(a.east - b.east) <= 180 for a, b in zip(line, line[1:]))
    inside = [spot for line in lines for spot in line]
    assert [it for it in inside if it in spots and abs(it.east) != 180] == [
        it for it in spots if abs(it.east) != 180
    ]


def test_a_line_over_the_date_line_is_cut_there() -> None:
    assert cut_at_date_line([Spot(0, 179), Spot(2, -179)]) == [
        [Spot(0, 179), Spot(1, 180)],
        [Spot(1, -180), Spot(2, -179)],
    ]
    assert math.isclose(cut_at_date_line([Spot(0, -179), Spot(4, 179)])[0][1].north, 2)
