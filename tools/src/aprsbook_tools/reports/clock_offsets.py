"""By how much receivers' clocks differ, and where a difference changes, of what both heard."""
import collections
import heapq
import itertools
import operator
from typing import (
    Callable, DefaultDict, Dict, Iterable, List, Mapping, NamedTuple, Protocol, Sequence, Set,
    Tuple)

from aprsbook_tools.formats import moments
from aprsbook_tools.reports.table import Row

LEAST = 3  # frames on each side of a step: one of them may be another transmission
COPIES = 20_000  # milliseconds: digipeaters repeat a transmission within so many
# the columns that tell of a reception, and not of the transmission
RECEPTION = frozenset(["first", "last", "receivers", "receiver", "via"])
TOLD = operator.itemgetter(*(at for at, it in enumerate(Row._fields) if it not in RECEPTION))


def median(values: Iterable[int]) -> float:
    import statistics  # most reports that import this module need none

    return statistics.median(values)


class Both(NamedTuple):
    """A frame that two receivers heard once each: the moment of each, in milliseconds, and its
    place in the log of each, which grows whatever a clock says."""
    one: int
    other: int
    place: int
    other_place: int

    @property
    def ahead(self) -> int:
        return self.one - self.other


class Span(NamedTuple):
    """Frames of two receivers between two steps, in order, and by how many seconds the first
    receiver's clock is ahead, in the median."""
    one: str
    other: str
    frames: Tuple[Both, ...]

    @property
    def ahead(self) -> float:
        return median(it.ahead for it in self.frames) / 1000

    def words(self) -> List[str]:
        """The span as a line of a table: by each clock, from when to when."""
        ones, others = [it.one for it in self.frames], [it.other for it in self.frames]
        ends = [min(ones), max(ones), min(others), max(others)]
        return [self.one, self.other, f"{self.ahead:+.3f}", str(len(self.frames)),
                *map(moments.text_of, ends)]


COLUMNS = ["receiver", "other", "ahead", "frames", "from", "to", "other_from", "other_to"]


def transmission(row: Row) -> Tuple[object, ...]:
    """What a row tells of its transmission, whoever heard it."""
    told: Tuple[object, ...] = TOLD(row)
    return told


def pairs(heard: Mapping[str, Iterable[Row]],
          places: Mapping[str, Mapping[int, int]]) -> Dict[Tuple[str, str], List[Both]]:
    """For each two receivers, the transmissions that both heard; those that were sent again, as any
    receiver tells, are left out. `places` has the place of a moment in the log of a receiver."""
    by: DefaultDict[Tuple[object, ...], DefaultDict[str, List[int]]] = collections.defaultdict(
        lambda: collections.defaultdict(list))
    for receiver, rows in heard.items():
        for row in rows:
            by[transmission(row)][receiver].append(moments.milliseconds(row.first))
    result: DefaultDict[Tuple[str, str], List[Both]] = collections.defaultdict(list)
    for receivers in by.values():
        if any(max(times) - min(times) > COPIES for times in receivers.values()):
            continue
        for one, other in itertools.combinations(sorted(receivers), 2):
            at, other_at = min(receivers[one]), min(receivers[other])
            result[one, other].append(
                Both(at, other_at, places[one].get(at, 0), places[other].get(other_at, 0)))
    return dict(sorted(result.items()))


def costs(values: Sequence[int]) -> List[Tuple[float, float]]:
    """For each beginning of the values, how far they are from their median in all, and that."""
    low: List[int] = []  # the lower half, negative
    high: List[int] = []
    low_sum = high_sum = 0
    result = []
    for value in values:
        if low and value < -low[0]:
            heapq.heappush(low, -value)
            low_sum += value
        else:
            heapq.heappush(high, value)
            high_sum += value
        while len(low) < len(high):
            moved = heapq.heappop(high)
            heapq.heappush(low, -moved)
            high_sum, low_sum = high_sum - moved, low_sum + moved
        while len(low) > len(high) + 1:
            moved = -heapq.heappop(low)
            heapq.heappush(high, moved)
            high_sum, low_sum = high_sum + moved, low_sum - moved
        middle = -low[0] if len(low) > len(high) else (high[0] - low[0]) / 2
        result.append((high_sum - middle * len(high) + middle * len(low) - low_sum, middle))
    return result


def cut(frames: Sequence[Both], step: int) -> List[Sequence[Both]]:
    """Cuts frames, in their order, where the difference changes by more than a step."""
    done: List[Sequence[Both]] = []
    waiting = [frames]
    while waiting:
        part = waiting.pop()
        values = [it.ahead for it in part]
        before, after = costs(values), costs(values[::-1])[::-1]
        sides = [(before[at - 1], after[at], at) for at in range(LEAST, len(part) - LEAST + 1)]
        steps = [(left[0] + right[0], at) for left, right, at in sides
                 if abs(left[1] - right[1]) > step]
        if not steps:
            done.append(part)
            continue
        _, at = min(steps)
        waiting += [part[at:], part[:at]]
    return joined(done, step)


def joined(parts: Sequence[Sequence[Both]], step: int) -> List[Sequence[Both]]:
    """Parts, in which neighbours whose difference is alike have become one."""
    result: List[List[Both]] = []
    for part in parts:
        if result:
            differences = [median(it.ahead for it in side) for side in (result[-1], part)]
            if abs(differences[0] - differences[1]) <= step:
                result[-1].extend(part)
                continue
        result.append(list(part))
    return [*result]


def spans(one: str, other: str, frames: Sequence[Both], step: int) -> List[Span]:
    """The spans between the steps of two receivers' difference. The frames are ordered as they
    stand in a log, or, where a log was sorted, by the clock by which spans are few and steady."""
    orders: List[Callable[[Both], int]] = [
        lambda it: it.place, lambda it: it.other_place, lambda it: it.other, lambda it: it.one]
    found = [cut(sorted(frames, key=order), step) for order in orders]

    def unsteady(parts: List[Sequence[Both]]) -> float:
        return sum(step + costs([it.ahead for it in part])[-1][0] for part in parts)
    return [Span(one, other, tuple(part)) for part in min(found, key=unsteady)]


class Difference(Protocol):
    """Two receivers, and by how many seconds the first one's clock is ahead."""
    @property
    def one(self) -> str: ...
    @property
    def other(self) -> str: ...
    @property
    def ahead(self) -> float: ...


def agreeing(found: Sequence[Difference], gap: float) -> List[Set[str]]:
    """The receivers in groups whose clocks agree in all spans, the largest first."""
    groups = {name: {name} for it in found for name in (it.one, it.other)}
    off = {(it.one, it.other) for it in found if abs(it.ahead) > gap}
    for it in found:
        if (it.one, it.other) not in off and groups[it.one] is not groups[it.other]:
            both = groups[it.one] | groups[it.other]
            groups.update((name, both) for name in both)
    one_each = {id(it): it for it in groups.values()}
    return sorted(one_each.values(), key=lambda it: (-len(it), sorted(it)))


def most_agreeing(found: Sequence[Difference], gap: float) -> Set[str]:
    """The receivers whose clocks agree, where they are more than in any other group."""
    groups = agreeing(found, gap)
    return groups[0] if len(groups) > 1 and len(groups[0]) > len(groups[1]) else set()


def wrong(found: Sequence[Difference], gap: float) -> List[str]:
    """The receivers that differ by more than the gap from one of those that agree, where more agree
    than in any other group; or else those that are in all spans of such a difference."""
    off = [{it.one, it.other} for it in found if abs(it.ahead) > gap]
    right = most_agreeing(found, gap)
    if right:
        return sorted({name for it in off if it & right for name in it - right})
    return sorted(set.intersection(*off)) if off else []
