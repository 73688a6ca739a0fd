"""Which lines of a log are refused, and why: those that `aprsbook check` refuses, as it judges
them itself, and those that aren't the sender's."""
import re
from typing import List, NamedTuple, Optional, Sequence, Tuple

from aprsbook_tools.errors import ExitStatus, Fault
from aprsbook_tools.formats import log_file, moments
from aprsbook_tools.system import programs

DAY = re.compile(r"\d{4}-\d\d-\d\d", re.ASCII)
TRIES = 50  # lines that are found faulty in one batch; what follows isn't judged
INPUT = "standard input"  # as `aprsbook check` calls it


class Refused(NamedTuple):
    """A line that isn't taken: its number in the batch, why, and its beginning."""
    number: int
    why: str
    begin: bytes

    @staticmethod
    def of(number: int, why: str, line: bytes) -> "Refused":
        return Refused(number, why, line[:80])


class Judged(NamedTuple):
    """The lines of a batch that are taken, those that aren't, and how many were judged."""
    good: List[bytes]
    refused: List[Refused]
    total: int


def is_day(text: str) -> bool:
    """Whether a text is a day that a log can have."""
    try:
        return bool(DAY.fullmatch(text)) and moments.milliseconds(f"{text}T00:00:00Z") >= 0
    except ValueError:
        return False


def first_fault(lines: Sequence[bytes]) -> Optional[Tuple[int, str]]:
    """The number of the first line that `aprsbook check` refuses, and why; None where it refuses
    none."""
    if not lines:
        return None
    try:
        programs.run("aprsbook", "check", given=b"".join(it + b"\n" for it in lines))
    except Fault as fault:
        found = programs.fault_line(fault, INPUT)
        if fault.status != ExitStatus.INPUT or found is None:
            raise
        return found
    return None


def judged(lines: Sequence[bytes]) -> Judged:
    """What `aprsbook check` says of each line: behind one that it refuses it checks the rest."""
    good: List[bytes] = []
    refused: List[Refused] = []
    begin = 0
    while len(refused) < TRIES:
        found = first_fault(lines[begin:])
        if found is None:
            return Judged([*good, *lines[begin:]], refused, len(lines))
        at = begin + found[0] - 1
        good += lines[begin:at]
        refused.append(Refused.of(at + 1, found[1], lines[at]))
        begin = at + 1
    return Judged(good, refused, begin)


def judge_all(batches: Sequence[Sequence[bytes]]) -> List[Judged]:
    """The same of several batches: of good ones by one run of the program."""
    if first_fault([line for lines in batches for line in lines]) is None:
        return [Judged([*lines], [], len(lines)) for lines in batches]
    return [judged(lines) for lines in batches]


def radios(name: str) -> str:
    """A pattern of the names of a receiver's logs: several radios of one TNC are NAME-1 and on."""
    return f"{re.escape(name)}(?:-(?:1[0-5]|[1-9]))?"


class Own:
    """Which lines are of the log of a receiver and a day. That of a feed has the lines of all its
    gates."""

    def __init__(self, name: str, day: str, is_feed: bool = False) -> None:
        self.day = day.encode() + b"T"
        receiver = log_file.RECEIVER if is_feed else radios(name)
        self.line = re.compile(b"[^ ]+ (?:%s) [^ ]*" % receiver.encode())

    def refusal(self, line: bytes) -> Optional[str]:
        """Why a line is of another log, or None. Whether it is a line at all is asked before."""
        if not line.startswith(self.day):
            return "OtherDay"
        return None if self.line.fullmatch(line) else "OtherReceiver"

    def sift(self, it: Judged) -> Judged:
        """What was judged, without the lines of other logs."""
        numbers = {of.number for of in it.refused}
        left = [number for number in range(1, it.total + 1) if number not in numbers]
        good, refused = [], [*it.refused]
        for number, line in zip(left, it.good):
            why = self.refusal(line)
            if why is None:
                good.append(line)
            else:
                refused.append(Refused.of(number, why, line))
        return Judged(good, sorted(refused), it.total)
