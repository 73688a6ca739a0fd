"""Times as other programs write them, each in a zone that is known."""
import datetime
import re
import zoneinfo
from typing import Dict, Iterable, List, Optional, Tuple, Union

from aprsbook_tools.formats import moments

TIME = re.compile(
    rb"(?P<day>\d{4}-\d\d-\d\d)[T ]+(?P<clock>\d\d:\d\d:\d\d)(?:[.,](?P<fraction>\d{1,9}))?"
    rb"(?P<zone> ?[+-]\d\d(?::?\d\d)?(?![\d:])| ?(?:UTC|GMT)[+-]\d{1,2}(?::?\d\d)?"
    rb"| ?[A-Za-z]{1,6}(?![A-Za-z0-9>-]))?")
# a day as 21.06.2024, and a time without a day
DOTTED = re.compile(rb"(?<!\d)(?P<date>\d{1,2})\.(?P<month>\d{1,2})\.(?P<year>\d{4}),?[T ]+"
                    + TIME.pattern.partition(rb"[T ]+")[2])
CLOCK = re.compile(rb"(?<![\d:.])(?P<clock>\d\d:\d\d:\d\d)(?:[.,](?P<fraction>\d{1,9}))?(?![\d:])")
HALF_A_DAY = 43_200_000  # milliseconds
OFFSET = re.compile(r"(?:UTC|GMT)?([+-])(\d{1,2})(?::?(\d\d))?")
Zone = Union[datetime.timezone, zoneinfo.ZoneInfo]
UTC = datetime.timezone.utc


def offset_of(text: str) -> Optional[datetime.timezone]:
    """A zone of so many hours and minutes, such as +02:00, or UTC; None of another text."""
    if text in ("Z", "UTC", "GMT"):
        return UTC
    found = OFFSET.fullmatch(text)
    if not found or int(found[2]) > 14 or int(found[3] or 0) > 59:
        return None
    span = datetime.timedelta(hours=int(found[2]), minutes=int(found[3] or 0))
    return datetime.timezone(-span if found[1] == "-" else span)


def zone_of(text: str) -> Zone:
    """A zone by its offset, or by its name as Europe/Berlin; ValueError of another text."""
    fixed = offset_of(text)
    if fixed is not None:
        return fixed
    try:
        return zoneinfo.ZoneInfo(text)
    except (zoneinfo.ZoneInfoNotFoundError, ValueError, OSError):
        if not zoneinfo.available_timezones():  # as on Windows
            raise ValueError(f"{text} is not known: zones by name need Python's tzdata, "
                             "python3 -m pip install tzdata")
        raise ValueError(f"{text} is no zone, such as UTC, +02:00 or Europe/Berlin")


class Zones:
    """Reads times. One without a zone has that of `--zone ZONE`, or UTC; an abbreviation is known
    where that zone has it, or by `--zone CEST=+02:00`."""

    def __init__(self, said: Iterable[str] = (), date: str = "") -> None:
        self.zone: Zone = UTC
        self.date = date  # of times without a day; the next one, where they go back at midnight
        self.doubtful: List[str] = []  # local times of an hour that comes twice
        self.names: Dict[str, Zone] = {}
        self.last: Optional[int] = None
        for it in said:
            name, equals, zone = it.partition("=")
            if equals:
                self.names[name] = zone_of(zone)
            else:
                self.zone = zone_of(name)

    def read(self, day: str, clock: str, fraction: str = "", zone: str = "") -> int:
        """The moment of a time in milliseconds; ValueError where none can be told."""
        milliseconds = fraction[:3].ljust(3, "0")
        local = datetime.datetime.fromisoformat(f"{day}T{clock}.{milliseconds}")
        moment = self.of_local(local, zone.strip())
        if not 0 <= moment < moments.END:
            raise ValueError("a log's years are 1970 to 2099")
        self.last = moment
        return moment

    def read_clock(self, clock: str, fraction: str = "") -> int:
        """The moment of a time without a day."""
        before, moment = self.last, self.read(self.date, clock, fraction)
        if before is not None and moment < before - HALF_A_DAY:
            day = datetime.date.fromisoformat(self.date) + datetime.timedelta(days=1)
            self.date = day.isoformat()
            moment = self.read(self.date, clock, fraction)
        return moment

    def of_local(self, local: datetime.datetime, zone: str) -> int:
        if zone.upper() in ("AM", "PM"):
            raise ValueError(f"{zone}: times of twelve hours aren't read")
        fixed = self.names.get(zone) or offset_of(zone)
        if fixed is None and not zone:
            return self.of_own(local)
        if fixed is None:
            return self.of_abbreviation(local, zone)
        return in_milliseconds(local.replace(tzinfo=fixed))

    def of_abbreviation(self, local: datetime.datetime, zone: str) -> int:
        """A time with a word such as CEST, which the zone that was said has at that time."""
        if not isinstance(self.zone, datetime.timezone):
            for fold in (0, 1):
                there = local.replace(tzinfo=self.zone, fold=fold)
                if there.tzname() == zone:
                    return in_milliseconds(there)
        raise ValueError(f"{zone} is no zone that is known: say it, as --zone {zone}=+02:00")

    def of_own(self, local: datetime.datetime) -> int:
        """A time in the zone that was said. Of an hour that comes twice, in autumn, it is the first
        until times go back."""
        first, second = (in_milliseconds(local.replace(tzinfo=self.zone, fold=fold))
                         for fold in (0, 1))
        back = datetime.datetime.fromtimestamp(first / 1000, UTC).astimezone(self.zone)
        if back.replace(tzinfo=None, microsecond=0, fold=0) != local.replace(microsecond=0):
            raise ValueError(f"{local} is no time in {self.zone}: clocks were put forward")
        if second > first:
            self.doubtful.append(str(local))
        if second > first and self.last is not None and self.last > first:
            return second
        return first


def in_milliseconds(when: datetime.datetime) -> int:
    epoch = datetime.datetime(1970, 1, 1, tzinfo=UTC)
    return (when.astimezone(UTC) - epoch) // datetime.timedelta(milliseconds=1)


def find(text: bytes) -> Optional[Tuple[str, str, str, str]]:
    """The first time in a text: day, clock, fraction and zone; None where there is none."""
    found = TIME.search(text)
    dotted = None if found else DOTTED.search(text)
    it = found or dotted
    if not it:
        return None
    clock, fraction, zone = (
        (it[name] or b"").decode("ascii") for name in ("clock", "fraction", "zone"))
    if dotted:
        day = f"{int(dotted['year']):04}-{int(dotted['month']):02}-{int(dotted['date']):02}"
    else:
        day = it["day"].decode("ascii")
    return day, clock, fraction, zone


def find_clock(text: bytes) -> Optional[Tuple[str, str]]:
    """The first time without a day in a text: clock and fraction; None where there is none."""
    found = CLOCK.search(text)
    if not found:
        return None
    return found["clock"].decode("ascii"), (found["fraction"] or b"").decode("ascii")
