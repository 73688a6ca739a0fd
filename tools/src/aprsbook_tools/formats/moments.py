"""Moments: milliseconds since 1970-01-01T00:00:00Z, and their text in logs, books and tables."""
from __future__ import annotations

import functools
import re

from aprsbook_tools.formats import limits
from aprsbook_tools.formats.forms import form

DAY = 86_400_000  # milliseconds
END = limits.LAST_MILLISECOND + 1  # the first moment that is none: 2100-01-01

FORM = form(
    r"(\d{4}-\d\d-\d\dT\d\d:\d\d):(\d\d)(?:\.(\d{3}))?Z", re.ASCII)
FIRST_DAY = 719_163  # 1970-01-01, as `datetime` counts days


@functools.lru_cache(maxsize=4096)
def minute_of(text: str) -> int:
    """The first millisecond of a minute, as 2024-06-21T18:00; ValueError where there is none."""
    import datetime  # which takes longer than many a report

    when = datetime.datetime.fromisoformat(text)
    minutes = 60 * when.hour + when.minute
    return DAY * (when.toordinal() - FIRST_DAY) + 60_000 * minutes


@functools.lru_cache(maxsize=512)
def day_text(day: int) -> str:
    """The date of the day so many days after the first."""
    import datetime

    return datetime.date.fromordinal(FIRST_DAY + day).isoformat()


def milliseconds(text: str) -> int:
    """The moment that a text of 20 or 24 bytes says; ValueError where it says none."""
    found = FORM.fullmatch(text)
    if not found:
        raise ValueError(f"{text} is no moment, such as 2024-06-21T18:00:00Z")
    minute, second, milli = found.groups()
    result = minute_of(minute) + 1000 * int(second) + int(milli or 0)
    if second > "59":
        raise ValueError("second must be in 0..59")
    if not 0 <= result < END:
        raise ValueError(f"{text} isn't from 1970 to 2099")
    return result


@functools.lru_cache(maxsize=512)
def day_of(text: str) -> int:
    """The first millisecond of a day, as 2024-06-21; ValueError where there is none."""
    return minute_of(f"{text}T00:00")


def shown(text: str) -> int:
    """The moment of 24 bytes that a program has shown."""
    return day_of(text[:10]) + 3_600_000 * int(text[11:13]) + 60_000 * int(text[14:16]) + \
        int(text[17:19] + text[20:23])


def text_of(moment: int) -> str:
    """The 24 bytes of a moment; ValueError outside of 1970 to 2099."""
    if not 0 <= moment < END:
        raise ValueError("a moment's years are 1970 to 2099")
    day, rest = divmod(moment, DAY)
    seconds, milli = divmod(rest, 1000)
    minutes, second = divmod(seconds, 60)
    return f"{day_text(day)}T{minutes // 60:02}:{minutes % 60:02}:{second:02}.{milli:03}Z"
