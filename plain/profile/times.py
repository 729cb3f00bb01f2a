"""Times: their text, and the times of a request."""

import re
from bisect import bisect_right
from dataclasses import dataclass
from itertools import accumulate

from plain.profile import limits

_DAY = 86_400

_INSTANT = re.compile(
    rb"([0-9]{4})-([0-9]{2})-([0-9]{2})[Tt]([0-9]{2}):([0-9]{2})(?::([0-9]{2})(?:\.0+)?)?"
    rb"(?:[Zz]|([+ -])([0-9]{2}):([0-9]{2}))"
)


def _is_leap(year: int) -> bool:
    return year % 4 == 0 and (year % 100 != 0 or year % 400 == 0)


def _days_in_month(year: int, month: int) -> int:
    if month == 2:
        return 29 if _is_leap(year) else 28
    return 30 if month in (4, 6, 9, 11) else 31


def _days_in_year(year: int) -> int:
    return 366 if _is_leap(year) else 365


# The day on which each of the years 0000 to 9999 begins, counted from 1 January 0000.
_YEAR_BEGINS = [0, *accumulate(_days_in_year(year) for year in range(9999))]
_DAY_OF_1970 = _YEAR_BEGINS[1970]


def _month_begins(year: int) -> list[int]:
    return [0, *accumulate(_days_in_month(year, month) for month in range(1, 12))]


def write_instant(time: int) -> str:
    """The text of a time, as YYYY-MM-DDTHH:MM:SSZ."""
    day, second = divmod(time, _DAY)
    day += _DAY_OF_1970
    year = bisect_right(_YEAR_BEGINS, day) - 1
    day -= _YEAR_BEGINS[year]
    month = bisect_right(_month_begins(year), day)
    day -= _month_begins(year)[month - 1]
    hour, second = divmod(second, 3600)
    minute, second = divmod(second, 60)
    return f"{year:04}-{month:02}-{day + 1:02}T{hour:02}:{minute:02}:{second:02}Z"


def read_instant(text: bytes) -> int | None:
    """The time that a text is, or None where it is no instant."""
    found = _INSTANT.fullmatch(text)
    if found is None:
        return None
    year, month, day, hour, minute = (int(part) for part in found.groups()[:5])
    second = int(found[6] or 0)
    zone_hour, zone_minute = int(found[8] or 0), int(found[9] or 0)
    if not 1 <= month <= 12 or not 1 <= day <= _days_in_month(year, month):
        return None
    if hour > 23 or minute > 59 or second > 59 or zone_hour > 23 or zone_minute > 59:
        return None
    days = _YEAR_BEGINS[year] + _month_begins(year)[month - 1] + day - 1 - _DAY_OF_1970
    offset = zone_hour * 3600 + zone_minute * 60
    if found[7] == b"-":
        offset = -offset
    time = days * _DAY + hour * 3600 + minute * 60 + second - offset
    return time if limits.is_time(time) else None


@dataclass(frozen=True)
class Times:
    """Times of a request: those from the first to the last, both included. None is an open side."""

    first: int | None
    last: int | None
    single: bool = False  # whether they were asked by one instant

    def has(self, time: int) -> bool:
        """Whether a time is one of them."""
        not_before = self.first is None or self.first <= time
        not_after = self.last is None or time <= self.last
        return not_before and not_after


def _is_open(side: bytes) -> bool:
    return side in (b"", b"..")


def read_times(text: bytes) -> Times | None:
    """The times that a text is: an instant or an interval. None where it is neither."""
    sides = text.split(b"/")
    if len(sides) == 1:
        time = read_instant(text)
        return None if time is None else Times(time, time, single=True)
    if len(sides) != 2:
        return None
    ends = [None if _is_open(side) else read_instant(side) for side in sides]
    if any(end is None and not _is_open(side) for end, side in zip(ends, sides)):
        return None
    first, last = ends
    if first is not None and last is not None and first > last:
        return None
    return Times(first, last)
