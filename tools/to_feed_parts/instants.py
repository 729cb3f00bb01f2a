"""Instants as whole seconds since 1970, and the times of a file by the CF conventions, in exact arithmetic."""

import re
from datetime import datetime, timedelta
from fractions import Fraction

from .faults import Refused

EPOCH = datetime(1970, 1, 1)
FIRST, LAST = -62_135_596_800, 253_402_300_799  # the years 0001 to 9999
GREGORIAN_FROM = -12_219_292_800  # 1582-10-15: before it the calendars `standard` and `gregorian` are the Julian one

_SECONDS = {
    **dict.fromkeys(("second", "seconds", "sec", "secs", "s"), Fraction(1)),
    **dict.fromkeys(("minute", "minutes", "min", "mins"), Fraction(60)),
    **dict.fromkeys(("hour", "hours", "hr", "hrs", "h"), Fraction(3_600)),
    **dict.fromkeys(("day", "days", "d"), Fraction(86_400)),
    **dict.fromkeys(("millisecond", "milliseconds", "msec", "msecs", "ms"), Fraction(1, 1_000)),
}
_SINCE = re.compile(r"\s*(\S+)\s+since\s+(\S.*?)\s*$", re.IGNORECASE)
_DATE = re.compile(
    r"(\d{1,4})-(\d{1,2})-(\d{1,2})"
    r"(?:(?:\s+|T)(\d{1,2})(?::(\d{1,2})(?::(\d{1,2})(\.\d*)?)?)?)?"
    r"\s*(?:Z|UTC|GMT|([+-])(\d{1,2}):?(\d{2})?)?$",
    re.IGNORECASE,
)
_PLAIN_CALENDARS = ("standard", "gregorian", "proleptic_gregorian")


def is_since(units: str) -> bool:
    """Whether units are those of instants, such as `hours since 2024-06-01`."""
    return bool(_SINCE.match(units))


def written(seconds: int) -> str:
    return (EPOCH + timedelta(seconds=seconds)).isoformat(timespec="seconds") + "Z"


def read(text: str) -> int | None:
    """The instant of a text such as 2024-01-01T00:00:00Z, in whole seconds."""
    found = _DATE.match(text.strip())
    seconds = _of_date(found) if found else None
    return int(seconds) if seconds is not None and seconds.denominator == 1 else None


def _of_date(found) -> Fraction | None:
    year, month, day, hour, minute, second = (int(part or 0) for part in found.groups()[:6])
    try:
        whole = int((datetime(year, month, day, hour, minute, second) - EPOCH).total_seconds())
    except ValueError:
        return None
    fraction = Fraction("0" + found[7]) if found[7] and len(found[7]) > 1 else Fraction(0)
    offset = int(found[9] or 0) * 3_600 + int(found[10] or 0) * 60
    return whole + fraction - (-offset if found[8] == "-" else offset)


def duration(units: str) -> Fraction | None:
    """How many seconds a unit of time has, where that is one number."""
    return _SECONDS.get(units.strip().lower())


class Clock:
    """The instants of a coordinate with units such as `hours since 2024-06-01`."""

    def __init__(self, name: str, units: str, calendar: str):
        self._name = name
        self._calendar = (calendar or "standard").lower()
        self._check_calendar(calendar)
        unit, since = _SINCE.match(units).groups()
        self._unit = self._unit_of(unit)
        self._start = self._start_of(since, units)

    def _check_calendar(self, calendar: str) -> None:
        if self._calendar not in _PLAIN_CALENDARS:
            raise Refused(
                f"{self._name}: its calendar is `{calendar}`, and a feed has days of the Gregorian calendar alone; "
                f'convert the file first, as convert_calendar("standard", align_on="date") of xarray does'
            )

    def _unit_of(self, unit: str) -> Fraction:
        seconds = duration(unit)
        if seconds is None:
            raise Refused(
                f"{self._name}: its times are in `{unit}`, which isn't a fixed number of seconds; "
                f"write them in days, hours, minutes or seconds first"
            )
        return seconds

    def _start_of(self, since: str, units: str) -> Fraction:
        found = _DATE.match(since)
        start = _of_date(found) if found else None
        if start is None:
            raise Refused(
                f"{self._name}: its units are `{units}`, and `{since}` is no date that can be read; "
                f"write it as 2024-06-01 00:00:00 first"
            )
        return start

    def instants(self, numbers: list) -> list[int]:
        """The instants of numbers in these units, in whole seconds."""
        return [self._instant(place, number) for place, number in enumerate(numbers)]

    def number_of(self, seconds: int) -> float:
        """The number that stands for an instant in these units."""
        return float((seconds - self._start) / self._unit)

    def _instant(self, place: int, number) -> int:
        if number != number or number in (float("inf"), float("-inf")):
            raise Refused(f"{self._name}: its value at place {place} is missing, and each time of a feed has a value")
        return whole_seconds(self._name, place, Fraction(number) * self._unit + self._start, self._calendar)


def whole_seconds(name: str, place: int, exact: Fraction, calendar: str = "proleptic_gregorian") -> int:
    """An instant in whole seconds; a thousandth of a second is left to how floating numbers are held."""
    seconds = round(exact)
    if not FIRST <= seconds <= LAST:
        raise Refused(f"{name}: its value at place {place} isn't in the years 0001 to 9999, which a feed has")
    if abs(exact - seconds) > Fraction(1, 1_000):
        raise Refused(
            f"{name}: its value at place {place} is {written(seconds)} and {float(exact - seconds):+.3f} seconds, "
            f"and a feed has whole seconds; round the times in the file first"
        )
    if seconds < GREGORIAN_FROM and calendar != "proleptic_gregorian":
        raise Refused(
            f"{name}: its value at place {place} is before 1582-10-15, where the calendar `{calendar}` is the Julian one; "
            f"write the times in the calendar `proleptic_gregorian` first"
        )
    return seconds
