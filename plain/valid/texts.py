"""Numbers, times, language tags and texts in several languages, as CoverageJSON has them."""

import calendar
import re

from plain.valid.faults import Faults

_DAYS_OF_400_YEARS = 146_097


def is_number(value) -> bool:
    """Whether it is a number of JSON."""
    return isinstance(value, (int, float)) and not isinstance(value, bool)


def is_whole(value) -> bool:
    """Whether it is a number of JSON without a fraction."""
    return is_number(value) and (isinstance(value, int) or value.is_integer())


# Times (temporal reference systems, with the Gregorian calendar)


_TIME = re.compile(
    r"(?P<year>[0-9]{4}|[+-][0-9]{5,})"
    r"(?:-(?P<month>[0-9]{2})(?:-(?P<day>[0-9]{2})"
    r"(?:T(?P<hour>[0-9]{2}):(?P<minute>[0-9]{2}):(?P<second>[0-9]{2})(?P<fraction>\.[0-9]+)?(?P<zone>Z|[+-][0-9]{2}:[0-9]{2}))?)?)?"
)


def time_of(value) -> float | None:
    """The seconds since the year 0 of a time, whose parts may be left out from the right; None where it is no time."""
    found = _TIME.fullmatch(value) if isinstance(value, str) else None
    if found is None:
        return None
    part = {name: int(text) for name, text in found.groupdict("0").items() if name not in ("fraction", "zone")}
    year, month, day = part["year"], part["month"] if found["month"] else 1, part["day"] if found["day"] else 1
    if not 1 <= month <= 12 or not 1 <= day <= _days_of_month(year, month):
        return None
    if part["hour"] > 23 or part["minute"] > 59 or part["second"] > 60:
        return None
    seconds = part["hour"] * 3600 + part["minute"] * 60 + part["second"] + float(found["fraction"] or 0)
    return _days_before(year, month, day) * 86_400 + seconds - _offset(found["zone"] or "Z")


def _days_of_month(year: int, month: int) -> int:
    # leap years repeat every 400 years
    return calendar.monthrange(2000 + year % 400, month)[1]


def _days_before(year: int, month: int, day: int) -> int:
    """The days from the first day of the year 0."""
    turns, rest = divmod(year, 400)
    of_years = rest * 365 + (rest + 3) // 4 - (rest + 99) // 100 + (rest + 399) // 400
    return turns * _DAYS_OF_400_YEARS + of_years + sum(_days_of_month(year, each) for each in range(1, month)) + day - 1


def _offset(zone: str) -> int:
    """The seconds that a zone is before universal time."""
    if zone == "Z":
        return 0
    seconds = int(zone[1:3]) * 3600 + int(zone[4:6]) * 60
    return -seconds if zone[0] == "-" else seconds


# Texts in several languages


_LANGUAGE = re.compile(
    r"(?:[a-z]{2,3}(?:-[a-z]{3}){0,3}|[a-z]{4}|[a-z]{5,8})"  # a language, perhaps with extended ones
    r"(?:-[a-z]{4})?"  # a script
    r"(?:-(?:[a-z]{2}|[0-9]{3}))?"  # a region
    r"(?:-(?:[a-z0-9]{5,8}|[0-9][a-z0-9]{3}))*"  # variants
    r"(?:-[0-9a-wy-z](?:-[a-z0-9]{2,8})+)*"  # extensions
    r"(?:-x(?:-[a-z0-9]{1,8})+)?"  # private use
    r"|x(?:-[a-z0-9]{1,8})+"
    r"|en-gb-oed|i-(?:ami|bnn|default|enochian|hak|klingon|lux|mingo|navajo|pwn|tao|tay|tsu)|sgn-(?:be-fr|be-nl|ch-de)",
    re.IGNORECASE,
)


def is_language(tag: str) -> bool:
    """Whether a text has the form of a language tag (BCP 47, RFC 5646, section 2.1)."""
    return tag.isascii() and _LANGUAGE.fullmatch(tag) is not None


def check_i18n(faults: Faults, where: str, tree: dict, name: str, needed: bool = False) -> None:
    """I18n objects: texts by their languages. Without `needed` the member may be absent."""
    if name not in tree and not needed:
        return
    if faults.is_object(f"{where}.{name}", tree.get(name)):
        for language, text in tree[name].items():
            faults.needs(f"{where}.{name}", is_language(language), f"has the language {language!r}, which is no tag of BCP 47")
            faults.needs(f"{where}.{name}", isinstance(text, str), "has what is no text")
