"""The query texts of targets, and the values in them."""

import re

from plain.profile import limits
from plain.profile.targets.pages import Cube
from plain.profile.targets.paths import decoded
from plain.profile.well_known_text import Geometry, WktFault, read_wkt
from plain.profile.whole_numbers import NotWhole, TooLarge, signed, whole_number

GREATEST_DISTANCE = 400_000_000  # metres

_DISTANCE = re.compile(rb"([0-9]+)(?:\.([0-9]*))?")

# How many digits behind the point each unit has room for in whole metres.
_UNITS = {b"m": 0, b"km": 3}


def _form_decoded(text: bytes) -> str:
    return decoded(text.replace(b"+", b" ")).decode("utf-8", "replace")


def pairs_of(text: bytes) -> list[tuple[str, str]]:
    """The names and values of a query text."""
    pieces = [piece.partition(b"=") for piece in text.split(b"&") if piece]
    return [(_form_decoded(name), _form_decoded(value)) for name, _, value in pieces]


def read_geometry(text: bytes) -> Geometry | None:
    try:
        return read_wkt(text)
    except WktFault:
        return None


def read_box(text: bytes) -> Cube | None:
    """The box that a text of four or six numbers is."""
    try:
        numbers = [whole_number(part, limits.COORDINATE) for part in text.split(b",")]
    except (NotWhole, TooLarge):
        return None
    if len(numbers) not in (4, 6):
        return None
    half = len(numbers) // 2
    least, greatest = numbers[:half], numbers[half:]
    if any(low > high for low, high in zip(least, greatest)):
        return None
    levels = (least[2], greatest[2]) if half == 3 else None
    return Cube((least[0], least[1]), (greatest[0], greatest[1]), levels)


def read_distance(number: bytes, unit: bytes) -> int | None:
    """The whole metres that a number and its unit are."""
    found = _DISTANCE.fullmatch(number)
    room = _UNITS.get(unit.lower())
    if found is None or room is None:
        return None
    fraction = (found[2] or b"").ljust(room, b"0")
    if fraction[room:].strip(b"0"):
        return None
    metres = signed(False, found[1] + fraction[:room])
    return metres if metres <= GREATEST_DISTANCE else None


def names_once(text: str) -> tuple[str, ...]:
    """The names of a list with commas, each once, at its first place."""
    return tuple(dict.fromkeys(text.split(",")))
