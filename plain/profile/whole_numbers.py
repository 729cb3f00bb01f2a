"""Whole numbers as text."""

import re

# spaces, a sign, digits, a point with zeros, spaces
_WHOLE = re.compile(rb" *([+-]?)([0-9]*)(\.0*)? *")

# More digits than any limit has: such a number is kept as one number beyond every limit.
_MANY_DIGITS = 30


class NotWhole(Exception):
    """The text is no whole number."""


class TooLarge(Exception):
    """The text is a whole number, and its size is above the limit."""


def any_whole_number(text: bytes) -> int:
    """The whole number that a text is, of any size. Raises NotWhole."""
    found = _WHOLE.fullmatch(text)
    if found is None:
        raise NotWhole
    sign, digits, point = found.groups()
    zeros = point[1:] if point else b""
    if not digits + zeros:
        raise NotWhole
    return signed(sign == b"-", digits)


def signed(negative: bool, digits: bytes) -> int:
    """The number of some digits, perhaps none, with its sign."""
    size_digits = digits.lstrip(b"0")
    size = int(size_digits or b"0") if len(size_digits) < _MANY_DIGITS else 10**_MANY_DIGITS
    return -size if negative else size


def whole_number(text: bytes, limit: int) -> int:
    """The whole number that a text is, of a size up to the limit. Raises NotWhole, or else TooLarge."""
    number = any_whole_number(text)
    if abs(number) > limit:
        raise TooLarge
    return number
