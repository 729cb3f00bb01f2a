"""The levels of a request."""

from dataclasses import dataclass

from plain.profile import limits
from plain.profile.whole_numbers import NotWhole, TooLarge, whole_number


@dataclass(frozen=True)
class At:
    """One level."""

    level: int

    def has(self, level: int) -> bool:
        """Whether a level is the one."""
        return level == self.level


@dataclass(frozen=True)
class Between:
    """The levels from the least to the greatest, both included."""

    least: int
    greatest: int

    def has(self, level: int) -> bool:
        """Whether a level is one of them."""
        return self.least <= level <= self.greatest


@dataclass(frozen=True)
class Listed:
    """Two or more levels, in the order of the text."""

    levels: tuple[int, ...]

    def has(self, level: int) -> bool:
        """Whether a level is one of them."""
        return level in self.levels


@dataclass(frozen=True)
class Series:
    """So many levels, from the first on, each a step above the one before."""

    count: int
    first: int
    step: int

    def last(self) -> int:
        """The greatest level."""
        return self.first + (self.count - 1) * self.step

    def has(self, level: int) -> bool:
        """Whether a level is one of them."""
        return level in range(self.first, self.last() + 1, self.step)


Levels = At | Between | Listed | Series


def _number(text: bytes) -> int:
    return whole_number(text, limits.COORDINATE)


def _numbers(texts: list[bytes]) -> list[int]:
    return [_number(text) for text in texts]


def read_levels(text: bytes) -> Levels | None:
    """The levels that a text is, or None where it is in none of the four forms."""
    try:
        return _levels(text)
    except (NotWhole, TooLarge):
        return None


def _levels(text: bytes) -> Levels | None:
    if text.startswith(b"R"):
        return _series(text[1:].split(b"/"))
    if b"," in text:
        return Listed(tuple(_numbers(text.split(b","))))
    if b"/" not in text:
        return At(_number(text))
    sides = text.split(b"/")
    if len(sides) != 2:
        return None
    least, greatest = _numbers(sides)
    return Between(least, greatest) if least <= greatest else None


def _series(parts: list[bytes]) -> Series | None:
    if len(parts) != 3:
        return None
    series = Series(*_numbers(parts))
    if series.count < 1 or series.step < 1 or series.last() > limits.COORDINATE:
        return None
    return series
