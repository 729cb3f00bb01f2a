"""Well-known text of geometries (OGC 06-103r4, section 7), read and written."""

import re
from dataclasses import dataclass, field

from plain.profile import limits
from plain.profile.whole_numbers import any_whole_number

_BLANKS = re.compile(rb"[ \t\r\n]*")
_HEADING = re.compile(
    rb"[ \t\r\n]*(POINT|MULTIPOINT|LINESTRING|POLYGON|MULTIPOLYGON)[ \t\r\n]*(ZM|Z|M)?", re.IGNORECASE
)
_NUMBER = re.compile(rb"[+-]?(?:[0-9]+(?:\.0*)?|\.0+)")

Position = tuple[int, ...]  # x, y, then z and m where the dims have them


class WktFault(Exception):
    """Why a text is no geometry: the name of the fault, and the position or ring that it is about, from 1."""

    def __init__(self, name: str, place: int | None = None):
        super().__init__(name, place)
        self.name = name
        self.place = place

    def __str__(self) -> str:
        return self.name if self.place is None else f"{self.name}({self.place})"


@dataclass(frozen=True)
class Geometry:
    """A geometry: its tag in capitals, its dims, and its positions in nested lists."""

    tag: str
    dims: str
    body: list = field(hash=False)

    def rings(self) -> list[list[Position]]:
        """The rings, in the order of the text."""
        if self.tag == "POLYGON":
            return self.body
        if self.tag == "MULTIPOLYGON":
            return [ring for polygon in self.body for ring in polygon]
        return []

    def positions(self) -> list[Position]:
        """The positions, in the order of the text."""
        if self.tag in ("POLYGON", "MULTIPOLYGON"):
            return [position for ring in self.rings() for position in ring]
        return self.body


def read_wkt(text: bytes) -> Geometry:
    """The geometry that a text stands for. Raises the first WktFault that applies."""
    geometry = _Reader(text).geometry()
    positions = geometry.positions()
    if len(positions) > limits.POSITIONS:
        raise WktFault("TooManyPositions")
    for place, position in enumerate(positions, 1):
        if not _is_within_limits(position, geometry.dims):
            raise WktFault("OutOfRange", place)
    for place, ring in enumerate(geometry.rings(), 1):
        if ring[0] != ring[-1]:
            raise WktFault("OpenRing", place)
    if geometry.tag == "LINESTRING" and "M" in geometry.dims:
        for place in range(1, len(positions)):
            if positions[place][-1] < positions[place - 1][-1]:
                raise WktFault("DecreasingM", place + 1)
    return geometry


def _is_within_limits(position: Position, dims: str) -> bool:
    if "M" in dims:
        return all(map(limits.is_coordinate, position[:-1])) and limits.is_time(position[-1])
    return all(map(limits.is_coordinate, position))


class _Reader:
    """Reads a text from its front on. What isn't in the grammar raises NotWkt."""

    def __init__(self, text: bytes):
        self.text = text
        self.at = 0
        self.numbers = 2

    def geometry(self) -> Geometry:
        heading = _HEADING.match(self.text)
        if heading is None:
            raise WktFault("NotWkt")
        self.at = heading.end()
        tag = heading[1].decode().upper()
        dims = (heading[2] or b"").decode().upper()
        self.numbers = 2 + len(dims)
        geometry = Geometry(tag, dims, self.body(tag))
        self.blanks()
        if self.at != len(self.text):
            raise WktFault("NotWkt")
        return geometry

    def body(self, tag: str) -> list:
        if tag == "POINT":
            return self.bracketed(self.position, least=1, most=1)
        if tag == "MULTIPOINT":
            return self.bracketed(self.member, least=1)
        if tag == "LINESTRING":
            return self.bracketed(self.position, least=2)
        if tag == "POLYGON":
            return self.polygon()
        return self.bracketed(self.polygon, least=1)

    def polygon(self) -> list:
        return self.bracketed(self.ring, least=1)

    def ring(self) -> list:
        return self.bracketed(self.position, least=4)

    def member(self) -> Position:
        if self.is_next(b"("):
            return self.bracketed(self.position, least=1, most=1)[0]
        return self.position()

    def bracketed(self, read_item, least: int, most: int | None = None) -> list:
        self.take(b"(")
        items = [read_item()]
        while self.is_next(b","):
            self.take(b",")
            items.append(read_item())
        self.take(b")")
        if len(items) < least or most is not None and len(items) > most:
            raise WktFault("NotWkt")
        return items

    def position(self) -> Position:
        numbers = [self.number()]
        for _ in range(self.numbers - 1):
            before = self.at
            self.blanks()
            if self.at == before:
                raise WktFault("NotWkt")
            numbers.append(self.number())
        return tuple(numbers)

    def number(self) -> int:
        self.blanks()
        found = _NUMBER.match(self.text, self.at)
        if found is None:
            raise WktFault("NotWkt")
        self.at = found.end()
        return any_whole_number(found[0])

    def blanks(self) -> None:
        self.at = _BLANKS.match(self.text, self.at).end()

    def is_next(self, mark: bytes) -> bool:
        self.blanks()
        return self.text.startswith(mark, self.at)

    def take(self, mark: bytes) -> None:
        if not self.is_next(mark):
            raise WktFault("NotWkt")
        self.at += 1


def write_wkt(geometry: Geometry) -> str:
    """The written form of a geometry."""
    dims = " " + geometry.dims if geometry.dims else ""
    if geometry.tag == "MULTIPOINT":
        body = _in_brackets(_in_brackets([_numbers(position)]) for position in geometry.body)
    elif geometry.tag == "POLYGON":
        body = _polygon(geometry.body)
    elif geometry.tag == "MULTIPOLYGON":
        body = _in_brackets(map(_polygon, geometry.body))
    else:
        body = _in_brackets(map(_numbers, geometry.body))
    return geometry.tag + dims + body


def _numbers(position: Position) -> str:
    return " ".join(map(str, position))


def _in_brackets(items) -> str:
    return "(" + ",".join(items) + ")"


def _polygon(rings: list[list[Position]]) -> str:
    return _in_brackets(_in_brackets(map(_numbers, ring)) for ring in rings)
