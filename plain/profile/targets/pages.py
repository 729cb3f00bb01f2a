"""What a target asks for."""

from dataclasses import dataclass

from plain.profile.levels import Levels
from plain.profile.times import Times
from plain.profile.well_known_text import Geometry


@dataclass(frozen=True)
class Description:
    """A page that tells of what there is: its name, and the ids in its path."""

    name: str
    ids: tuple[str, ...] = ()


@dataclass(frozen=True)
class Position:
    """At a point or at some points."""

    geometry: Geometry


@dataclass(frozen=True)
class Radius:
    """So many metres round a point."""

    geometry: Geometry
    within: int


@dataclass(frozen=True)
class Area:
    """In polygons."""

    geometry: Geometry


@dataclass(frozen=True)
class Cube:
    """In a box: the least and the greatest x and y, and perhaps the least and the greatest level."""

    least: tuple[int, int]
    greatest: tuple[int, int]
    levels: tuple[int, int] | None


@dataclass(frozen=True)
class Trajectory:
    """Along a line."""

    geometry: Geometry


@dataclass(frozen=True)
class Corridor:
    """Near a line: how wide, and perhaps how high, in metres."""

    geometry: Geometry
    width: int
    height: int | None


@dataclass(frozen=True)
class Location:
    """At a station."""

    id: str


Shape = Position | Radius | Area | Cube | Trajectory | Corridor | Location


@dataclass(frozen=True)
class Query:
    """A query. Times, levels and parameters are None where all are asked."""

    collection: str
    instance: str | None
    shape: Shape
    times: Times | None
    levels: Levels | None
    parameters: tuple[str, ...] | None
    crs: str | None


Page = Description | Query
