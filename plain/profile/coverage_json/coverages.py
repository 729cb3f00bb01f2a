"""Coverages and documents as data."""

import math
from dataclasses import dataclass
from typing import Sequence

COMPOSITE = "composite"
AXES = ("t", "z", "y", "x", COMPOSITE)  # the order of axes


@dataclass(frozen=True)
class DomainType:
    """What a domain type has: its axes, which of them it needs, and which have a single value."""

    axes: tuple[str, ...]
    needed: tuple[str, ...]
    single: tuple[str, ...] = ()
    coordinates: tuple[tuple[str, ...], ...] = ()  # of its tuples: without z, and with z


DOMAIN_TYPES = {
    "Grid": DomainType(axes=("t", "z", "y", "x"), needed=("y", "x")),
    "Point": DomainType(axes=("t", "z", "y", "x"), needed=("y", "x"), single=("t", "z", "y", "x")),
    "PointSeries": DomainType(axes=("t", "z", "y", "x"), needed=("t", "y", "x"), single=("z", "y", "x")),
    "VerticalProfile": DomainType(axes=("t", "z", "y", "x"), needed=("z", "y", "x"), single=("t", "y", "x")),
    "MultiPoint": DomainType(
        axes=("t", COMPOSITE),
        needed=(COMPOSITE,),
        single=("t",),
        coordinates=(("x", "y"), ("x", "y", "z")),
    ),
    "Trajectory": DomainType(
        axes=("z", COMPOSITE),
        needed=(COMPOSITE,),
        single=("z",),
        coordinates=(("t", "x", "y"), ("t", "x", "y", "z")),
    ),
}


@dataclass(frozen=True)
class Domain:
    """A domain: its type, and its axes in the order t, z, y, x, composite, ascending.

    The values of `composite` are tuples of numbers in the order of `coordinates`. Times are numbers of seconds.
    """

    type: str
    axes: dict[str, Sequence]
    coordinates: tuple[str, ...] = ()

    def count(self) -> int:
        """How many places it has."""
        return math.prod(len(values) for values in self.axes.values())

    def has(self, coordinate: str) -> bool:
        """Whether it has t or z, along an axis or in its tuples."""
        return coordinate in self.axes or coordinate in self.coordinates


@dataclass(frozen=True)
class Parameter:
    """A parameter, with its label in one language."""

    id: str
    language: str
    label: str
    unit: str | None


@dataclass(frozen=True)
class Referencing:
    """The reference systems: the CRS, perhaps empty, and perhaps a vertical one."""

    crs: str
    vertical: str | None


@dataclass(frozen=True)
class Coverage:
    """A coverage. Each parameter's range has a sample, or None, for each place of the domain, the last axis fastest."""

    id: str | None
    domain: Domain
    referencing: Referencing
    parameters: list[Parameter]
    ranges: list[list[int | None]]


@dataclass(frozen=True)
class Document:
    """A coverage, or a collection of coverages."""

    coverages: list[Coverage]
    is_collection: bool
