"""The levels of a field: heights in whole metres; and its other dimensions, which a feed doesn't have."""

from dataclasses import dataclass

import numpy

from . import limits, roles
from .faults import Refused
from .fields import Field
from .roles import metres_of, text_of


@dataclass(frozen=True)
class Levels:
    """The dimension along which heights stand, these in ascending metres, and where each stands in the file."""

    dimension: str | None
    heights: tuple[int, ...]
    places: tuple[int, ...]

    @property
    def count(self) -> int:
        return max(1, len(self.heights))


NONE = Levels(None, (), ())


def levels_of(field: Field, known: set, teller) -> Levels:
    """The heights of a field; a single one is told by its label. Its further dimensions have to be single too."""
    dimension = field.dimension_of(roles.HEIGHT)
    dimension = dimension if dimension and field.variable.sizes[dimension] > 1 else None
    for other in field.variable.dims:
        if other not in known and other != dimension and field.variable.sizes[other] > 1:
            raise Refused(_too_many(field, other))
    return _heights(field, dimension, teller) if dimension else NONE


def _too_many(field: Field, dimension: str) -> str:
    name = field.along(dimension)
    values = field.values(name).tolist() if name else list(range(field.variable.sizes[dimension]))
    unit = text_of(field.coordinates[name].attrs, "units") if name else ""
    what = f"levels `{dimension}` in {unit or 'numbers'}, and levels of a feed are heights in metres" \
        if field.role(dimension) == roles.LEVEL else f"{len(values)} values along `{dimension}`, which a feed doesn't have"
    return f"{field.name}: it has {what}; --at {dimension}={values[0]:g} would take one of them"


def _heights(field: Field, dimension: str, teller) -> Levels:
    name = field.along(dimension)
    attributes = field.coordinates[name].attrs
    metres = field.values(name).astype(float) * metres_of(text_of(attributes, "units"))
    if text_of(attributes, "positive").lower() == "down":
        metres = -metres
        teller.note(f"{name}: depths are taken as heights below 0")
    _check(field, name, dimension, metres)
    pairs = sorted(zip(numpy.rint(metres).astype(int).tolist(), range(len(metres))))
    return Levels(dimension, tuple(height for height, _ in pairs), tuple(place for _, place in pairs))


def _check(field: Field, name: str, dimension: str, metres: numpy.ndarray) -> None:
    whole = numpy.rint(metres)
    apart = ~(numpy.abs(metres - whole) <= 1e-3)
    help_here = f"--at {dimension}={field.values(name)[0]:g} would take one level, without its height"
    if apart.any():
        raise Refused(f"{field.name}: its height {metres[apart][0]:g} m along `{name}` isn't whole, and a feed has whole metres; {help_here}")
    if len(set(whole.tolist())) < len(whole):
        raise Refused(f"{field.name}: two of its heights along `{name}` are the same; {help_here}")
    if numpy.abs(whole).max() > limits.COORDINATE:
        raise Refused(f"{field.name}: a height along `{name}` is beyond 100,000,000 metres, which a feed doesn't have; {help_here}")


def single_levels(field: Field) -> list[str]:
    """What the label says of single coordinates that the feed doesn't have: `heightAboveGround 2 m`."""
    said = []
    for name, held in field.coordinates.items():
        role = roles.role_of(name, held.attrs)
        is_single = not set(held.dims) & {each for each in field.variable.dims if field.variable.sizes[each] > 1}
        if is_single and (role in (roles.HEIGHT, roles.LEVEL) or name == "number"):
            value = float(numpy.atleast_1d(held.values)[0])
            unit = text_of(held.attrs, "units")
            if value or name != "number":  # a forecast that is no ensemble has the number 0
                said.append(f"{name} {value:g}" + (f" {unit}" if unit not in ("", "1") else ""))
    return said
