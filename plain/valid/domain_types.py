"""The common domain types of CoverageJSON: which axes each has, and what stands in them."""

from dataclasses import dataclass
from itertools import pairwise

from plain.valid.faults import Faults
from plain.valid.texts import is_number, time_of


@dataclass(frozen=True)
class CommonType:
    """A common domain type: the axes that it needs, those that it may have, and those of one value at most."""

    needs: str
    may_have: str = ""
    single: str = ""
    composite: str = ""  # the dataType of its composite axis
    coordinates: tuple[str, ...] = ()  # those that the composite axis may have

    def axes(self) -> list[str]:
        return self.needs.split() + self.may_have.split()


_POINTS = ("x y z", "x y")
_WAYS = ("t x y z", "t x y")

COMMON_TYPES = {
    "Grid": CommonType("x y", "z t"),
    "VerticalProfile": CommonType("x y z", "t", single="x y t"),
    "PointSeries": CommonType("x y t", "z", single="x y z"),
    "Point": CommonType("x y", "z t", single="x y z t"),
    "MultiPointSeries": CommonType("composite t", composite="tuple", coordinates=_POINTS),
    "MultiPoint": CommonType("composite", "t", single="t", composite="tuple", coordinates=_POINTS),
    "Trajectory": CommonType("composite", "z", single="z", composite="tuple", coordinates=_WAYS),
    "Section": CommonType("composite z", composite="tuple", coordinates=("t x y",)),
    "Polygon": CommonType("composite", "z t", single="composite z t", composite="polygon", coordinates=("x y",)),
    "PolygonSeries": CommonType("composite t", "z", single="composite z", composite="polygon", coordinates=("x y",)),
    "MultiPolygon": CommonType("composite", "z t", single="z t", composite="polygon", coordinates=("x y",)),
    "MultiPolygonSeries": CommonType("composite t", "z", single="z", composite="polygon", coordinates=("x y",)),
}
_SPATIAL = {"x": ("GeographicCRS", "ProjectedCRS"), "y": ("GeographicCRS", "ProjectedCRS")}
_SPATIAL["z"] = ("GeographicCRS", "ProjectedCRS", "VerticalCRS")


def check_common_type(faults: Faults, where: str, kind: str, axes: dict, systems: dict[str, dict]) -> None:
    """A domain of a common type, whose axes are good ones by themselves."""
    common = COMMON_TYPES[kind]
    for name in common.needs.split():
        faults.needs(f"{where}.axes", name in axes, f"lack {name}, which a {kind} needs")
    for name in axes:
        faults.needs(f"{where}.axes", name in common.axes(), f"have {name}, which a {kind} hasn't")
    for name in common.single.split():
        axis = axes.get(name, {"num": 1})
        faults.needs(f"{where}.axes.{name}", (len(axis["values"]) if "values" in axis else axis["num"]) == 1, f"has several values in a {kind}")
    if "composite" in axes and common.composite:
        _check_composite(faults, where, kind, axes)
    for name, axis in axes.items():
        _check_coordinates(faults, where, name, axis, systems)


def _check_composite(faults: Faults, where: str, kind: str, axes: dict) -> None:
    common, axis = COMMON_TYPES[kind], axes["composite"]
    faults.needs(f"{where}.axes.composite.dataType", axis.get("dataType") == common.composite, f"isn't {common.composite}")
    names = " ".join(axis.get("coordinates", ["composite"]))
    if not faults.needs(f"{where}.axes.composite.coordinates", names in common.coordinates, f"are none that a {kind} has"):
        return
    faults.needs(f"{where}.axes", not ("z" in axes and "z" in names.split()), "have z, and the tuples too")
    if names.startswith("t"):
        times = [time_of(each[0]) if isinstance(each[0], str) else each[0] for each in axis["values"]]
        rises = None not in times and all(before <= after for before, after in pairwise(times))
        faults.needs(f"{where}.axes.composite.values", rises, "don't follow the order of their t")


def _check_coordinates(faults: Faults, where: str, name: str, axis: dict, systems: dict[str, dict]) -> None:
    """x, y and z are numbers of a spatial reference system, t is of a temporal one."""
    names = axis.get("coordinates", [name])
    for place, coordinate in enumerate(names):
        kinds = _SPATIAL.get(coordinate, ("TemporalRS",))
        faults.needs(f"{where}.referencing", systems.get(coordinate, {}).get("type") in kinds, f"has no {' or '.join(kinds)} for {coordinate}")
        if axis.get("dataType") == "tuple":
            good = all(is_number(each[place]) for each in axis["values"])
        else:
            good = axis.get("dataType") == "polygon" or all(map(is_number, axis.get("values", [])))
        if coordinate in _SPATIAL:
            faults.needs(f"{where}.axes.{name}", good, f"has a {coordinate} that is no number")
        elif systems.get(coordinate, {}).get("calendar") == "Gregorian":
            values = [each[place] for each in axis["values"]] if axis.get("dataType") == "tuple" else axis.get("values", [None])
            faults.needs(f"{where}.axes.{name}", all(time_of(each) is not None for each in values), "has a t that is no time")
