"""Domains and their axes."""

from itertools import pairwise

from plain.valid.domain_types import COMMON_TYPES, check_common_type
from plain.valid.faults import Faults
from plain.valid.systems import check_referencing, systems_of
from plain.valid.texts import is_number, is_whole, time_of


def check_domain(faults: Faults, where: str, tree: dict, lent: dict) -> dict[str, int] | None:
    """Domain objects; gives the lengths of the axes where they are known."""
    kind = tree.get("domainType", lent.get("domainType"))
    faults.needs(f"{where}.domainType", kind is None or isinstance(kind, str), "is no text")
    if "domainType" in tree and "domainType" in lent:
        faults.needs(f"{where}.domainType", tree["domainType"] == lent["domainType"], "isn't that of the collection or the coverage")
    if "referencing" in tree:
        check_referencing(faults, f"{where}.referencing", tree["referencing"])
    else:
        faults.needs(f"{where}.referencing", "referencing" in lent, "is absent, in the collection too")
    axes = tree.get("axes")
    if not faults.is_object(f"{where}.axes", axes):
        return None
    before = len(faults.lines)
    systems = systems_of(tree.get("referencing", lent.get("referencing")))
    for name, axis in axes.items():
        check_axis(faults, f"{where}.axes.{name}", name, axis, systems)
    if len(faults.lines) > before:
        return None
    _check_references(faults, where, axes, systems)
    if kind in COMMON_TYPES:
        check_common_type(faults, where, kind, axes, systems)
    return {name: _length(axis) for name, axis in axes.items()}


def _length(axis: dict) -> int:
    return len(axis["values"]) if "values" in axis else axis["num"]


def _check_references(faults: Faults, where: str, axes: dict, systems: dict[str, dict]) -> None:
    """Reference system connections name coordinates that the domain has."""
    names = {coordinate for name, axis in axes.items() for coordinate in axis.get("coordinates", [name])}
    for name in systems:
        faults.needs(f"{where}.referencing", name in names, f"names {name!r}, which is no coordinate of the domain")


def check_axis(faults: Faults, where: str, name: str, axis, systems: dict[str, dict]) -> None:
    """Axis objects."""
    if not faults.is_object(where, axis):
        return
    kind = axis.get("dataType", "primitive")
    if not faults.needs(f"{where}.dataType", isinstance(kind, str), "is no text"):
        return
    if "coordinates" in axis or kind in ("tuple", "polygon"):
        names = axis.get("coordinates")
        if not faults.is_list_of_texts(f"{where}.coordinates", names):
            return
        faults.needs(f"{where}.coordinates", kind != "primitive" or len(names) == 1, "aren't one")
    if "values" in axis:
        _check_axis_values(faults, where, kind, axis, systems.get(axis.get("coordinates", [name])[0], {}))
    else:
        faults.needs(where, kind == "primitive", "is regular, and of no numbers")
        _check_regular_axis(faults, where, axis)
    _check_bounds(faults, where, axis)


def _check_regular_axis(faults: Faults, where: str, axis: dict) -> None:
    """A regularly spaced axis: start, stop and num."""
    has_ends = all(is_number(axis.get(name)) for name in ("start", "stop"))
    if not faults.needs(where, has_ends and is_whole(axis.get("num")), "has neither values nor the numbers start, stop and num"):
        return
    faults.needs(f"{where}.num", axis["num"] > 0, "isn't above 0")
    is_one = axis["num"] == 1
    faults.needs(where, not is_one or axis["start"] == axis["stop"], "has one value, and start isn't stop")
    faults.needs(where, is_one or axis["start"] != axis["stop"], "has several values that are equal")


def _check_axis_values(faults: Faults, where: str, kind: str, axis: dict, system: dict) -> None:
    """The values of an axis, by its dataType."""
    values = axis["values"]
    if not faults.needs(f"{where}.values", isinstance(values, list) and len(values) > 0, "are no list, or an empty one"):
        return
    if kind == "primitive":
        _check_primitive_values(faults, f"{where}.values", values, system)
    if kind == "tuple":
        size = len(axis["coordinates"])
        good = all(isinstance(each, list) and len(each) == size and all(map(_is_primitive, each)) for each in values)
        faults.needs(f"{where}.values", good, f"aren't tuples of {size} numbers or texts")
    if kind == "polygon":
        faults.needs(f"{where}.values", all(map(_is_polygon, values)), "aren't polygons")


def _is_primitive(value) -> bool:
    return is_number(value) or isinstance(value, str)


def _check_primitive_values(faults: Faults, where: str, values: list, system: dict) -> None:
    """Numbers or texts, ordered where the reference system has an order: of numbers always, of texts where they are times."""
    if all(map(is_number, values)):
        ordered = values
    elif faults.needs(where, all(isinstance(value, str) for value in values), "aren't all numbers or all texts"):
        if system.get("type") != "TemporalRS" or system.get("calendar") != "Gregorian":
            return
        ordered = list(map(time_of, values))
        if not faults.needs(where, None not in ordered, "aren't all times"):
            return
    else:
        return
    rises = all(before < after for before, after in pairwise(ordered))
    faults.needs(where, rises or all(before > after for before, after in pairwise(ordered)), "are neither increasing nor decreasing")


def _is_polygon(value) -> bool:
    """Whether a value is the coordinates of a polygon (RFC 7946, section 3.1.6)."""
    return isinstance(value, list) and len(value) > 0 and all(map(_is_ring, value))


def _is_ring(value) -> bool:
    if not isinstance(value, list) or len(value) < 4 or value[0] != value[-1]:
        return False
    return all(isinstance(each, list) and len(each) >= 2 and all(map(is_number, each)) for each in value)


def _check_bounds(faults: Faults, where: str, axis: dict) -> None:
    if "bounds" in axis and isinstance(axis.get("values"), list):
        bounds = axis["bounds"]
        good = isinstance(bounds, list) and len(bounds) == 2 * len(axis["values"])
        faults.needs(f"{where}.bounds", good, "aren't two for each value")
