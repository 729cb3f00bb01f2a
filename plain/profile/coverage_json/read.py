"""CoverageJSON as read (OGC 21-069r2): the coverages that a text stands for, or the first check that fails.

The checks stand in the profile's order, coverage by coverage.
"""

import math
from itertools import product
from typing import Iterable, Sequence

from plain.profile import limits
from plain.profile.coverage_json.coverages import AXES, COMPOSITE, DOMAIN_TYPES, Coverage, Document, Domain, Parameter, Referencing
from plain.profile.faults import NamedFault
from plain.profile.json_text import NotJson, is_number, is_whole, read_json
from plain.profile.names import is_name
from plain.profile.times import read_instant


class CoverageFault(NamedFault):
    """The first check that fails: its name, and the member, place, counts or text that it is about."""


def _check(holds: bool, name: str, *about) -> None:
    if not holds:
        raise CoverageFault(name, *about)


def _check_each(hold: Iterable[bool], name: str, member: str) -> None:
    """What holds of each item of a list. The fault has the place of the first of which it doesn't."""
    for place, holds in enumerate(hold):
        _check(holds, name, member, place)


def _member(tree: dict, key: str, member: str):
    _check(key in tree, "Missing", member)
    return tree[key]


def _member_of_type(tree: dict, key: str, type_: type, member: str):
    found = _member(tree, key, member)
    _check(type(found) is type_, "WrongType", member)
    return found


def _text_or_empty(tree, key: str) -> str:
    """The text member of an object, or an empty text where there is none."""
    found = tree.get(key) if type(tree) is dict else None
    return found if type(found) is str else ""


def _lent(key: str, *lenders: dict) -> dict:
    """Some object that has the member, the first of these, or an empty one."""
    return next((lender for lender in lenders if key in lender), {})


# Documents and coverages


def read_document(text: bytes) -> Document:
    """The document that a text stands for. Raises CoverageFault."""
    try:
        tree = read_json(text)
    except NotJson:
        raise CoverageFault("NotJson") from None
    _check(type(tree) is dict, "WrongType", "Document")
    kind = _member(tree, "type", "Kind")
    _check(kind in ("Coverage", "CoverageCollection"), "WrongType", "Kind")
    if kind == "Coverage":
        return Document([read_coverage(tree)], is_collection=False)
    coverages = _member_of_type(tree, "coverages", list, "Coverages")
    return Document([read_coverage(coverage, tree) for coverage in coverages], is_collection=True)


def read_coverage(tree, collection: dict | None = None) -> Coverage:
    """The coverage that a tree stands for, with what its collection lends it. Raises CoverageFault."""
    collection = collection or {}
    _check(type(tree) is dict, "WrongType", "Coverages")
    _check(_member(tree, "type", "Kind") == "Coverage", "WrongType", "Kind")
    domain_tree = _member_of_type(tree, "domain", dict, "Domain")
    domain, turned = _read_domain(domain_tree, _read_domain_type(domain_tree, tree, collection))
    referencing = _read_referencing(_lent("referencing", domain_tree, collection), domain)
    parameters = _read_parameters(_lent("parameters", tree, collection))
    ranges = _read_ranges(tree, domain, turned, parameters)
    id_ = tree.get("id")
    return Coverage(
        id=id_ if type(id_) is str else None,
        domain=domain,
        referencing=referencing,
        parameters=[parameters[key] for key in ranges],
        ranges=list(ranges.values()),
    )


# Domains


def _read_domain_type(domain: dict, coverage: dict, collection: dict) -> str:
    lender = _lent("domainType", domain, coverage, collection)
    domain_type = _member_of_type(lender, "domainType", str, "DomainType")
    _check(domain_type in DOMAIN_TYPES, "UnsupportedDomain", domain_type)
    return domain_type


def _read_domain(tree: dict, type_: str) -> tuple[Domain, set[str]]:
    """The domain, and which of its axes descend in the tree and were turned."""
    domain_type = DOMAIN_TYPES[type_]
    axes = _member_of_type(tree, "axes", dict, "Axes")
    _check(all(name in domain_type.axes for name in axes), "WrongType", "Axes")
    values, coordinates = {}, ()
    for name in AXES:
        if name in domain_type.needed:
            _member(axes, name, _member_name(name))
        if name not in axes:
            continue
        if name == COMPOSITE:
            coordinates, values[name] = _read_composite(axes[name], type_, "z" in axes)
        else:
            values[name] = _read_axis(axes[name], name)
        if name in domain_type.single:
            _check(len(values[name]) == 1, "WrongCount", _member_name(name), 1, len(values[name]))
    turned = {name for name in values if name != COMPOSITE and values[name][0] > values[name][-1]}
    for name in turned:
        values[name] = values[name][::-1]
    return Domain(type_, values, coordinates), turned


def _member_name(axis: str) -> str:
    return axis.capitalize()


def _read_axis(tree, name: str) -> Sequence[int]:
    """The values of an axis t, z, y or x, as the tree has them."""
    member = _member_name(name)
    _check(type(tree) is dict, "WrongType", member)
    if name == "t":
        values = _read_times(tree)
    elif "values" in tree:
        values = _read_list(tree["values"], member)
    else:
        values = _read_span(tree, member)
    ascends = all(before < after for before, after in zip(values, values[1:]))
    descends = all(before > after for before, after in zip(values, values[1:]))
    _check(ascends or descends, "NotMonotonic", member)
    return values


def _read_times(tree: dict) -> list[int]:
    texts = tree.get("values")
    _check(type(texts) is list and len(texts) > 0, "WrongType", "T")
    _check(all(type(text) is str for text in texts), "WrongType", "T")
    return [_read_time(text, place) for place, text in enumerate(texts)]


def _read_time(text: str, place: int) -> int:
    time = read_instant(text.encode("utf-8"))
    _check(time is not None, "BadTime", place)
    return time


def _read_list(numbers, member: str) -> list[int]:
    _check(type(numbers) is list and len(numbers) > 0, "WrongType", member)
    _check(all(map(is_number, numbers)), "WrongType", member)
    _check(all(map(is_whole, numbers)), "NotWhole", member)
    _check_each(map(limits.is_coordinate, numbers), "OutOfRangeAt", member)
    return numbers


def _read_span(tree: dict, member: str) -> Sequence[int]:
    """The values of an axis that is given by `start`, `stop` and `num`."""
    _check(all(is_number(tree.get(key)) for key in ("start", "stop", "num")), "WrongType", member)
    start, stop, num = tree["start"], tree["stop"], tree["num"]
    _check(all(map(is_whole, (start, stop, num))), "NotWhole", member)
    if num == 1:
        _check(start == stop, "NotWhole", member)
    if num > 1:
        _check((stop - start) % (num - 1) == 0, "NotWhole", member)
    _check(limits.is_coordinate(start) and limits.is_coordinate(stop), "OutOfRange", member)
    _check(1 <= num <= limits.SPANNED_VALUES, "OutOfRange", member)
    if start == stop:
        return [start] * num
    step = (stop - start) // (num - 1)
    return range(start, stop + step, step)


def _read_composite(tree, type_: str, has_axis_z: bool) -> tuple[tuple[str, ...], list[tuple[int, ...]]]:
    """The coordinates and the tuples of the axis `composite`."""
    _check(type(tree) is dict, "WrongType", "Composite")
    _check(tree.get("dataType") == "tuple", "WrongType", "Composite")
    coordinates = tree.get("coordinates")
    allowed = [list(names) for names in DOMAIN_TYPES[type_].coordinates if not (has_axis_z and "z" in names)]
    _check(coordinates in allowed, "WrongType", "Composite")
    rows = tree.get("values")
    _check(type(rows) is list and len(rows) > 0, "WrongType", "Composite")
    _check(all(_is_row(row, coordinates) for row in rows), "WrongType", "Composite")
    numbers = [[item for name, item in zip(coordinates, row) if name != "t"] for row in rows]
    _check(all(all(map(is_whole, row)) for row in numbers), "NotWhole", "Composite")
    _check_each((all(map(limits.is_coordinate, row)) for row in numbers), "OutOfRangeAt", "Composite")
    tuples = [_read_row(row, coordinates, place) for place, row in enumerate(rows)]
    if coordinates[0] == "t":
        in_order = all(before[0] <= after[0] for before, after in zip(tuples, tuples[1:]))
        _check(in_order, "NotMonotonic", "Composite")
    return tuple(coordinates), tuples


def _is_row(row, coordinates: list[str]) -> bool:
    if type(row) is not list or len(row) != len(coordinates):
        return False
    return all(type(item) is str if name == "t" else is_number(item) for name, item in zip(coordinates, row))


def _read_row(row: list, coordinates: list[str], place: int) -> tuple[int, ...]:
    return tuple(_read_time(item, place) if name == "t" else item for name, item in zip(coordinates, row))


# Reference systems


def _read_referencing(lender: dict, domain: Domain) -> Referencing:
    entries = _member_of_type(lender, "referencing", list, "Referencing")
    for entry in entries:
        is_entry = type(entry) is dict and "coordinates" in entry and "system" in entry
        _check(is_entry, "WrongType", "Referencing")
    horizontal = [entry["system"] for entry in entries if _holds(entry, "x") and _holds(entry, "y")]
    _check(len(horizontal) > 0, "Missing", "Referencing")
    type_ = _text_or_empty(horizontal[0], "type")
    _check(type_ == "ProjectedCRS", "UnsupportedSystem", type_)
    for entry in entries:
        if _text_or_empty(entry["system"], "type") == "TemporalRS":
            calendar = _text_or_empty(entry["system"], "calendar")
            _check(calendar == "Gregorian", "UnsupportedSystem", calendar)
    crs = _text_or_empty(horizontal[0], "id")
    return Referencing(crs, _vertical(entries) if domain.has("z") else None)


def _holds(entry: dict, coordinate: str) -> bool:
    return type(entry["coordinates"]) is list and coordinate in entry["coordinates"]


def _vertical(entries: list[dict]) -> str | None:
    """The text `id` of the first vertical system that holds z."""
    for entry in entries:
        if _text_or_empty(entry["system"], "type") == "VerticalCRS" and _holds(entry, "z"):
            id_ = entry["system"].get("id")
            return id_ if type(id_) is str else None
    return None


# Parameters


def _read_parameters(lender: dict) -> dict[str, Parameter]:
    """The parameters by their ids, which ascend."""
    trees = _member_of_type(lender, "parameters", dict, "Parameters")
    _check(all(map(is_name, trees)), "WrongType", "Parameters")
    _check(all(type(tree) is dict for tree in trees.values()), "WrongType", "Parameters")
    return {key: _read_parameter(key, trees[key]) for key in sorted(trees)}


def _read_parameter(key: str, tree: dict) -> Parameter:
    observed = _member_of_type(tree, "observedProperty", dict, "ObservedProperty")
    label = _label(observed)
    _check(label is not None and "categories" not in observed, "WrongType", "ObservedProperty")
    unit = None
    if "unit" in tree:
        unit = _unit(tree["unit"])
        _check(unit is not None, "WrongType", "Unit")
    language, text = label
    return Parameter(key, language, text, unit)


def _label(tree: dict) -> tuple[str, str] | None:
    """The language and the text of the label that is kept, or None where `label` is no object of texts or is empty."""
    texts = tree.get("label")
    if type(texts) is not dict or not texts or any(type(text) is not str for text in texts.values()):
        return None
    language = "en" if "en" in texts else min(texts)
    return language, texts[language]


def _unit(tree) -> str | None:
    """The text that a unit gives, or None where it gives none."""
    if type(tree) is not dict:
        return None
    symbol = tree.get("symbol")
    if type(symbol) is str:
        return symbol
    if type(symbol) is dict:
        value = symbol.get("value")
        return value if type(value) is str else None
    label = _label(tree)
    return None if label is None else label[1]


# Ranges


def _read_ranges(
    tree: dict, domain: Domain, turned: set[str], parameters: dict[str, Parameter]
) -> dict[str, list[int | None]]:
    """The values of each range at the places of the domain, by the ids of the parameters, which ascend."""
    trees = _member_of_type(tree, "ranges", dict, "Ranges")
    _check(len(trees) > 0, "WrongCount", "Ranges", 1, 0)
    ranges = {}
    for key in sorted(trees):
        _check(key in parameters, "Missing", "Parameters")
        ranges[key] = _read_range(trees[key], domain, turned)
    return ranges


def _read_range(tree, domain: Domain, turned: set[str]) -> list[int | None]:
    _check(type(tree) is dict, "WrongType", "Ranges")
    type_ = _text_or_empty(tree, "type")
    _check(type_ == "NdArray", "UnsupportedRange", type_)
    _member(tree, "dataType", "DataType")
    data_type = _text_or_empty(tree, "dataType")
    _check(data_type == "integer", "UnsupportedRange", data_type)
    names = _read_axis_names(tree, domain)
    _check_shape(tree, domain, names)
    values = _read_values(tree, domain.count())
    return _in_order(values, domain, turned, names)


def _several(domain: Domain) -> list[str]:
    """The axes of several values."""
    return [name for name, values in domain.axes.items() if len(values) > 1]


def _read_axis_names(tree: dict, domain: Domain) -> list[str]:
    if "axisNames" not in tree:
        _check(not _several(domain), "Missing", "AxisNames")
        return []
    names = tree["axisNames"]
    _check(type(names) is list, "WrongType", "AxisNames")
    _check(all(type(name) is str and name in domain.axes for name in names), "WrongType", "AxisNames")
    _check(len(set(names)) == len(names), "WrongType", "AxisNames")
    _check(all(name in names for name in _several(domain)), "WrongType", "AxisNames")
    return names


def _check_shape(tree: dict, domain: Domain, names: list[str]) -> None:
    if "shape" not in tree:
        _check(not _several(domain), "Missing", "Shape")
        return
    shape = tree["shape"]
    _check(type(shape) is list, "WrongType", "Shape")
    _check(all(is_whole(number) and number >= 0 for number in shape), "WrongType", "Shape")
    _check(len(shape) == len(names), "WrongCount", "Shape", len(names), len(shape))
    for name, found in zip(names, shape):
        wanted = len(domain.axes[name])
        _check(found == wanted, "WrongCount", "Shape", wanted, found)


def _read_values(tree: dict, wanted: int) -> list[int | None]:
    values = _member_of_type(tree, "values", list, "Values")
    _check(len(values) == wanted, "WrongCount", "Values", wanted, len(values))
    numbers = [value for value in values if value is not None]
    _check(all(map(is_number, numbers)), "WrongType", "Values")
    _check(all(map(is_whole, numbers)), "NotWhole", "Values")
    _check_each((value is None or limits.is_sample(value) for value in values), "OutOfRangeAt", "Values")
    return values


def _in_order(values: list, domain: Domain, turned: set[str], names: list[str]) -> list:
    """The value at each place of the domain, where the tree has it in the order of `names`, before axes were turned."""
    axes = domain.axes
    if not turned and names == [name for name in axes if name in names]:
        return values
    steps = {name: math.prod(len(axes[after]) for after in names[place + 1 :]) for place, name in enumerate(names)}
    in_order = []
    for places in product(*(range(len(axes[name])) for name in axes)):
        number = 0
        for name, place in zip(axes, places):
            if name in steps:
                number += steps[name] * (len(axes[name]) - 1 - place if name in turned else place)
        in_order.append(values[number])
    return in_order
