"""Ranges."""

import math

from plain.valid.faults import Faults
from plain.valid.texts import is_number, is_whole

_RANGE_TYPES = {
    "float": is_number,
    "integer": is_whole,
    "string": lambda value: isinstance(value, str),
}


def check_range(faults: Faults, where: str, tree, axes: dict[str, int] | None) -> None:
    if isinstance(tree, str):
        return  # a URL
    if not faults.is_object(where, tree):
        return
    kind = tree.get("type")
    if kind == "TiledNdArray":
        check_tiled_array(faults, where, tree)
    elif faults.needs(f"{where}.type", kind == "NdArray", "is neither NdArray nor TiledNdArray"):
        check_array(faults, where, tree, axes)


def check_array(faults: Faults, where: str, tree: dict, axes: dict[str, int] | None) -> None:
    """NdArray objects, beside the lengths of a domain's axes where they are known."""
    shape, names = tree.get("shape", []), tree.get("axisNames", [])
    good = isinstance(shape, list) and all(is_whole(length) and length >= 0 for length in shape)
    good &= isinstance(names, list) and all(isinstance(name, str) for name in names)
    if not faults.needs(where, good, "has a shape that isn't of whole numbers, or axisNames that aren't of texts"):
        return
    faults.needs(where, len(shape) == len(names), "has a shape and axisNames of different lengths")
    values = tree.get("values")
    if not faults.needs(f"{where}.values", isinstance(values, list) and len(values) > 0, "are no list, or an empty one"):
        return
    faults.needs(f"{where}.values", len(values) == math.prod(shape), f"are {len(values)}, and the shape has {math.prod(shape)}")
    _check_values(faults, where, tree.get("dataType"), values)
    if axes is not None and len(shape) == len(names):
        _check_shape(faults, where, dict(zip(names, shape)), len(names), axes)


def _check_values(faults: Faults, where: str, kind, values: list) -> None:
    if faults.needs(f"{where}.dataType", isinstance(kind, str) and kind in _RANGE_TYPES, "is none of float, integer and string"):
        is_good = _RANGE_TYPES[kind]
        faults.needs(f"{where}.values", all(value is None or is_good(value) for value in values), f"aren't all null or {kind}")


def _check_shape(faults: Faults, where: str, lengths: dict[str, int], count: int, axes: dict[str, int]) -> None:
    """The shape of a range beside its domain: axes of one value may be left out."""
    faults.needs(f"{where}.axisNames", len(lengths) == count, "have a name twice")
    for name, length in lengths.items():
        faults.needs(f"{where}.axisNames", name in axes, f"have {name!r}, which is no axis")
        faults.needs(f"{where}.shape", axes.get(name, length) == length, f"has {length} along {name}, and the axis {axes.get(name)}")
    for name, length in axes.items():
        faults.needs(f"{where}.axisNames", length == 1 or name in lengths, f"lack {name}, which has several values")


def check_tiled_array(faults: Faults, where: str, tree: dict) -> None:
    """TiledNdArray objects; their tiles stand elsewhere."""
    kind = tree.get("dataType")
    faults.needs(f"{where}.dataType", isinstance(kind, str) and kind in _RANGE_TYPES, "is none of float, integer and string")
    faults.is_list_of_texts(f"{where}.axisNames", tree.get("axisNames"))
    shape, sets = tree.get("shape"), tree.get("tileSets")
    good = isinstance(shape, list) and all(map(is_whole, shape)) and len(shape) == len(tree.get("axisNames") or [])
    faults.needs(f"{where}.shape", good, "isn't a whole number for each axis")
    if not faults.needs(f"{where}.tileSets", isinstance(sets, list) and len(sets) > 0, "are no list, or an empty one"):
        return
    for place, each in enumerate(sets):
        good = isinstance(each, dict) and isinstance(each.get("tileShape"), list) and isinstance(each.get("urlTemplate"), str)
        faults.needs(f"{where}.tileSets[{place}]", good, "has no tileShape and urlTemplate")
