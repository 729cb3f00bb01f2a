"""Tries the validator on documents that are valid, and on each of them with one member changed, which aren't.

Each row names a document, the path of a member, what stands there (or that it is dropped), and the beginning of the line that says so;
without a line the document stays valid.
"""

import copy
import json

from plain.valid.document import faults_of

_DROP = object()

_TIMES = ["2024-01-01T00:00:00Z", "2024-01-01T01:00:00Z"]
_REFERENCING = [
    {"coordinates": ["x", "y"], "system": {"type": "ProjectedCRS", "id": "local"}},
    {"coordinates": ["z"], "system": {"type": "VerticalCRS"}},
    {"coordinates": ["t"], "system": {"type": "TemporalRS", "calendar": "Gregorian"}},
]
_PARAMETER = {"type": "Parameter", "observedProperty": {"label": {"en": "Temperature"}}, "unit": {"symbol": "Cel"}}


def _coverage(kind: str, axes: dict, names: list[str], shape: list[int], values: list) -> dict:
    has = set(axes) | {each for axis in axes.values() for each in axis.get("coordinates", [])}
    referencing = [each for each in _REFERENCING if set(each["coordinates"]) <= has]
    found = {
        "type": "Coverage",
        "domain": {"type": "Domain", "domainType": kind, "axes": axes, "referencing": referencing},
        "parameters": {"temp": _PARAMETER},
        "ranges": {"temp": {"type": "NdArray", "dataType": "integer", "axisNames": names, "shape": shape, "values": values}},
    }
    return copy.deepcopy(found)


def _axis(*values) -> dict:
    return {"values": list(values)}


def _tuples(names: str, *values) -> dict:
    return {"dataType": "tuple", "coordinates": names.split(), "values": list(values)}


_SPOT = {"x": _axis(0), "y": _axis(0)}
_RING = [[0, 0], [1, 0], [1, 1], [0, 0]]

DOCUMENTS = {
    "Grid": _coverage("Grid", {"x": {"start": 0, "stop": 200, "num": 3}, "y": _axis(0, 100), "t": _axis(*_TIMES)}, ["t", "y", "x"], [2, 2, 3], [1, None] * 6),
    "Levels": _coverage("Grid", {**_SPOT, "z": _axis(5, 10), "t": _axis(*_TIMES)}, ["t", "z"], [2, 2], [1, 2, 3, 4]),
    "Point": _coverage("Point", {**_SPOT, "t": _axis(_TIMES[0])}, [], [], [1]),
    "PointSeries": _coverage("PointSeries", {**_SPOT, "t": _axis(*_TIMES)}, ["t"], [2], [1, 2]),
    "VerticalProfile": _coverage("VerticalProfile", {**_SPOT, "z": _axis(5, 10)}, ["z"], [2], [1, 2]),
    "MultiPoint": _coverage("MultiPoint", {"composite": _tuples("x y", [0, 0], [1, 0]), "t": _axis(_TIMES[0])}, ["composite"], [2], [1, 2]),
    "Trajectory": _coverage("Trajectory", {"composite": _tuples("t x y", [_TIMES[0], 0, 0], [_TIMES[1], 1, 0])}, ["composite"], [2], [1, 2]),
    "Section": _coverage("Section", {"composite": _tuples("t x y", [_TIMES[0], 0, 0]), "z": _axis(5, 10)}, ["composite", "z"], [1, 2], [1, 2]),
    "Polygon": _coverage("Polygon", {"composite": {"dataType": "polygon", "coordinates": ["x", "y"], "values": [[_RING]]}}, [], [], [1]),
}
DOCUMENTS["Collection"] = {
    "type": "CoverageCollection",
    "domainType": "Point",
    "parameters": {"temp": _PARAMETER},
    "referencing": _REFERENCING,
    "coverages": [{"type": "Coverage", "domain": {"type": "Domain", "axes": {**_SPOT, "z": _axis(2), "t": _axis("2024-01")}},
                   "ranges": {"temp": {"type": "NdArray", "dataType": "integer", "values": [1]}}}],
}

_TEMP = "parameters temp"
_RANGE = "ranges temp"
_AXES = "domain axes"

# The document, the path, what stands there, and how the line begins that says what is wrong.
ROWS = [
    # what stays valid
    ("Grid", f"{_RANGE} dataType", "float", ""),
    ("Grid", f"{_RANGE} values", [1.0] * 12, ""),
    ("Grid", f"{_AXES} t values", _TIMES[::-1], ""),
    ("Grid", f"{_AXES} t values", ["2024", "2025-06-01"], ""),
    ("Grid", f"{_AXES} t values", ["-10000-06-01", "0000-02-29T00:00:00.5+01:00"], ""),
    ("Grid", f"{_AXES} y values", [0.5, 1e3], ""),
    ("Grid", f"{_AXES} y bounds", [0, 50, 50, 150], ""),
    ("Grid", "domain domainType", _DROP, ""),
    ("Grid", "domain referencing 0 system type", "GeographicCRS", ""),
    ("Grid", f"{_TEMP} unit", _DROP, ""),
    ("Grid", f"{_TEMP} unit", {"label": {"de-AT": "Grad"}}, ""),
    ("Grid", f"{_TEMP} unit symbol", {"value": "Cel", "type": "http://www.opengis.net/def/uom/UCUM/"}, ""),
    ("Grid", f"{_TEMP} observedProperty label", {"zh-Hant-TW": "a", "x-private": "b", "i-klingon": "c", "und": "d"}, ""),
    ("Grid", _RANGE, "http://example.com/range", ""),
    ("Grid", "domain", "http://example.com/domain", ""),
    ("Grid", "more", {"a": 1}, ""),
    ("Point", "domain axes x values", [-0.25], ""),
    ("Collection", "coverages", [], ""),
    # the document
    ("Grid", "type", "Coverages", "document.type"),
    ("Grid", "type", _DROP, "document.type"),
    ("Grid", "id", 5, "coverage.id"),
    # coverages and collections
    ("Grid", "domain", _DROP, "coverage.domain"),
    ("Grid", "domain type", "Grid", "coverage.domain.type"),
    ("Grid", "domainType", "Point", "coverage.domainType"),
    ("Grid", "parameters", _DROP, "coverage.parameters"),
    ("Grid", "ranges", _DROP, "coverage.ranges"),
    ("Grid", "ranges wind", {"type": "NdArray", "dataType": "integer", "values": [1]}, "coverage.ranges.wind"),
    ("Collection", "coverages", _DROP, "collection.coverages"),
    ("Collection", "coverages 0", 1, "coverages[0]"),
    ("Collection", "coverages 0 type", "Domain", "coverages[0].type"),
    ("Collection", "parameters", _DROP, "coverages[0].parameters"),
    ("Collection", "referencing", _DROP, "coverages[0].domain.referencing"),
    ("Collection", "domainType", "Grids", ""),
    ("Collection", "domainType", 5, "collection.domainType"),
    ("Collection", "coverages 0 domain domainType", "Grid", "coverages[0].domain.domainType"),
    # axes
    ("Grid", f"{_AXES} x", _DROP, "coverage.domain.axes: lack x"),
    ("Grid", f"{_AXES} x num", 0, "coverage.domain.axes.x.num"),
    ("Grid", f"{_AXES} x num", 2.5, "coverage.domain.axes.x"),
    ("Grid", f"{_AXES} x stop", _DROP, "coverage.domain.axes.x"),
    ("Grid", f"{_AXES} x stop", 0, "coverage.domain.axes.x"),
    ("Grid", f"{_AXES} x", {"start": 0, "stop": 1, "num": 1}, "coverage.domain.axes.x"),
    ("Grid", f"{_AXES} x", {"values": []}, "coverage.domain.axes.x.values"),
    ("Grid", f"{_AXES} y values", [0, 0], "coverage.domain.axes.y.values"),
    ("Grid", f"{_AXES} y values", [0, "1"], "coverage.domain.axes.y.values"),
    ("Grid", f"{_AXES} y values", ["0", "1"], "coverage.domain.axes.y"),
    ("Grid", f"{_AXES} y bounds", [0, 50], "coverage.domain.axes.y.bounds"),
    ("Grid", f"{_AXES} t values", ["2024-01-01T00:00:00Z", "2024-02-30T00:00:00Z"], "coverage.domain.axes.t.values"),
    ("Grid", f"{_AXES} t values", ["2024-01-01T00:00Z", "2024-01-02T00:00Z"], "coverage.domain.axes.t.values"),
    ("Grid", f"{_AXES} t values", ["2024-01-01T01:00:00Z", "2024-01-01T01:00:00+00:00"], "coverage.domain.axes.t.values"),
    ("Grid", f"{_AXES} t values", ["2024-01-01T00:30:00+01:00", "2023-12-31T23:00:00Z"], ""),
    ("Grid", f"{_AXES} t", {"start": 0, "stop": 1, "num": 2}, "coverage.domain.axes.t"),
    ("Grid", f"{_AXES} member", _axis(1), "coverage.domain.axes: have member"),
    ("Grid", "domain domainType", "Point", "coverage.domain.axes.x: has several"),
    ("Point", "domain domainType", "PointSeries", ""),
    ("Point", "domain domainType", "VerticalProfile", "coverage.domain.axes: lack z"),
    ("VerticalProfile", "domain domainType", "PointSeries", "coverage.domain.axes: lack t"),
    ("MultiPoint", f"{_AXES} composite dataType", "polygon", "coverage.domain.axes.composite.values"),
    ("MultiPoint", f"{_AXES} composite dataType", "primitive", "coverage.domain.axes.composite.coordinates"),
    ("MultiPoint", f"{_AXES} composite coordinates", ["y", "x"], "coverage.domain.axes.composite.coordinates"),
    ("MultiPoint", f"{_AXES} composite coordinates", ["x", "y", "z"], "coverage.domain.axes.composite.values"),
    ("MultiPoint", f"{_AXES} composite values 1", [0], "coverage.domain.axes.composite.values"),
    ("MultiPoint", f"{_AXES} composite values 1", [0, "a"], "coverage.domain.axes.composite"),
    ("MultiPoint", f"{_AXES} t values", _TIMES, "coverage.domain.axes.t"),
    ("Trajectory", f"{_AXES} composite values 0 0", "2024-01-01T02:00:00Z", "coverage.domain.axes.composite.values"),
    ("Trajectory", f"{_AXES} composite values 0 0", _TIMES[1], ""),
    ("Trajectory", f"{_AXES} composite values 0 0", "now", "coverage.domain.axes.composite"),
    ("Trajectory", f"{_AXES} z", _axis(1), "coverage.domain.referencing: has no"),
    ("Section", f"{_AXES} z", _DROP, "coverage.domain.axes: lack z"),
    ("Polygon", f"{_AXES} composite values", [[_RING[:3]]], "coverage.domain.axes.composite.values"),
    ("Polygon", f"{_AXES} composite values", [[_RING], [_RING]], "coverage.domain.axes.composite: has several"),
    # reference systems
    ("Grid", "domain referencing", _DROP, "coverage.domain.referencing"),
    ("Grid", "domain referencing", [], "coverage.domain.referencing: has no"),
    ("Grid", "domain referencing 0 coordinates", [], "coverage.domain.referencing[0].coordinates"),
    ("Grid", "domain referencing 0 coordinates", ["x"], "coverage.domain.referencing: has no"),
    ("Grid", "domain referencing 0 coordinates", ["x", "y", "q"], "coverage.domain.referencing: names 'q'"),
    ("Grid", "domain referencing 0 system", _DROP, "coverage.domain.referencing[0].system"),
    ("Grid", "domain referencing 0 system type", "VerticalCRS", "coverage.domain.referencing: has no"),
    ("Grid", "domain referencing 0 system id", 5, "coverage.domain.referencing[0].system.id"),
    ("Grid", "domain referencing 1 system calendar", _DROP, "coverage.domain.referencing[1].system.calendar"),
    ("Levels", "domain referencing 1 system type", "TemporalRS", "coverage.domain.referencing"),
    # parameters
    ("Grid", f"{_TEMP} type", _DROP, "coverage.parameters.temp.type"),
    ("Grid", f"{_TEMP} label", "Temperature", "coverage.parameters.temp.label"),
    ("Grid", f"{_TEMP} observedProperty", _DROP, "coverage.parameters.temp.observedProperty"),
    ("Grid", f"{_TEMP} observedProperty label", _DROP, "coverage.parameters.temp.observedProperty.label"),
    ("Grid", f"{_TEMP} observedProperty label", {"en": 1}, "coverage.parameters.temp.observedProperty.label"),
    ("Grid", f"{_TEMP} observedProperty label", {" en": "a"}, "coverage.parameters.temp.observedProperty.label"),
    ("Grid", f"{_TEMP} observedProperty label", {"": "a"}, "coverage.parameters.temp.observedProperty.label"),
    ("Grid", f"{_TEMP} observedProperty label", {"in English": "a"}, "coverage.parameters.temp.observedProperty.label"),
    ("Grid", f"{_TEMP} observedProperty categories", [{"id": "a", "label": {"en": "A"}}], "coverage.parameters.temp.unit"),
    ("Grid", f"{_TEMP} unit", {}, "coverage.parameters.temp.unit"),
    ("Grid", f"{_TEMP} unit symbol", 5, "coverage.parameters.temp.unit.symbol"),
    ("Grid", f"{_TEMP} unit symbol", {"value": "Cel"}, "coverage.parameters.temp.unit.symbol"),
    # ranges
    ("Grid", f"{_RANGE} type", "Array", "coverage.ranges.temp.type"),
    ("Grid", f"{_RANGE} type", "TiledNdArray", "coverage.ranges.temp.tileSets"),
    ("Grid", f"{_RANGE} dataType", _DROP, "coverage.ranges.temp.dataType"),
    ("Grid", f"{_RANGE} dataType", "string", "coverage.ranges.temp.values"),
    ("Grid", f"{_RANGE} values", _DROP, "coverage.ranges.temp.values"),
    ("Grid", f"{_RANGE} values", [1] * 11, "coverage.ranges.temp.values"),
    ("Grid", f"{_RANGE} values", [0.5] * 12, "coverage.ranges.temp.values"),
    ("Grid", f"{_RANGE} values", [True] * 12, "coverage.ranges.temp.values"),
    ("Grid", f"{_RANGE} shape", _DROP, "coverage.ranges.temp: has a shape"),
    ("Grid", f"{_RANGE} shape", [2, 3, 2], "coverage.ranges.temp.shape"),
    ("Grid", f"{_RANGE} axisNames", ["t", "x", "y"], "coverage.ranges.temp.shape"),
    ("Grid", f"{_RANGE} axisNames", ["t", "t", "x"], "coverage.ranges.temp.axisNames"),
    ("Grid", f"{_RANGE} axisNames", ["t", "z", "x"], "coverage.ranges.temp.axisNames"),
    ("Levels", f"{_RANGE} axisNames", ["z", "t"], ""),
    ("PointSeries", _RANGE, {"type": "NdArray", "dataType": "integer", "values": [1]}, "coverage.ranges.temp.axisNames: lack t"),
    ("Point", f"{_RANGE} values", [], "coverage.ranges.temp.values"),
    ("Point", f"{_RANGE} values", [1, 2], "coverage.ranges.temp.values"),
]

# Texts that are no documents.
BAD_TEXTS = [b"", b"[]", b"{", b'"Coverage"', b'{"type":"Coverage","type":"Domain"}', b'{"type":NaN}', b'{"type":"\xff"}', b"\xef\xbb\xbf{}"]


def changed(tree: dict, path: str, value) -> dict:
    """A document with another member at a path."""
    tree = holder = copy.deepcopy(tree)
    *front, last = [int(name) if name.isdigit() else name for name in path.split()]
    for name in front:
        holder = holder[name]
    if value is _DROP:
        del holder[last]
    else:
        holder[last] = value
    return tree


def differences() -> tuple[int, list[str]]:
    """How many rows there are, and what is told of each that the validator answers otherwise."""
    found = [f"valid {name}: {faults}" for name, tree in DOCUMENTS.items() if (faults := faults_of(json.dumps(tree).encode()))]
    for name, path, value, line in ROWS:
        faults = faults_of(json.dumps(changed(DOCUMENTS[name], path, value)).encode())
        good = any(fault.startswith(line) for fault in faults) if line else not faults
        if not good:
            found.append(f"{name} with {path} {'dropped' if value is _DROP else value!r}: {faults}, wanted {line or 'none'}")
    found += [f"{text!r}: valid" for text in BAD_TEXTS if not faults_of(text)]
    return len(DOCUMENTS) + len(ROWS) + len(BAD_TEXTS), found
