"""Targets: the page that a path and a query text ask for, or the first refusal that applies."""

from plain.profile.levels import At, Levels, read_levels
from plain.profile.refusals import Refused
from plain.profile.targets.pages import Area, Corridor, Cube, Description, Location, Page, Position, Query, Radius, Shape, Trajectory
from plain.profile.targets.paths import AskedQuery, page_of_path
from plain.profile.targets.values import names_once, pairs_of, read_box, read_distance, read_geometry
from plain.profile.times import Times, read_times
from plain.profile.well_known_text import Geometry

_DESCRIPTION_FORMATS = (b"json", b"application/json")
_QUERY_FORMATS = (b"coveragejson", b"json", b"application/prs.coverage+json")

REQUIRED = {
    "position": ("coords",),
    "area": ("coords",),
    "trajectory": ("coords",),
    "radius": ("coords", "within", "within-units"),
    "cube": ("bbox",),
    "corridor": ("coords", "corridor-width", "width-units"),
    "location": (),
}
_HEIGHT = ("corridor-height", "height-units")
_OF_ALL_QUERIES = ("datetime", "z", "parameter-name", "crs", "f")

# Each number, with its unit.
_DISTANCES = (("within", "within-units"), ("corridor-width", "width-units"), _HEIGHT)

# The tags and dims that each query takes.
_LINES = [("LINESTRING", dims) for dims in ("", "Z", "M", "ZM")]
GEOMETRIES = {
    "position": [("POINT", ""), ("POINT", "Z"), ("MULTIPOINT", "")],
    "radius": [("POINT", ""), ("POINT", "Z")],
    "area": [("POLYGON", ""), ("MULTIPOLYGON", "")],
    "trajectory": _LINES,
    "corridor": _LINES,
}


class _Target:
    """A target: what its path names and its pairs. A value is None where it is absent or can't be read."""

    def __init__(self, target: bytes):
        path, _, query_text = target.partition(b"?")
        self.page = page_of_path(path)
        self.pairs = pairs_of(query_text)
        self.values = dict(self.pairs)

    def query(self) -> str | None:
        """The query, where the page is one."""
        return self.page.query if isinstance(self.page, AskedQuery) else None

    def has(self, name: str) -> bool:
        """Whether a parameter is there."""
        return name in self.values

    def required(self) -> tuple[str, ...]:
        """The parameters that the page always needs."""
        return REQUIRED[self.query()] if self.query() else ()

    def taken(self) -> tuple[str, ...]:
        """The parameters that the page takes."""
        if self.query() is None:
            return ("f",)
        heights = _HEIGHT if self.query() == "corridor" else ()
        return self.required() + heights + _OF_ALL_QUERIES

    def formats(self) -> tuple[bytes, ...]:
        """The formats of the page, in small letters."""
        return _QUERY_FORMATS if self.query() else _DESCRIPTION_FORMATS

    def read(self, name: str, read_value):
        """A value as a reader of bytes has it."""
        return read_value(self.values[name].encode("utf-8")) if self.has(name) else None

    def geometry(self) -> Geometry | None:
        return self.read("coords", read_geometry)

    def box(self) -> Cube | None:
        return self.read("bbox", read_box)

    def times(self) -> Times | None:
        return self.read("datetime", read_times)

    def levels(self) -> Levels | None:
        return self.read("z", read_levels)

    def distance(self, number: str, unit: str) -> int | None:
        """A number with its unit, in metres."""
        if not self.has(number) or not self.has(unit):
            return None
        return read_distance(self.values[number].encode("utf-8"), self.values[unit].encode("utf-8"))

    def is_line_with_z(self) -> bool:
        """Whether the geometry is a line that has z."""
        geometry = self.geometry()
        return geometry is not None and geometry.tag == "LINESTRING" and "Z" in geometry.dims


# The refusals, each asked of the whole target


def _no_such_page(target: _Target) -> bool:
    return target.page is None


def _unknown_parameter(target: _Target) -> bool:
    return any(name not in target.taken() for name, _ in target.pairs)


def _repeated_parameter(target: _Target) -> bool:
    return len(target.values) < len(target.pairs)


def _bad_format(target: _Target) -> bool:
    return target.has("f") and target.values["f"].encode("utf-8").lower() not in target.formats()


def _missing_parameter(target: _Target) -> bool:
    if not all(map(target.has, target.required())):
        return True
    if target.query() != "corridor":
        return False
    heights = [name for name in _HEIGHT if target.has(name)]
    return len(heights) == 1 or not heights and target.is_line_with_z()


def _bad_coords(target: _Target) -> bool:
    return target.has("coords") and target.geometry() is None


def _wrong_geometry(target: _Target) -> bool:
    geometry = target.geometry()
    return geometry is not None and (geometry.tag, geometry.dims) not in GEOMETRIES.get(target.query(), ())


def _bad_bbox(target: _Target) -> bool:
    return target.has("bbox") and target.box() is None


def _bad_datetime(target: _Target) -> bool:
    return target.has("datetime") and target.times() is None


def _bad_level(target: _Target) -> bool:
    return target.has("z") and target.levels() is None


def _bad_distance(target: _Target) -> bool:
    there = [pair for pair in _DISTANCES if all(map(target.has, pair))]
    return any(target.distance(*pair) is None for pair in there)


def _conflict(target: _Target) -> bool:
    return _two_times(target) or _two_levels(target) or _levels_of_box_too(target) or _height_of_several_levels(target)


def _two_times(target: _Target) -> bool:
    geometry = target.geometry()
    return geometry is not None and "M" in geometry.dims and target.times() is not None


def _two_levels(target: _Target) -> bool:
    geometry = target.geometry()
    return geometry is not None and "Z" in geometry.dims and target.levels() is not None


def _levels_of_box_too(target: _Target) -> bool:
    box = target.box()
    return box is not None and box.levels is not None and target.levels() is not None


def _height_of_several_levels(target: _Target) -> bool:
    geometry, levels = target.geometry(), target.levels()
    if geometry is None or "Z" in geometry.dims or not target.has("corridor-height"):
        return False
    return levels is not None and not isinstance(levels, At)


# In the order of their numbers. Where the path names no page, no other applies.
_REFUSALS = [
    ("NoSuchPage", _no_such_page),
    ("UnknownParameter", _unknown_parameter),
    ("RepeatedParameter", _repeated_parameter),
    ("BadFormat", _bad_format),
    ("MissingParameter", _missing_parameter),
    ("BadCoords", _bad_coords),
    ("WrongGeometry", _wrong_geometry),
    ("BadBbox", _bad_bbox),
    ("BadDatetime", _bad_datetime),
    ("BadLevel", _bad_level),
    ("BadDistance", _bad_distance),
    ("Conflict", _conflict),
]


def read_target(target: bytes) -> Page:
    """The page that a target asks for. Raises Refused with the first refusal that applies."""
    read = _Target(target)
    for name, applies in _REFUSALS:
        if applies(read):
            raise Refused(name)
    return read.page if isinstance(read.page, Description) else _query(read)


def _query(target: _Target) -> Query:
    """The query of a target that no refusal applies to."""
    page = target.page
    names = target.values.get("parameter-name")
    parameters = None if names is None else names_once(names)
    shape = _shape(target)
    return Query(page.collection, page.instance, shape, target.times(), target.levels(), parameters, target.values.get("crs"))


def _shape(target: _Target) -> Shape:
    geometry = target.geometry()
    match target.query():
        case "position":
            return Position(geometry)
        case "radius":
            return Radius(geometry, target.distance("within", "within-units"))
        case "area":
            return Area(geometry)
        case "cube":
            return target.box()
        case "trajectory":
            return Trajectory(geometry)
        case "corridor":
            return Corridor(geometry, target.distance("corridor-width", "width-units"), target.distance(*_HEIGHT))
    return Location(target.page.location)
