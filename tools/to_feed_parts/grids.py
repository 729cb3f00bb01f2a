"""The grid of a field as it stands in the file: two axes, in degrees or in metres of a projection."""

from dataclasses import dataclass

import numpy
import pyproj

from . import roles, systems
from .faults import Refused
from .fields import Field
from .roles import metres_of, text_of


@dataclass(frozen=True)
class FileGrid:
    """Two axes, each ascending, in the units of a system; an axis that is turned descends in the file."""

    x_dimension: str
    y_dimension: str
    x: numpy.ndarray
    y: numpy.ndarray
    x_order: numpy.ndarray  # the place in the file of each value of x
    y_order: numpy.ndarray
    system: object

    @property
    def in_degrees(self) -> bool:
        return self.system.is_geographic

    def is_like(self, other: "FileGrid") -> bool:
        same = all(
            numpy.array_equal(one, two)
            for one, two in ((self.x, other.x), (self.y, other.y), (self.x_order, other.x_order), (self.y_order, other.y_order))
        )
        return same and self.system == other.system


def grid_of(field: Field, file_code: int | None) -> FileGrid | None:
    """The grid of a field, or none where no two of its dimensions look like one."""
    systems.check_not_rotated(field)
    x, y = field.dimension_of(roles.X), field.dimension_of(roles.Y)
    if x and y:
        return _projected(field, x, y, file_code)
    x, y = field.dimension_of(roles.LONGITUDE), field.dimension_of(roles.LATITUDE)
    if x and y:
        return _in_degrees(field, x, y)
    if field.dimension_of(roles.ROTATED):
        raise Refused(
            f"{field.name}: its grid has rotated poles (`{field.dimension_of(roles.ROTATED)}`), which isn't taken; "
            f"bring it to longitudes and latitudes first, as `cdo remapnn` does"
        )
    return _of_places(field)


def _of_places(field: Field) -> FileGrid | None:
    """A grid whose places stand as longitudes and latitudes node by node: taken where GRIB tells its projection."""
    kind = text_of(field.attributes, "GRIB_gridType")
    latitudes = [name for name in field.named(roles.LATITUDE) if len(field.coordinates[name].dims) == 2]
    system = systems.grib_system(field) if latitudes else None
    if system is not None:
        return _of_grib(field, system)
    if not kind and not latitudes:
        return None
    told = f"its grid is of the kind `{kind}`" if kind else f"its places stand node by node (`{latitudes[0]}`) and not along axes"
    raise Refused(f"{field.name}: {told}, which isn't taken; bring it to longitudes and latitudes first, as `cdo remapnn` does")


def _ascending(field: Field, name: str, values: numpy.ndarray) -> tuple[numpy.ndarray, numpy.ndarray]:
    """The values of an axis in ascending order, and the place of each in the file."""
    steps = numpy.diff(values)
    if not numpy.all(numpy.isfinite(values)) or not (numpy.all(steps > 0) or numpy.all(steps < 0)):
        raise Refused(f"{field.name}: its axis `{name}` neither ascends nor descends throughout; sort the file along it first")
    order = numpy.arange(len(values))
    return (values, order) if len(values) < 2 or steps[0] > 0 else (values[::-1], order[::-1])


def _unpacked(field: Field, name: str) -> numpy.ndarray:
    """The values of an axis as numbers with decimals, unpacked."""
    held = field.coordinates[name]
    numbers = numpy.asarray(held.values).astype(float)
    return numbers * float(held.attrs.get("scale_factor", 1)) + float(held.attrs.get("add_offset", 0))


def _projected(field: Field, x_dimension: str, y_dimension: str, file_code) -> FileGrid:
    system = systems.projected_system(field, file_code)
    if not system.is_projected:
        raise Refused(f"{field.name}: its axes x and y are metres, and `{system.name}` isn't projected; --file-crs CODE would say the system")
    axes = []
    for dimension, axis in ((x_dimension, system.axis_info[0]), (y_dimension, system.axis_info[1])):
        name = field.along(dimension)
        metres = _unpacked(field, name) * metres_of(text_of(field.coordinates[name].attrs, "units"))
        axes.append(_ascending(field, name, metres / axis.unit_conversion_factor))
    (x, x_order), (y, y_order) = axes
    return FileGrid(x_dimension, y_dimension, x, y, x_order, y_order, system)


def _in_degrees(field: Field, x_dimension: str, y_dimension: str) -> FileGrid:
    x_name, y_name = field.along(x_dimension), field.along(y_dimension)
    system = systems.mapped_system(field)
    if system is None or not system.is_geographic:
        system = systems.geographic()
    longitudes = numpy.unwrap(_unpacked(field, x_name), period=360)
    x, x_order = _ascending(field, x_name, longitudes)
    y, y_order = _ascending(field, y_name, _unpacked(field, y_name))
    return FileGrid(x_dimension, y_dimension, x, y, x_order, y_order, system)


def _of_grib(field: Field, system) -> FileGrid:
    """The axes of a projected GRIB grid, from the places of its nodes."""
    latitude, longitude = field.named(roles.LATITUDE)[0], field.named(roles.LONGITUDE)[0]
    y_dimension, x_dimension = field.coordinates[latitude].dims
    to_metres = pyproj.Transformer.from_crs(system.geodetic_crs, system, always_xy=True)
    x, y = to_metres.transform(field.values(longitude), field.values(latitude))
    axes = []
    for name, dimension, metres, across in (("x", x_dimension, x, 0), ("y", y_dimension, y, 1)):
        middle = (metres.min(axis=across) + metres.max(axis=across)) / 2
        apart = float(numpy.max(numpy.ptp(metres, axis=across)))
        step = float(numpy.min(numpy.abs(numpy.diff(middle)))) if len(middle) > 1 else 1.0
        if not apart <= step / 100:
            raise Refused(
                f"{field.name}: the places of its nodes don't stand along axes of its projection "
                f"(`{field.attributes['GRIB_gridType']}`); bring it to longitudes and latitudes first, as `cdo remapnn` does"
            )
        axes.append(_ascending(field, name, middle))
    return FileGrid(x_dimension, y_dimension, axes[0][0], axes[1][0], axes[0][1], axes[1][1], system)
