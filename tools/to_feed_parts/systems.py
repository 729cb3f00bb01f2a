"""Reference systems: that of the feed by its EPSG code, and that of a file by the CF conventions or the keys of GRIB."""

import numpy
import pyproj

from .faults import Refused
from .fields import Field
from .roles import text_of

EARTH_RADIUS = 6_371_229.0  # metres: the sphere of GRIB where a file says nothing else
_AS_IT_IS = "bring it to longitudes and latitudes first, as `cdo remapnn` does"


def feed_system(code: int):
    """The system of the feed: projected, of two axes in metres."""
    system = _of_code("--crs", code)
    axes = system.axis_info
    if not system.is_projected or len(axes) != 2:
        raise Refused(f"--crs: EPSG:{code} is `{system.name}`, which isn't projected; a UTM zone, such as 25833, would be")
    if any(axis.unit_conversion_factor != 1 for axis in axes):
        raise Refused(f"--crs: EPSG:{code} has its axes in {axes[0].unit_name}, and a feed is in metres; choose one in metres")
    return system


def _of_code(option: str, code: int):
    try:
        return pyproj.CRS.from_epsg(code)
    except pyproj.exceptions.CRSError:
        raise Refused(f"{option}: there is no system EPSG:{code} in this machine's list (PROJ); look the code up at epsg.org") from None


def geographic():
    """The longitudes and latitudes of a file that doesn't say on which figure of the earth they are."""
    return pyproj.CRS.from_epsg(4326)


def projected_system(field: Field, file_code: int | None):
    """The system of a field's own x and y."""
    if file_code is not None:
        return _of_code("--file-crs", file_code)
    system = mapped_system(field)
    if system is None:
        raise Refused(
            f"{field.name}: it has axes x and y, and the file doesn't say of which projection (no grid_mapping); "
            f"--file-crs CODE would say it"
        )
    return system


def mapping_of(field: Field) -> dict:
    """The attributes of a field's grid mapping; none where it has none."""
    name = text_of(field.attributes, "grid_mapping").split(":")[0].split(" ")[0]
    mapping = field.dataset.variables.get(name) if name else None
    return {key: _plain(value) for key, value in mapping.attrs.items()} if mapping is not None else {}


def _plain(value):
    """A value of an attribute without numpy's types."""
    if isinstance(value, numpy.ndarray):
        return value.item() if value.size == 1 else value.tolist()
    return value.item() if isinstance(value, numpy.generic) else value


def mapped_system(field: Field):
    """The system that a field's grid mapping says, or none."""
    mapping = mapping_of(field)
    if not mapping:
        return None
    try:
        return pyproj.CRS.from_cf(mapping)
    except (pyproj.exceptions.CRSError, KeyError, TypeError, ValueError) as error:
        raise Refused(
            f"{field.name}: its grid mapping `{text_of(field.attributes, 'grid_mapping')}` can't be read ({error}); "
            f"--file-crs CODE would say the system"
        ) from None


def check_not_rotated(field: Field) -> None:
    kinds = (text_of(mapping_of(field), "grid_mapping_name"), text_of(field.attributes, "GRIB_gridType"))
    if kinds[0] == "rotated_latitude_longitude" or kinds[1].startswith("rotated"):
        raise Refused(f"{field.name}: its grid has rotated poles, which isn't taken; {_AS_IT_IS}")


def grib_system(field: Field):
    """The system of a projected GRIB grid, or none where its kind isn't one of three or a key is missing."""
    words = _projection(field.attributes)
    if not words or None in words.values():
        return None
    return pyproj.CRS.from_dict({**words, **_figure(field.attributes), "type": "crs"})


def _projection(keys) -> dict:
    """The projection of a kind of grid in the words of PROJ."""
    kind = text_of(keys, "GRIB_gridType")
    if kind == "lambert":
        first, second = keys.get("GRIB_Latin1InDegrees"), keys.get("GRIB_Latin2InDegrees")
        return {"proj": "lcc", "lat_0": keys.get("GRIB_LaDInDegrees"), "lon_0": keys.get("GRIB_LoVInDegrees"), "lat_1": first, "lat_2": second}
    if kind == "polar_stereographic":
        pole = -90 if int(keys.get("GRIB_projectionCentreFlag", 0)) & 128 else 90
        return {"proj": "stere", "lat_0": pole, "lat_ts": keys.get("GRIB_LaDInDegrees"), "lon_0": keys.get("GRIB_orientationOfTheGridInDegrees")}
    if kind == "lambert_azimuthal_equal_area":
        return {"proj": "laea", "lat_0": keys.get("GRIB_standardParallelInDegrees"), "lon_0": keys.get("GRIB_centralLongitudeInDegrees")}
    return {}


def _figure(keys) -> dict:
    """The figure of the earth by the code table 3.2 of GRIB."""
    shape = int(keys.get("GRIB_shapeOfTheEarth", 6))
    if shape == 0:
        return {"R": 6_367_470.0}
    if shape == 1 and keys.get("GRIB_radius"):
        return {"R": float(keys["GRIB_radius"])}
    if shape in (2, 4, 5):
        return {"ellps": {2: "new_intl", 4: "GRS80", 5: "WGS84"}[shape]}
    axes = (keys.get("GRIB_earthMajorAxisInMetres"), keys.get("GRIB_earthMinorAxisInMetres"))
    if shape in (3, 7) and all(axes):
        return {"a": float(axes[0]), "b": float(axes[1])}
    return {"R": 6_371_200.0 if shape == 8 else EARTH_RADIUS}
