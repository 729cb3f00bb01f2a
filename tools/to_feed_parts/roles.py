"""What a coordinate of a file says, by the CF conventions: its standard name, its axis, and its units."""

from .instants import duration, is_since

TIME, REFERENCE, LEAD = "time", "reference time", "lead time"
LONGITUDE, LATITUDE, X, Y, ROTATED = "longitude", "latitude", "x", "y", "rotated"
HEIGHT, LEVEL, OTHER = "height", "level", "other"

METRES = {
    **dict.fromkeys(("m", "metre", "metres", "meter", "meters"), 1),
    **dict.fromkeys(("km", "kilometre", "kilometres", "kilometer", "kilometers"), 1_000),
}
_NORTH = ("degrees_north", "degree_north", "degree_n", "degrees_n", "degreen", "degreesn")
_EAST = ("degrees_east", "degree_east", "degree_e", "degrees_e", "degreee", "degreese")
_BY_STANDARD_NAME = {
    "forecast_reference_time": REFERENCE,
    "forecast_period": LEAD,
    "time": TIME,
    "longitude": LONGITUDE,
    "latitude": LATITUDE,
    "grid_longitude": ROTATED,
    "grid_latitude": ROTATED,
    "projection_x_coordinate": X,
    "projection_y_coordinate": Y,
    "air_pressure": LEVEL,
    "model_level_number": LEVEL,
}
_HEIGHTS = (
    "height", "altitude", "depth", "height_above_mean_sea_level", "height_above_geopotential_datum",
    "height_above_reference_ellipsoid",
)


def text_of(attributes, key: str) -> str:
    """The text of an attribute, or an empty one."""
    value = attributes.get(key, "")
    return value.strip() if isinstance(value, str) else ""


def metres_of(units: str) -> int | None:
    """How many metres a unit of length has."""
    return METRES.get(units.strip().lower())


def role_of(name: str, attributes) -> str:
    """What a coordinate says."""
    named = _BY_STANDARD_NAME.get(text_of(attributes, "standard_name"))
    if named and (named != TIME or is_since(text_of(attributes, "units"))):
        return named
    return _by_units(name, attributes)


def _by_units(name: str, attributes) -> str:
    units = text_of(attributes, "units").lower()
    axis = text_of(attributes, "axis").upper()
    if is_since(units):
        return TIME
    if units in _NORTH:
        return LATITUDE
    if units in _EAST:
        return LONGITUDE
    if metres_of(units) and (axis == "X" or (not axis and name.lower() == "x")):
        return X
    if metres_of(units) and (axis == "Y" or (not axis and name.lower() == "y")):
        return Y
    return _upright(units, axis, attributes)


def _upright(units: str, axis: str, attributes) -> str:
    standard_name = text_of(attributes, "standard_name")
    stands = axis == "Z" or "positive" in attributes or standard_name in _HEIGHTS
    if not stands:
        return LEVEL if standard_name.startswith(("atmosphere_", "ocean_")) else OTHER
    by_height = not standard_name or standard_name in _HEIGHTS
    return HEIGHT if by_height and metres_of(units) else LEVEL


def is_duration(attributes) -> bool:
    """Whether a lead time has units that are a fixed number of seconds."""
    return duration(text_of(attributes, "units")) is not None
