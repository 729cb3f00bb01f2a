"""Small NetCDF files for tools/test_to_feed.py: two that feeds are made of, and those that are refused."""

import netCDF4
import numpy

SEED = 20_240_101


def _time(file, name: str, numbers, units: str, dimension: str | None = "time", **attributes):
    variable = file.createVariable(name, "f8", (dimension,) if dimension else ())
    variable.setncatts({"standard_name": "time", "units": units, **attributes})
    variable[...] = numbers
    return variable


def _degrees(file, latitudes, longitudes) -> None:
    for name, units, values in (("latitude", "degrees_north", latitudes), ("longitude", "degrees_east", longitudes)):
        file.createDimension(name, len(values))
        variable = file.createVariable(name, "f4", (name,))
        variable.setncatts({"standard_name": name, "units": units})
        variable[:] = values


def degrees(path: str) -> None:
    """Longitudes of 0 to 360, latitudes that descend, packed temperatures, sums over intervals, and a field without time."""
    chance = numpy.random.default_rng(SEED)
    with netCDF4.Dataset(path, "w") as file:
        file.title = "Atlantic test forecast"
        _degrees(file, numpy.arange(60, 54.9, -0.25), numpy.arange(350, 359.9, 0.25))
        file.createDimension("time", 5)
        file.createDimension("two", 2)
        _time(file, "time", [6, 12, 18, 24, 30], "hours since 2024-01-01T00:00:00", bounds="time_bnds")
        file.createVariable("time_bnds", "f8", ("time", "two"))[:] = [[0, 6], [6, 12], [12, 18], [18, 24], [24, 30]]
        run = _time(file, "run", 6, "hours since 2023-12-31 18:00:00", None)
        run.standard_name = "forecast_reference_time"
        _packed_temperature(file, chance)
        rain = file.createVariable("tp", "f4", ("time", "latitude", "longitude"), fill_value=-999.0)
        rain.setncatts({"long_name": "Precipitation", "units": "mm", "cell_methods": "time: sum"})
        values = chance.uniform(0, 20, rain.shape)
        values[chance.random(values.shape) < 0.05] = -999.0
        rain[:] = values
        land = file.createVariable("land", "i1", ("latitude", "longitude"))
        land[:] = 1


def _packed_temperature(file, chance) -> None:
    temperature = file.createVariable("t2m", "i2", ("time", "latitude", "longitude"), fill_value=-32_768)
    temperature.set_auto_maskandscale(False)
    temperature.setncatts({
        "long_name": "Air temperature", "units": "K", "scale_factor": 0.01, "add_offset": 273.15,
        "valid_range": numpy.array([-9_000, 9_000], dtype="i2"),
    })
    packed = chance.integers(-4_000, 4_000, temperature.shape).astype("i2")
    packed[chance.random(packed.shape) < 0.1] = -32_768
    packed[chance.random(packed.shape) < 0.05] = 9_500  # beyond the valid range
    temperature[:] = packed


def _zone_33(file, x_offset: float = 0.4) -> None:
    mapping = file.createVariable("zone", "i4", ())
    mapping.setncatts({
        "grid_mapping_name": "transverse_mercator", "latitude_of_projection_origin": 0.0, "longitude_of_central_meridian": 15.0,
        "scale_factor_at_central_meridian": 0.9996, "false_easting": 500_000.0, "false_northing": 0.0,
        "semi_major_axis": 6_378_137.0, "inverse_flattening": 298.257222101,
    })
    file.createDimension("x", 30)
    file.createDimension("y", 20)
    x = file.createVariable("x", "f8", ("x",))
    x.setncatts({"standard_name": "projection_x_coordinate", "units": "m"})
    x[:] = 400_000 + x_offset + 1_000 * numpy.arange(30)
    y = file.createVariable("y", "f8", ("y",))
    y.setncatts({"standard_name": "projection_y_coordinate", "units": "km"})
    y[:] = 7_020 - numpy.arange(20)


def metres(path: str) -> None:
    """UTM zone 33 with y in descending kilometres, two runs with lead times, and heights that descend."""
    chance = numpy.random.default_rng(SEED + 1)
    with netCDF4.Dataset(path, "w", format="NETCDF3_CLASSIC") as file:
        _zone_33(file)
        for name, count in (("run", 2), ("lead", 3), ("height", 3)):
            file.createDimension(name, count)
        run = _time(file, "run", [0, 6], "hours since 2024-03-01T00:00:00", "run")
        run.standard_name = "forecast_reference_time"
        lead = file.createVariable("lead", "i4", ("lead",))
        lead.setncatts({"standard_name": "forecast_period", "units": "minutes"})
        lead[:] = [0, 90, 180]
        height = file.createVariable("height", "f4", ("height",))
        height.setncatts({"standard_name": "height", "units": "m", "positive": "up", "axis": "Z"})
        height[:] = [100, 50, 10]
        wind = file.createVariable("wind", "f8", ("run", "lead", "height", "y", "x"))
        wind.setncatts({"standard_name": "wind_speed", "units": "m s-1", "grid_mapping": "zone"})
        values = chance.uniform(0, 30, wind.shape)
        values[chance.random(values.shape) < 0.05] = numpy.nan
        wind[:] = values


def _plain(path: str, build) -> None:
    """A file with a grid in degrees and three times, to which something is added."""
    with netCDF4.Dataset(path, "w") as file:
        _degrees(file, [60, 59, 58], [10, 11, 12, 13])
        file.createDimension("time", 3)
        _time(file, "time", [0, 6, 12], "hours since 2024-01-01T00:00:00")
        build(file)


def _variable(file, name: str, dimensions, value=1.0, kind: str = "f8", **attributes):
    variable = file.createVariable(name, kind, dimensions)
    variable.setncatts(attributes)
    variable[...] = value
    return variable


GRID = ("latitude", "longitude")
CUBE = ("time", *GRID)


def whole(path: str) -> None:
    _plain(path, lambda file: _variable(file, "snow", CUBE, 3, "i4", units="cm"))


def decimals(path: str) -> None:
    _plain(path, lambda file: _variable(file, "temp", CUBE, 271.35, "f4", units="K"))


def without_time(path: str) -> None:
    _plain(path, lambda file: _variable(file, "height_of_land", GRID, 3, "i2", units="m"))


def empty(path: str) -> None:
    """A time axis without times."""
    with netCDF4.Dataset(path, "w") as file:
        _degrees(file, [60, 59, 58], [10, 11, 12, 13])
        file.createDimension("time", None)
        file.createVariable("time", "f8", ("time",)).units = "hours since 2024-01-01T00:00:00"
        file.createVariable("temp", "i4", CUBE)


def beyond(path: str) -> None:
    """A whole number of 54 bits."""
    _plain(path, lambda file: _variable(file, "count", CUBE, 2**53, "i8", units="1"))


def large(path: str) -> None:
    _plain(path, lambda file: _variable(file, "flux", CUBE, 1e12, units="J"))


def infinite(path: str) -> None:
    _plain(path, lambda file: _variable(file, "flux", CUBE, numpy.inf, units="J"))


def two_grids(path: str) -> None:
    def build(file):
        _variable(file, "sea", CUBE, 1, "i4", units="m")
        for name, count, units in (("lat2", 4, "degrees_north"), ("lon2", 5, "degrees_east")):
            file.createDimension(name, count)
            _variable(file, name, (name,), numpy.arange(count) / 2 + 10, units=units)
        _variable(file, "ice", ("time", "lat2", "lon2"), 1, "i4", units="m")

    _plain(path, build)


def rotated(path: str) -> None:
    def build(file):
        _variable(file, "pole", (), 0, "i4", grid_mapping_name="rotated_latitude_longitude", grid_north_pole_latitude=39.25, grid_north_pole_longitude=-162.0)
        for name, standard_name, count in (("rlat", "grid_latitude", 3), ("rlon", "grid_longitude", 4)):
            file.createDimension(name, count)
            _variable(file, name, (name,), numpy.arange(count), standard_name=standard_name, units="degrees")
        _variable(file, "gust", ("time", "rlat", "rlon"), 1, units="m s-1", grid_mapping="pole")

    _plain(path, build)


def calendar(path: str) -> None:
    def build(file):
        file.variables["time"].calendar = "360_day"
        _variable(file, "temp", CUBE, 1, "i4", units="K")

    _plain(path, build)


def months(path: str) -> None:
    def build(file):
        file.variables["time"].units = "months since 2024-01-01T00:00:00"
        _variable(file, "temp", CUBE, 1, "i4", units="K")

    _plain(path, build)


def fractions(path: str) -> None:
    def build(file):
        file.variables["time"][:] = [0, 0.00033, 1]
        _variable(file, "temp", CUBE, 1, "i4", units="K")

    _plain(path, build)


def twice(path: str) -> None:
    def build(file):
        file.variables["time"][:] = [0, 6, 6]
        _variable(file, "temp", CUBE, 1, "i4", units="K")

    _plain(path, build)


def pressures(path: str) -> None:
    def build(file):
        file.createDimension("plev", 2)
        _variable(file, "plev", ("plev",), [85_000, 50_000], units="Pa", standard_name="air_pressure", positive="down", axis="Z")
        _variable(file, "temp", ("time", "plev", *GRID), 1, "i4", units="K")

    _plain(path, build)


def half_metres(path: str) -> None:
    def build(file):
        file.createDimension("height", 2)
        _variable(file, "height", ("height",), [2.5, 10], units="m", standard_name="height", positive="up")
        _variable(file, "temp", ("time", "height", *GRID), 1, "i4", units="K")

    _plain(path, build)


def ensemble(path: str) -> None:
    def build(file):
        file.createDimension("member", 3)
        _variable(file, "temp", ("time", "member", *GRID), 1, "i4", units="K")

    _plain(path, build)


def node_by_node(path: str) -> None:
    def build(file):
        file.createDimension("j", 3)
        file.createDimension("i", 4)
        _variable(file, "nav_lat", ("j", "i"), 59, units="degrees_north", standard_name="latitude")
        _variable(file, "nav_lon", ("j", "i"), 11, units="degrees_east", standard_name="longitude")
        _variable(file, "salt", ("time", "j", "i"), 1, "i4", units="1", coordinates="nav_lat nav_lon")

    _plain(path, build)


def unnamed_system(path: str) -> None:
    with netCDF4.Dataset(path, "w") as file:
        _zone_33(file, 0)
        file.createDimension("time", 1)
        _time(file, "time", [0], "hours since 2024-01-01T00:00:00")
        _variable(file, "wave", ("time", "y", "x"), 2, "i4", units="m")


def unsorted(path: str) -> None:
    def build(file):
        file.variables["latitude"][:] = [60, 58, 59]
        _variable(file, "temp", CUBE, 1, "i4", units="K")

    _plain(path, build)


def gridless(path: str) -> None:
    _plain(path, lambda file: _variable(file, "table", ("time", "latitude"), 1, "i4"))


def long(path: str) -> None:
    """A grid whose line would have more bytes than a feed takes."""
    with netCDF4.Dataset(path, "w") as file:
        _zone_33(file, 0)
        file.createDimension("time", 4_000)
        _time(file, "time", numpy.arange(4_000), "hours since 2024-01-01T00:00:00")
        _variable(file, "wave", ("time", "y", "x"), 1_234_567, "i4", units="m", grid_mapping="zone")


def many(path: str) -> None:
    """A grid of more values than a feed takes."""
    with netCDF4.Dataset(path, "w") as file:
        _zone_33(file, 0)
        file.createDimension("time", 7_000)
        _time(file, "time", numpy.arange(7_000), "hours since 2024-01-01T00:00:00")
        variable = file.createVariable("wave", "i1", ("time", "y", "x"), zlib=True, fill_value=0)
        variable.setncatts({"units": "m", "grid_mapping": "zone"})


def around(path: str) -> None:
    """The whole earth, with longitudes that go round."""
    with netCDF4.Dataset(path, "w") as file:
        latitudes, longitudes = numpy.arange(-90, 90.1, 5), numpy.arange(0, 360, 5)
        _degrees(file, latitudes, longitudes)
        file.createDimension("time", 1)
        _time(file, "time", [0], "seconds since 1970-01-01T00:00:00")
        values = numpy.arange(len(latitudes) * len(longitudes)).reshape(1, len(latitudes), len(longitudes))
        _variable(file, "node", CUBE, values, "i4", units="1")
