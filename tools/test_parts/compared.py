"""Feeds of files, compared value by value with what xarray selects."""

import json
import random
from dataclasses import dataclass
from datetime import datetime
from pathlib import Path
from typing import Callable

import numpy
import pyproj
import xarray

from . import grib_files, netcdf_files
from .programs import Edr, to_feed

COUNT = 1_000  # values of each feed
ASKED = 25  # answers of edr ask of each feed


@dataclass(frozen=True)
class Trial:
    """A file, how a feed is made of it, and how xarray finds the value at a place of the feed."""

    make: Callable
    name: str
    words: tuple
    code: int
    steps: dict  # the size of a whole number of each parameter
    open: Callable  # opens the file, with axes that can be selected from
    select: Callable  # of the data set: parameter, instance, time, height, and longitude and latitude or x and y of the file
    notes: tuple = ()


def trials(folder: Path, edr: Edr):
    for trial in TRIALS:
        yield trial.name, lambda trial=trial: _compared(trial, folder, edr)


def _compared(trial: Trial, folder: Path, edr: Edr) -> str:
    path = folder / trial.name
    trial.make(str(path))
    ended = to_feed(path, "--crs", trial.code, "--collection", "file", *trial.words)
    assert ended.status == 0, f"status {ended.status}: {ended.errors}"
    for note in trial.notes:
        assert note in ended.errors, f"no note `{note}` in\n{ended.errors}"
    assert [file.name for file in folder.iterdir()] == [path.name], "files are left beside it"
    counted = edr.check(ended.output)
    assert counted == "ok: 1 editions\n", counted
    feed = [json.loads(line) for line in ended.output.splitlines()]
    with trial.open(path) as dataset:
        absent = _values(trial, dataset, feed)
        _asked(trial, dataset, feed, ended.output, edr)
    path.unlink()
    return f"{COUNT} values by chance agree, {absent} of them missing; {ASKED} answers of edr ask agree"


def _axis(axis: dict) -> list:
    return axis["values"] if "values" in axis else numpy.linspace(axis["start"], axis["stop"], axis["num"]).round().astype(int).tolist()


def _expected(trial: Trial, dataset, series: tuple, x: list, y: list) -> list:
    """The values that xarray selects nearest to places, at a parameter, instance, time and height; not a number where none is."""
    parameter, instance, time, height = series
    system = dataset.attrs.get("system", 4326)
    across, up = pyproj.Transformer.from_crs(trial.code, system, always_xy=True).transform(numpy.array(x, float), numpy.array(y, float))
    places = xarray.DataArray(across, dims="place"), xarray.DataArray(up, dims="place")
    return trial.select(dataset, parameter, instance, datetime.fromisoformat(time[:-1]), height, *places).values.astype(float).tolist()


def _agrees(sample, expected: float, step: float) -> bool:
    if sample is None or numpy.isnan(expected):
        return sample is None and bool(numpy.isnan(expected))
    return abs(sample * step - expected) <= step * 0.5 + 1e-6 * abs(expected)


def _values(trial: Trial, dataset, feed: list) -> int:
    """Compares values by chance of the feed's lines; answers how many of them are missing."""
    chance = random.Random(trial.name)
    grids = [line["grid"] for line in feed if "grid" in line]
    drawn: dict[tuple, list] = {}
    for _ in range(COUNT):
        series, found = _drawn(chance, chance.choice(grids))
        drawn.setdefault(series, []).append(found)
    for series, found in drawn.items():
        samples, x, y = zip(*found)
        for sample, expected, *place in zip(samples, _expected(trial, dataset, series, x, y), x, y):
            assert _agrees(sample, expected, trial.steps[series[0]]), f"{series} at {place} is {sample}, and xarray has {expected}"
    return sum(sample is None for found in drawn.values() for sample, *_ in found)


def _drawn(chance: random.Random, grid: dict) -> tuple[tuple, tuple]:
    """One value by chance: its parameter, instance, time and height, and the value with its x and y."""
    coverage = grid["coverage"]
    axes = {name: _axis(axis) for name, axis in coverage["domain"]["axes"].items()}
    parameter, held = chance.choice(sorted(coverage["ranges"].items()))
    places = [chance.randrange(count) for count in held["shape"]]
    at = {name: axes[name][place] for name, place in zip(held["axisNames"], places)}
    sample = held["values"][int(numpy.ravel_multi_index(places, held["shape"]))]
    return (parameter, grid["instance"], at["t"], at.get("z")), (sample, at["x"], at["y"])


def _asked(trial: Trial, dataset, feed: list, text: bytes, edr: Edr) -> None:
    """Asks for values at nodes of the feed by `edr ask`."""
    chance = random.Random(trial.name + " asked")
    grids = [line["grid"] for line in feed if "grid" in line]
    for _ in range(ASKED):
        series, (_, x, y) = _drawn(chance, chance.choice(grids))
        parameter, instance, time, height = series
        level = f"&z={height}" if height is not None else ""
        target = f"/collections/file/instances/{instance}/position?coords=POINT({x} {y})&datetime={time}&parameter-name={parameter}{level}"
        ended = edr.ask(target, text)
        assert ended.status == 0, f"edr ask \"{target}\" ends with {ended.status}: {ended.errors}"
        sample = json.loads(ended.output)["ranges"][parameter]["values"][0]
        expected = _expected(trial, dataset, series, [x], [y])[0]
        assert _agrees(sample, expected, trial.steps[parameter]), f"edr ask \"{target}\" has {sample}, and xarray {expected}"


def _inside(values, wanted):
    return (wanted >= float(values.min()) - 1e-6) & (wanted <= float(values.max()) + 1e-6)


def _select_degrees(dataset, parameter, instance, time, height, longitude, latitude):
    """By longitudes and latitudes; those of the file may go to 360."""
    longitude = longitude % 360 if float(dataset.longitude.max()) > 180 else longitude
    at_time = dataset.swap_dims(step="valid_time") if "step" in dataset.dims else dataset
    name = "valid_time" if "step" in dataset.dims else "time"
    value = at_time[parameter].sel({name: time}).sel(latitude=latitude, longitude=longitude, method="nearest")
    value = value.where(_inside(dataset.longitude, longitude) & _inside(dataset.latitude, latitude))
    if parameter == "t2m" and "packed" in dataset.attrs:
        return value.where(abs(value - 273.15) < 90.001)  # the valid range, which xarray doesn't look at
    return value


def _select_metres(dataset, parameter, instance, time, height, x, y):
    """By x and y of the feed, which are the file's own but for less than a metre; the file's y are kilometres."""
    run = datetime.fromisoformat(instance[:-1])
    held = dataset["wind"].sel(run=run, lead=numpy.timedelta64(int((time - run).total_seconds()), "s"), height=height)
    return held.sel(x=x, y=y / 1_000, method="nearest")


def _select_lambert(dataset, parameter, instance, time, height, x, y):
    """By x and y of the file's projection."""
    run = datetime.fromisoformat(instance[:-1])
    held = dataset["t"].sel(time=run, step=numpy.timedelta64(time - run), isobaricInhPa=850)
    return held.sel(x=x, y=y, method="nearest").where(_inside(dataset.x, x) & _inside(dataset.y, y))


def _open_netcdf(path):
    dataset = xarray.open_dataset(path, engine="netcdf4")
    return dataset.assign_attrs(packed="yes") if "t2m" in dataset else dataset


def _open_metres(path):
    dataset = xarray.open_dataset(path, engine="netcdf4")
    return dataset.assign_attrs(system=25_833)


def _open_grib(path):
    import cfgrib

    parts = cfgrib.open_datasets(str(path), backend_kwargs={"indexpath": ""})
    return xarray.merge([part.drop_vars("heightAboveGround") for part in parts])


def _open_lambert(path):
    """The file with x and y of its projection, reckoned here from the keys of the message."""
    dataset = xarray.open_dataset(path, engine="cfgrib", backend_kwargs={"indexpath": ""})
    system = pyproj.CRS.from_proj4("+proj=lcc +lat_0=60 +lon_0=12 +lat_1=60 +lat_2=60 +R=6371229 +type=crs")
    first = pyproj.Proj(system)(10.0, 58.0)
    axes = {"x": first[0] + 10_000 * numpy.arange(25), "y": first[1] + 10_000 * numpy.arange(20)}
    return dataset.assign_coords(axes).assign_attrs(system=system)


TRIALS = (
    Trial(
        netcdf_files.degrees, "degrees.nc", ("--regrid", 15_000, "--scale", "t2m=0.1", "--scale", "tp=0.01"), 25_829,
        {"t2m": 0.1, "tp": 0.01}, _open_netcdf, _select_degrees,
        ("lie beyond the file's grid", "t2m: ", "tp: ", "land: it has no time axis", "time: each time of the file stands for an interval; the feed has its end alone"),
    ),
    Trial(
        netcdf_files.metres, "metres.nc", ("--scale", 0.1, "--parameter", "wind=speed", "--vertical", "ground"), 25_833,
        {"speed": 0.1}, _open_metres, _select_metres, ("nodes were moved to whole metres, by at most 0.40 m", "speed: "),
    ),
    Trial(
        grib_files.degrees, "degrees.grib2", ("--regrid", 20_000, "--scale", 0.01), 25_832,
        {"t2m": 0.01, "u10": 0.01}, _open_grib, _select_degrees, ("at most",),
    ),
    Trial(
        grib_files.lambert, "lambert.grib2", ("--regrid", 8_000, "--scale", "t=0.1", "--at", "isobaricInhPa=850"), 25_833,
        {"t": 0.1}, _open_lambert, _select_lambert, ("8000 m apart",),
    ),
)


def make_files(folder: Path) -> None:
    """Makes the files in a folder."""
    folder.mkdir(parents=True, exist_ok=True)
    for trial in TRIALS:
        trial.make(str(folder / trial.name))
