"""Small GRIB files for tools/test_to_feed.py: two that feeds are made of, and those that are refused."""

import eccodes
import numpy

SEED = 20_240_102
MISSING = 9_999.0


def _message(file, sample: str, keys: dict, values: numpy.ndarray, missing: bool = False) -> None:
    """Writes one message: the keys of a sample are set in their order, and then its values."""
    message = eccodes.codes_grib_new_from_samples(sample)
    try:
        for key, value in keys.items():
            eccodes.codes_set(message, key, value)
        if missing:
            eccodes.codes_set(message, "missingValue", MISSING)
            eccodes.codes_set(message, "bitmapPresent", 1)
        eccodes.codes_set_values(message, values.ravel().astype(float))
        eccodes.codes_write(message, file)
    finally:
        eccodes.codes_release(message)


DEGREES = {
    "Ni": 41, "Nj": 21, "latitudeOfFirstGridPointInDegrees": 60.0, "longitudeOfFirstGridPointInDegrees": 5.0,
    "latitudeOfLastGridPointInDegrees": 55.0, "longitudeOfLastGridPointInDegrees": 15.0,
    "iDirectionIncrementInDegrees": 0.25, "jDirectionIncrementInDegrees": 0.25, "jScansPositively": 0,
}
LAMBERT = {
    "gridType": "lambert", "Nx": 25, "Ny": 20, "DxInMetres": 10_000, "DyInMetres": 10_000,
    "latitudeOfFirstGridPointInDegrees": 58.0, "longitudeOfFirstGridPointInDegrees": 10.0,
    "LaDInDegrees": 60.0, "LoVInDegrees": 12.0, "Latin1InDegrees": 60.0, "Latin2InDegrees": 60.0, "jScansPositively": 1,
}


def _when(hour: int, step: int) -> dict:
    return {"dataDate": 20_240_201, "dataTime": 100 * hour, "stepRange": str(step)}


def degrees(path: str) -> None:
    """Two metre temperatures and ten metre wind, with missing values, in a grid whose latitudes descend."""
    chance = numpy.random.default_rng(SEED)
    with open(path, "wb") as file:
        for step in (0, 3, 6):
            for name, level, low, high in (("2t", 2, 250, 300), ("10u", 10, -20, 20)):
                values = chance.uniform(low, high, (21, 41))
                values[chance.random(values.shape) < 0.08] = MISSING
                keys = {**_when(0, step), **DEGREES, "shortName": name, "level": level, "bitsPerValue": 16}
                _message(file, "regular_ll_sfc_grib2", keys, values, missing=True)


def lambert(path: str) -> None:
    """Two runs on two pressure levels, in Lambert's projection."""
    chance = numpy.random.default_rng(SEED + 1)
    with open(path, "wb") as file:
        for hour in (0, 6):
            for step in (1, 2):
                for level in (850, 500):
                    keys = {**LAMBERT, **_when(hour, step), "typeOfLevel": "isobaricInhPa", "level": level, "shortName": "t", "bitsPerValue": 20}
                    _message(file, "regular_ll_pl_grib2", keys, chance.uniform(230, 290, (20, 25)))


def rotated(path: str) -> None:
    keys = {
        "gridType": "rotated_ll", **DEGREES, "latitudeOfSouthernPoleInDegrees": -30.0, "longitudeOfSouthernPoleInDegrees": 10.0,
        **_when(0, 0), "shortName": "2t",
    }
    with open(path, "wb") as file:
        _message(file, "regular_ll_sfc_grib2", keys, numpy.full((21, 41), 280.0))


def reduced(path: str) -> None:
    message = eccodes.codes_grib_new_from_samples("reduced_gg_pl_32_grib2")
    with open(path, "wb") as file:
        eccodes.codes_write(message, file)
    eccodes.codes_release(message)


def cut(path: str) -> None:
    """A message without its end."""
    degrees(path)
    with open(path, "r+b") as file:
        file.truncate(300)


def stereographic(path: str) -> None:
    keys = {
        "gridType": "polar_stereographic", "Nx": 20, "Ny": 15, "DxInMetres": 10_000, "DyInMetres": 10_000,
        "latitudeOfFirstGridPointInDegrees": 60.0, "longitudeOfFirstGridPointInDegrees": 5.0,
        "LaDInDegrees": 60.0, "orientationOfTheGridInDegrees": 10.0, "jScansPositively": 1, **_when(0, 3), "shortName": "2t",
    }
    with open(path, "wb") as file:
        _message(file, "regular_ll_sfc_grib2", keys, numpy.full((15, 20), 280.0))


def equal_area(path: str) -> None:
    keys = {
        "gridType": "lambert_azimuthal_equal_area", "Nx": 20, "Ny": 15, "DxInMetres": 10_000, "DyInMetres": 10_000,
        "latitudeOfFirstGridPointInDegrees": 50.0, "longitudeOfFirstGridPointInDegrees": 5.0,
        "standardParallelInDegrees": 52.0, "centralLongitudeInDegrees": 10.0, "jScansPositively": 1, **_when(0, 3), "shortName": "2t",
    }
    with open(path, "wb") as file:
        _message(file, "regular_ll_sfc_grib2", keys, numpy.full((15, 20), 280.0))


def cut_behind(path: str) -> None:
    """Whole messages, and one without its end."""
    degrees(path)
    with open(path, "r+b") as file:
        file.truncate(file.seek(0, 2) - 100)
