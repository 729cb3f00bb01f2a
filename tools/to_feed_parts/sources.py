"""Files, and the data sets in them: a NetCDF file is one, a GRIB file one for each variable on each kind of level."""

import importlib
import logging
import sys
import tempfile

from .faults import OPEN, PACKAGE, READ, Fault, Refused

_PACKAGES = {"netcdf4": ("netCDF4", "python3-netcdf4"), "cfgrib": ("cfgrib", "python3-cfgrib")}
GRIB_KEYS = (  # those that are read beside the reader's own
    "shapeOfTheEarth", "radius", "earthMajorAxisInMetres", "earthMinorAxisInMetres", "projectionCentreFlag",
    "LaDInDegrees", "orientationOfTheGridInDegrees", "standardParallelInDegrees", "centralLongitudeInDegrees",
)
_NETCDF = (b"CDF\x01", b"CDF\x02", b"CDF\x05", b"\x89HDF\r\n\x1a\n")


def needs(module: str, package: str):
    """A module of a Debian package; where it is missing, the run ends with a sentence that names the package."""
    try:
        return importlib.import_module(module)
    except ImportError as error:
        python = "" if sys.executable.startswith("/usr/bin/") else f"; {sys.executable} isn't Debian's Python, /usr/bin/python3 is"
        raise Fault(PACKAGE, f"the package {package} is missing: `apt install {package}` ({error}){python}") from None


def kind_of(path: str) -> str:
    """Which of xarray's engines reads the file, by its first bytes."""
    try:
        with open(path, "rb") as file:
            head = file.read(4_096)
    except OSError as error:
        raise Fault(OPEN, f"{path} can't be opened: {error.strerror}") from None
    if head.startswith(_NETCDF):
        return "netcdf4"
    if b"GRIB" in head:
        return "cfgrib"
    raise Refused(f"{path} is neither NetCDF nor GRIB by its first bytes; a file of another kind has to be converted first")


def open_sources(path: str) -> list:
    """The data sets of a file, whose variables are as they stand in it: not unpacked, with times as numbers."""
    kind = kind_of(path)
    needs(*_PACKAGES[kind])
    try:
        return [_netcdf(path)] if kind == "netcdf4" else _grib(path)
    except (Fault, MemoryError):
        raise
    except OSError as error:
        raise Fault(READ, f"{path} can't be read: {error}") from None
    except Exception as error:  # whatever the libraries say of a damaged file
        raise Refused(f"{path} can't be read as {'NetCDF' if kind == 'netcdf4' else 'GRIB'}: {error}") from None


def _netcdf(path: str):
    import xarray

    return xarray.open_dataset(path, engine="netcdf4", decode_cf=False)


class _Complaints(logging.Handler):
    """Keeps what the reader of GRIB complains of, which it doesn't raise."""

    def __init__(self):
        super().__init__(logging.ERROR)
        self.said: list[str] = []

    def emit(self, record) -> None:
        self.said.append(record.getMessage())


def _grib(path: str) -> list:
    """A data set for each variable on each kind of level. The index is made once, and none is left beside the file."""
    from cfgrib import xarray_store

    complaints, logger = _Complaints(), logging.getLogger("cfgrib")
    logger.addHandler(complaints)
    logger.propagate = False
    with tempfile.TemporaryDirectory(prefix="to_feed.") as folder:
        settings = {"indexpath": f"{folder}/{{hash}}.idx", "read_keys": GRIB_KEYS, "errors": "raise"}
        datasets = xarray_store.open_variable_datasets(path, backend_kwargs=settings, decode_cf=False)
    if complaints.said:
        raise Refused(f"{path} is damaged ({complaints.said[0]}); get it anew")
    return datasets
