"""Files and words that are refused: the status, what the sentence says, and that nothing is written."""

import subprocess
import sys
from dataclasses import dataclass
from pathlib import Path
from typing import Callable

from . import grib_files, netcdf_files
from .programs import TO_FEED, run, to_feed


@dataclass(frozen=True)
class Bad:
    """A file and words, and what the sentence has to say: the variable that is in the way, and what would help."""

    make: Callable
    words: tuple
    says: tuple
    status: int = 2


DEGREES = ("--crs", 25_832, "--regrid", 50_000)
METRES = ("--crs", 25_833)

FILES = (
    Bad(netcdf_files.without_time, DEGREES, ("height_of_land: it has no time axis", "--time 2024-01-01T00:00:00Z would")),
    Bad(netcdf_files.two_grids, DEGREES, ("ice: it and sea are on different grids", "--parameter sea and --parameter ice")),
    Bad(netcdf_files.rotated, DEGREES, ("gust: its grid has rotated poles", "cdo remapnn")),
    Bad(grib_files.rotated, DEGREES, ("t2m: its grid has rotated poles", "cdo remapnn")),
    Bad(grib_files.reduced, DEGREES, ("its grid is of the kind `reduced_gg`", "cdo remapnn")),
    Bad(grib_files.cut, DEGREES, ("can't be read as GRIB",)),
    Bad(grib_files.cut_behind, DEGREES, ("is damaged", "get it anew")),
    Bad(netcdf_files.calendar, DEGREES, ("time: its calendar is `360_day`", "convert_calendar")),
    Bad(netcdf_files.large, (*DEGREES, "--scale", "flux=0.00001"), ("flux: its value 1e+12 J in steps of 0.00001 J is a number of more than 53 bits", "--scale flux=0.001 would fit")),
    Bad(netcdf_files.beyond, DEGREES, ("count: its value 9.0072e+15 in steps of 1 is a number of more than 53 bits", "--scale count=10 would fit")),
    Bad(netcdf_files.empty, DEGREES, ("temp: it has no values along `time`",)),
    Bad(netcdf_files.infinite, DEGREES, ("flux: one of its values is infinite", "_FillValue")),
    Bad(netcdf_files.decimals, DEGREES, ("temp: its value 271.35 K is no whole number", "--scale temp=0.01 would")),
    Bad(netcdf_files.whole, ("--crs", 25_832), ("snow: its grid is in longitudes and latitudes", "so --regrid ")),
    Bad(netcdf_files.whole, ("--crs", 4_326), ("--crs: EPSG:4326", "UTM")),
    Bad(netcdf_files.whole, ("--crs", 2_263), ("--crs: EPSG:2263 has its axes in US survey foot",)),
    Bad(netcdf_files.whole, ("--crs", 999_999), ("--crs: there is no system EPSG:999999",)),
    Bad(netcdf_files.whole, (*DEGREES, "--parameter", "rain"), ("rain: the file has no such variable", "it has snow")),
    Bad(netcdf_files.whole, (*DEGREES, "--scale", "rain=1"), ("--scale rain: the file has no variable", "snow")),
    Bad(netcdf_files.whole, (*DEGREES, "--at", "level=3"), ("--at level=3: the file has no dimension `level`", "latitude")),
    Bad(netcdf_files.whole, (*DEGREES, "--at", "time=3"), ("--at time=3: `time` has no such value", "it has 2024-01-01T00:00:00Z, 2024-01-01T06:00:00Z, 2024-01-01T12:00:00Z")),
    Bad(netcdf_files.whole, (*DEGREES, "--times", "2025-01-01T00:00:00Z/.."), ("snow: none of its times",)),
    Bad(netcdf_files.whole, (*DEGREES, "--time", "2025-01-01T00:00:00Z"), ("snow: it has times of its own", "leave out --time")),
    Bad(netcdf_files.whole, (*DEGREES, "--box", "-5000,0,-4000,1000000"), ("snow: no whole multiple of 50000 m",)),
    Bad(netcdf_files.whole, (*DEGREES, "--box", "0,0,100000,100000"), ("snow: no node of the new grid lies within",)),
    Bad(netcdf_files.whole, ("--crs", 25_832, "--regrid", 10), ("snow: the new grid would have", "larger --regrid")),
    Bad(netcdf_files.months, DEGREES, ("time: its times are in `months`", "days, hours")),
    Bad(netcdf_files.fractions, DEGREES, ("time: its value at place 1", "whole seconds")),
    Bad(netcdf_files.twice, DEGREES, ("temp: the time 2024-01-01T06:00:00Z stands twice",)),
    Bad(netcdf_files.pressures, DEGREES, ("temp: it has levels `plev` in Pa", "--at plev=85000 would")),
    Bad(netcdf_files.half_metres, DEGREES, ("temp: its height 2.5 m", "--at height=2.5 would")),
    Bad(netcdf_files.ensemble, DEGREES, ("temp: it has 3 values along `member`", "--at member=0 would")),
    Bad(netcdf_files.node_by_node, DEGREES, ("salt: its places stand node by node (`nav_lat`)", "cdo remapnn")),
    Bad(netcdf_files.unnamed_system, METRES, ("wave: it has axes x and y", "--file-crs CODE would")),
    Bad(netcdf_files.unsorted, DEGREES, ("temp: its axis `latitude` neither ascends nor descends", "sort")),
    Bad(netcdf_files.gridless, DEGREES, ("no variable on a grid",)),
    Bad(netcdf_files.long, METRES, ("wave: with it the line of a forecast run has more than 16,777,216 bytes", "--times")),
    Bad(netcdf_files.many, METRES, ("wave: it has 4,200,000 values", "--times")),
    Bad(netcdf_files.around, ("--crs", 25_833, "--regrid", 50_000), ("node: parts of its grid have no place", "--box MINX,MINY,MAXX,MAXY")),
    Bad(netcdf_files.metres, (*METRES, "--scale", 0.1, "--instance", "one"), ("--instance: the file has 2 forecast runs", "--at")),
    Bad(netcdf_files.metres, (*METRES, "--scale", 0.1, "--box", "0,0,1,1"), ("wind: none of its nodes lies in --box",)),
    Bad(netcdf_files.whole, ("--crs", "north"), ("`north` is no EPSG code",), 1),
    Bad(netcdf_files.whole, (*DEGREES, "--scale", "0"), ("`0` is neither a step",), 1),
    Bad(netcdf_files.whole, (), ("--crs",), 1),
    Bad(lambda path: None, DEGREES, ("can't be opened",), 9),
    Bad(lambda path: Path(path).write_text("a,b\n1,2\n"), DEGREES, ("neither NetCDF nor GRIB",)),
    Bad(lambda path: Path(path).write_bytes(b"\x89HDF\r\n\x1a\n" + bytes(40)), DEGREES, ("can't be read",), 3),
)


def trials(folder: Path):
    for number, bad in enumerate(FILES):
        yield f"refusal {number + 1}", lambda bad=bad, number=number: _refused(bad, folder, to_file=number % 2 == 1)
    yield "a full disc", lambda: _full_disc(folder)
    yield "no folder", lambda: _no_folder(folder)
    yield "taken files", lambda: _taken(folder)


def _refused(bad: Bad, folder: Path, to_file: bool) -> str:
    """Tries a file and words, every second one with a file for the feed."""
    path, output = folder / "bad.nc", folder / "feed.jsonl"
    bad.make(str(path))
    ended = to_feed(path, *bad.words, *(("--output", output) if to_file else ()))
    assert ended.status == bad.status, f"status {ended.status} in place of {bad.status}: {ended.errors}"
    assert not ended.output, "something is written on standard output"
    assert [file.name for file in folder.iterdir()] in ([path.name], []), "a file is written"
    for text in bad.says:
        assert text in ended.errors, f"`{text}` isn't in\n{ended.errors}"
    assert bad.status == 1 or ended.errors.count("\n") == 1, f"more than a sentence:\n{ended.errors}"
    path.unlink(missing_ok=True)
    return ended.errors.strip().splitlines()[-1]


def _full_disc(folder: Path) -> str:
    path = folder / "good.nc"
    netcdf_files.whole(str(path))
    with open("/dev/full", "wb") as full:
        ended = subprocess.run([sys.executable, TO_FEED, path, *map(str, DEGREES)], stdout=full, stderr=subprocess.PIPE)
    path.unlink()
    assert ended.returncode == 4, f"status {ended.returncode}: {ended.stderr}"
    return ended.stderr.decode().strip().splitlines()[-1]


def _no_folder(folder: Path) -> str:
    path = folder / "good.nc"
    netcdf_files.whole(str(path))
    ended = to_feed(path, *DEGREES, "--output", folder / "none" / "feed.jsonl")
    path.unlink()
    assert ended.status == 4, f"status {ended.status}: {ended.errors}"
    return ended.errors.strip().splitlines()[-1]


def _taken(folder: Path) -> str:
    """What is near to a refusal and isn't one: the whole earth in a box, a given time, a level, and help without a file."""
    path = folder / "good.nc"
    for make, words in (
        (netcdf_files.around, ("--crs", 3_575, "--regrid", 200_000, "--box", "-2000000,-2000000,2000000,2000000")),
        (netcdf_files.whole, ("--crs", 3_395)),
        (netcdf_files.without_time, (*DEGREES, "--time", "2024-01-01T00:00:00Z")),
        (netcdf_files.pressures, (*DEGREES, "--at", "plev=50000")),
        (netcdf_files.ensemble, (*DEGREES, "--at", "member=2", "--at", "time=2024-01-01T06:00:00Z")),
        (netcdf_files.two_grids, (*DEGREES, "--parameter", "sea")),
        (netcdf_files.unnamed_system, (*METRES, "--file-crs", 25_833)),
        (netcdf_files.long, (*METRES, "--times", "../2024-01-02T00:00:00Z", "--no-collection")),
        (netcdf_files.large, (*DEGREES, "--scale", "flux=0.001")),
        (grib_files.stereographic, ("--crs", 25_832, "--regrid", 10_000)),
        (grib_files.equal_area, ("--crs", 25_832, "--regrid", 10_000)),
    ):
        make(str(path))
        ended = to_feed(path, *words)
        assert ended.status == 0, f"{make.__name__} {words}: status {ended.status}: {ended.errors}"
        path.unlink()
    ended = run([sys.executable, TO_FEED, "--help"])
    assert ended.status == 0 and b"exit status" in ended.output, ended.errors
    return "11 files are taken"
