"""Draws what `edr ask` or `edr fetch` gives, as a PNG.

    ./edr ask TARGET < FEED | python3 tools/plot.py --out picture.png
    ./edr fetch URL | python3 tools/plot.py --kind series --zone Europe/Berlin --unit cm --out picture.png

It reads CoverageJSON, or the table that `edr fetch` and `edr show` write, from a file or from standard input. Three kinds of picture:

map       the values of a grid, or of stations and points, at one time and one level (`--datetime` and `--z`, else the first)
series    the values by time, a line for each place and level
section   along a way (a trajectory, a row or a column of a grid): the values by distance, or by distance and level; at one place the
          values by time and level, or by level alone

Without `--kind` the kind that suits the data is drawn. A document without labels or units, as a table is, gets them by `--label` and
`--unit`. Places without a value are grey. Needs Debian's python3-matplotlib and python3-xarray.
"""

import argparse
import re
import sys
from zoneinfo import ZoneInfo, ZoneInfoNotFoundError

import matplotlib

matplotlib.use("Agg")

import matplotlib.dates as dates
import matplotlib.figure
import numpy
import pandas
from matplotlib.colors import ListedColormap
from matplotlib.patches import Patch
from matplotlib.ticker import MaxNLocator

from edr_client import NotRead
from plot_data import NotDrawn, Samples, plain, read_samples

KINDS = ("map", "series", "section")
_GREY = "0.82"
_COLOURS = "viridis"
_MANY_LINES = 50
_MANY_NAMES = 12
_LONG_WAY = 5_000  # metres, from which kilometres are written


# Which picture


def suitable_kind(samples: Samples) -> str:
    """The kind of picture that suits the samples."""
    if samples.is_way:
        return "section"
    places, times, levels = (samples.count(*names) for names in (("y", "x"), ("t",), ("z",)))
    if samples.is_grid() and min(samples.count("y"), samples.count("x")) == 1:
        return "section"
    if places > 1:
        return "map" if times == 1 or samples.is_grid() else "series"
    return "section" if levels > 1 else "series"


def draw(samples: Samples, kind: str, zone: str, time: str | None, level: float | None):
    """The figure."""
    figure = matplotlib.figure.Figure(figsize=(8, 4.8), dpi=110, layout="constrained")
    axes = figure.add_subplot()
    parts = {"map": draw_map, "series": draw_series, "section": draw_section}
    parts[kind](figure, axes, samples, zone, time, level)
    if samples.crs and kind == "map":
        place = {"xy": (1, 0), "xycoords": "axes fraction", "xytext": (0, -24), "textcoords": "offset points"}
        axes.annotate(_short_crs(samples.crs), **place, ha="right", va="top", fontsize=7, color="0.4")
    return figure


def _short_crs(crs: str) -> str:
    found = re.search(r"/crs/EPSG/[^/]*/([0-9]+)$", crs)
    return f"EPSG:{found[1]}" if found else crs


def _title(axes, samples: Samples, *parts: str) -> None:
    axes.set_title(samples.name, loc="left", fontweight="bold")
    axes.set_title(", ".join(part for part in parts if part), loc="right", fontsize=9, color="0.25")


def _colour_bar(figure, axes, samples: Samples, drawn) -> None:
    if samples.table["value"].notna().any():
        figure.colorbar(drawn, cax=axes.inset_axes([1.02, 0, 0.03, 1]), label=samples.quantity())


def _when(samples: Samples, zone: str) -> str:
    """The one time of some samples, or the first and the last."""
    if "t" not in samples.table:
        return ""
    times = samples.table["t"]
    first, last = (each.tz_convert(ZoneInfo(zone)).strftime("%Y-%m-%d %H:%M") for each in (times.min(), times.max()))
    return f"{first} {zone}" if first == last else f"{first} to {last} {zone}"


def _of_several(samples: Samples, name: str, what: str) -> str:
    """Which of how many times or levels is drawn, where there are several."""
    at, count = samples.chosen.get(name, (1, 1))
    return f" ({what} {at} of {count})" if count > 1 else ""


def _height(samples: Samples) -> str:
    levels = samples.values("z")
    return f"z {plain(levels[0])}{_of_several(samples, 'z', 'level')}" if len(levels) == 1 else ""


# Maps


def draw_map(figure, axes, samples: Samples, zone: str, time: str | None, level: float | None) -> None:
    """Values at places, at one time and one level."""
    samples = samples.at("z", level).at("t", time)
    scale, unit = _scale(samples.table["x"].abs().max(), samples.table["y"].abs().max())
    drawn = _draw_nodes(axes, samples, scale) if samples.is_grid() else _draw_dots(axes, samples, scale)
    _colour_bar(figure, axes, samples, drawn)
    axes.set_aspect("equal", adjustable="datalim" if not samples.is_grid() else "box")
    for axis, name in ((axes.xaxis, "x"), (axes.yaxis, "y")):
        axis.set_major_locator(MaxNLocator(nbins=7, steps=[1, 2, 5, 10]))
        axis.set_label_text(f"{name} ({unit})")
    axes.ticklabel_format(style="plain", useOffset=False)
    _title(axes, samples, _when(samples, zone) + _of_several(samples, "t", "time"), _height(samples))


def _scale(*lengths: float) -> tuple[int, str]:
    """By what lengths are divided, and their unit then."""
    return (1000, "km") if max(lengths) >= _LONG_WAY else (1, "m")


def _draw_nodes(axes, samples: Samples, scale: int):
    """A grid, a coloured field for each node."""
    values = samples.table.pivot(index="y", columns="x", values="value")
    x, y = (_edges(some.to_numpy(dtype=float) / scale) for some in (values.columns, values.index))
    return _draw_fields(axes, x, y, values.to_numpy())


def _draw_fields(axes, x, y, values):
    """Coloured fields between edges; grey ones without a value."""
    missing = numpy.isnan(values)
    if missing.any():
        axes.pcolormesh(x, y, numpy.where(missing, 1, numpy.nan), cmap=ListedColormap([_GREY]), vmin=0, vmax=1)
        axes.legend(handles=[Patch(facecolor=_GREY, edgecolor="0.4", label="no value")], loc="upper right", fontsize=8, framealpha=1)
    return axes.pcolormesh(x, y, values, cmap=_COLOURS, **_range_of(values))


def _range_of(values) -> dict[str, float]:
    """The least and the greatest value, or values about them where they are one."""
    if numpy.isnan(values).all():
        return {"vmin": 0, "vmax": 1}
    least, greatest = float(numpy.nanmin(values)), float(numpy.nanmax(values))
    return {"vmin": least - 0.5, "vmax": greatest + 0.5} if least == greatest else {"vmin": least, "vmax": greatest}


def _edges(values):
    """The edges of fields round some ascending values."""
    if len(values) == 1:
        return numpy.array([values[0] - 0.5, values[0] + 0.5])
    between = (values[1:] + values[:-1]) / 2
    return numpy.concatenate([[values[0] - (between[0] - values[0])], between, [values[-1] + (values[-1] - between[-1])]])


def _draw_dots(axes, samples: Samples, scale: int):
    """Stations or points, a coloured dot for each, with its id where there are few."""
    found = samples.table
    x, y, values = found["x"] / scale, found["y"] / scale, found["value"]
    missing = values.isna()
    axes.scatter(x[missing], y[missing], s=70, facecolor=_GREY, edgecolor="0.4", label="no value")
    drawn = axes.scatter(x[~missing], y[~missing], s=70, c=values[~missing], cmap=_COLOURS, edgecolor="0.2", linewidth=0.7, **_range_of(values))
    if missing.any():
        axes.legend(loc="upper right", fontsize=8, framealpha=1)
    if "location" in found and len(found) <= _MANY_LINES:
        for name, east, north in zip(found["location"], x, y):
            axes.annotate(name, (east, north), xytext=(6, 5), textcoords="offset points", fontsize=8)
    axes.margins(0.12)
    _grid_lines(axes)
    return drawn


def _grid_lines(axes) -> None:
    axes.grid(color="0.91")
    axes.set_axisbelow(True)


# Series


def draw_series(figure, axes, samples: Samples, zone: str, time: str | None, level: float | None) -> None:
    """Values by time, a line for each place and level."""
    if "t" not in samples.table:
        raise NotDrawn("a series needs times")
    samples = samples.at("z", level) if level is not None else samples
    lines = samples.lines()
    if len(lines) > _MANY_LINES:
        raise NotDrawn(f"{len(lines)} lines are too many for a series: ask for fewer places or levels, or draw a map")
    colours = matplotlib.colormaps["tab10" if len(lines) <= 10 else "viridis"].resampled(max(len(lines), 10))
    for place, (name, line) in enumerate(lines):
        axes.plot(line["t"], line["value"], marker="o", markersize=3, linewidth=1.3, color=colours(place), label=name)
    _mark_missing(axes, lines)
    axes.set_ylabel(samples.quantity())
    axes.yaxis.set_major_locator(MaxNLocator(nbins=7, steps=[1, 2, 5, 10]))
    if samples.count("t") == 1:
        hour = pandas.Timedelta(hours=1)
        axes.set_xlim(samples.table["t"].min() - hour, samples.table["t"].max() + hour)
    _time_axis(axes.xaxis, zone)
    _grid_lines(axes)
    if len(lines) > 1 and len(lines) <= _MANY_NAMES:
        axes.legend(fontsize=8, ncols=1, loc="center left", bbox_to_anchor=(1.005, 0.5), frameon=False)
    several = f"{len(lines)} lines" if len(lines) > _MANY_NAMES else ""
    _title(axes, samples, samples.place_name() if samples.count("y", "x") == 1 else several)


def _mark_missing(axes, lines) -> None:
    """Marks at the lower border for times at which a line has no value, in the line's colour."""
    row = 0
    for drawn, (_, line) in zip(list(axes.lines), lines):
        missing = line["t"][line["value"].isna()]
        if len(missing):
            _mark(axes, missing, 0.012 + 0.02 * (row % 8), drawn.get_color())
            row += 1


def _mark(axes, at, height: float, colour) -> None:
    """Marks for what has no value, and what they mean."""
    heights = numpy.full(len(at), height)
    axes.plot(at, heights, linestyle="", marker="x", markersize=4, color=colour, transform=axes.get_xaxis_transform())
    axes.annotate("× no value", (0.995, 0.985), xycoords="axes fraction", ha="right", va="top", fontsize=8, color="0.3")


def _time_axis(axis, zone: str) -> None:
    locator = dates.AutoDateLocator(tz=ZoneInfo(zone), minticks=4, maxticks=9)
    axis.set_major_locator(locator)
    axis.set_major_formatter(dates.ConciseDateFormatter(locator, tz=ZoneInfo(zone)))
    axis.set_label_text(f"time ({zone})")


# Sections


def draw_section(figure, axes, samples: Samples, zone: str, time: str | None, level: float | None) -> None:
    """Along a way, or at one place by time and level."""
    samples = samples.at("z", level) if level is not None else samples
    if samples.count("y", "x") > 1:
        _draw_way(figure, axes, samples, zone, time)
    elif samples.count("t") > 1 and samples.count("z") > 1:
        _draw_times_and_levels(figure, axes, samples, zone)
    elif samples.count("z") > 1:
        _draw_profile(axes, samples, zone)
    else:
        raise NotDrawn("a section needs a way, or several levels")


def _draw_way(figure, axes, samples: Samples, zone: str, time: str | None) -> None:
    if "location" in samples.table or samples.is_grid() and min(samples.count("y"), samples.count("x")) > 1:
        raise NotDrawn("a section needs a way: ask for a trajectory, or for one row or one column of a grid")
    ways = samples.as_way().ways(time)
    samples = ways.samples
    scale, unit = _scale(ways.distance.max())
    if ways.levels is None:
        axes.plot(ways.distance / scale, samples.table["value"], marker="o", markersize=3, linewidth=1.3)
        axes.set_ylabel(samples.quantity())
        _grid_lines(axes)
        _mark_gaps(axes, ways.distance / scale, samples.table["value"])
    else:
        _draw_levels(figure, axes, ways, scale)
    axes.set_xlabel(f"distance along the way ({unit})")
    _title(axes, samples, _when(samples, zone) + _of_several(samples, "t", "time"), _height(samples) if ways.levels is None else "")


def _mark_gaps(axes, distance, values) -> None:
    missing = values.isna().to_numpy()
    if missing.any():
        _mark(axes, distance[missing], 0.012, "0.4")


def _draw_levels(figure, axes, ways, scale: int) -> None:
    """Distance and level: fields where each level has the whole way, else dots."""
    values = ways.samples.table["value"]
    if ways.is_whole:
        count = len(ways.levels)
        drawn = _draw_fields(axes, _edges(ways.distance[: len(values) // count] / scale), _edges(ways.levels), values.to_numpy().reshape(count, -1))
    else:
        levels = ways.samples.table["z"]
        missing = values.isna()
        axes.plot(ways.distance / scale, levels, color="0.8", linewidth=1, zorder=0)
        axes.scatter(ways.distance[missing] / scale, levels[missing], s=45, color=_GREY, label="no value")
        drawn = axes.scatter(ways.distance[~missing] / scale, levels[~missing], s=45, c=values[~missing], cmap=_COLOURS, **_range_of(values))
        if missing.any():
            axes.legend(loc="upper right", fontsize=8, framealpha=1)
    _colour_bar(figure, axes, ways.samples, drawn)
    axes.set_ylabel(ways.samples.level_name())


def _draw_times_and_levels(figure, axes, samples: Samples, zone: str) -> None:
    values = samples.table.pivot(index="z", columns="t", values="value")
    times = _edges(dates.date2num(values.columns.to_pydatetime()))
    drawn = _draw_fields(axes, times, _edges(values.index.to_numpy(dtype=float)), values.to_numpy())
    _colour_bar(figure, axes, samples, drawn)
    axes.set_ylabel(samples.level_name())
    _time_axis(axes.xaxis, zone)
    _title(axes, samples, samples.place_name())


def _draw_profile(axes, samples: Samples, zone: str) -> None:
    found = samples.table.sort_values("z")
    axes.plot(found["value"], found["z"], marker="o", markersize=4)
    axes.set_xlabel(samples.quantity())
    axes.set_ylabel(samples.level_name())
    _grid_lines(axes)
    _title(axes, samples, samples.place_name(), _when(samples, zone))


# The command


def parsed_words() -> argparse.Namespace:
    parser = argparse.ArgumentParser(description=__doc__, formatter_class=argparse.RawDescriptionHelpFormatter)
    parser.add_argument("file", nargs="?", help="a document or a table; without it, standard input")
    parser.add_argument("--out", default="picture.png", help="the PNG that is written, by default picture.png")
    parser.add_argument("--kind", choices=KINDS)
    parser.add_argument("--parameter", help="the id of the parameter, by default the first")
    parser.add_argument("--datetime", help="the time of a map or a section, as 2024-01-01T00:00:00Z")
    parser.add_argument("--z", type=float, help="the level")
    parser.add_argument("--zone", default="UTC", help="the time zone that is written, as Europe/Berlin")
    parser.add_argument("--label", help="what stands as the title, in place of the parameter's label")
    parser.add_argument("--unit", help="the unit, where the document has none")
    return parser.parse_args()


def main() -> int:
    words = parsed_words()
    try:
        ZoneInfo(words.zone)
        with open(words.file, "rb") if words.file else sys.stdin.buffer as source:
            samples = read_samples(source.read(), words.parameter, words.label, words.unit)
        figure = draw(samples, words.kind or suitable_kind(samples), words.zone, words.datetime, words.z)
        figure.savefig(words.out, bbox_inches="tight", pad_inches=0.08)
    except ZoneInfoNotFoundError:
        print(f"plot: no such time zone: {words.zone}", file=sys.stderr)
        return 1
    except (NotDrawn, NotRead, OSError) as fault:
        print(f"plot: {fault}", file=sys.stderr)
        return 1
    return 0


if __name__ == "__main__":
    sys.exit(main())
