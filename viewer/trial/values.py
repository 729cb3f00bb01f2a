"""Checks of values: under the pointer, of series, along sections, against `edr ask`."""

from .tally import Tally
from .views import View, shown, shown_time


def check_nodes(tally: Tally, view: View, name: str, shares: list[tuple[float, float]]):
    """The value under the pointer and its colour, at shares of the plot."""
    for across, up in shares:
        x, y = view.point(across, up)
        sample, unit = view.asked(x, y)
        tally.equal(f"{name}: the value under the pointer at {x} {y}, {view.time}", view.hovered(x, y), shown(sample, unit))
        colour, middle = view.colour(x, y)
        sample, _ = view.asked(*middle)
        if sample is not None:
            tally.equal(f"{name}: the colour of the pixel round {middle}", colour, view.colour_of(sample))


def check_series(tally: Tally, view: View, name: str, x: int, y: int):
    """A click gives the series at the node."""
    view.tool("point")
    view.page.click(*view.pixel(x, y))
    view.settled()
    wanted = view.asked_series(f"position?coords=POINT({x} {y})&parameter-name={view.parameter}{view.level()}")
    tally.equal(f"{name}: the series at {x} {y}", view.series(), wanted)
    at = dict(wanted)[shown_time(view.time)]
    tally.equal(f"{name}: the value of the series at the time of the map", view.page.text("series-readout"), f"{shown_time(view.time)}: {at}")


def check_station(tally: Tally, view: View, name: str, station: str, place: tuple[int, int]):
    """A click on a station gives its series."""
    view.tool("point")
    view.page.click(*view.pixel(*place))
    view.settled()
    tally.equal(f"{name}: the series of {station}", view.series(), view.asked_series(f"locations/{station}?parameter-name={view.parameter}{view.level()}"))
    tally.equal(f"{name}: {station} is chosen in the list", view.page.js("document.getElementById('station').value"), station)


def check_stations_at(tally: Tally, view: View, name: str, places: dict[str, tuple[int, int]]):
    """The values of stations under the pointer at the time of the map."""
    for station, place in places.items():
        found = view.served.ask(f"/collections/{view.collection}/locations/{station}?datetime={view.time}&parameter-name={view.parameter}{view.level()}")
        wanted = "no value at this time"
        if "ranges" in found:
            wanted = shown(found["ranges"][view.parameter]["values"][0], found["parameters"][view.parameter].get("unit", {}).get("symbol", ""))
        tally.equal(f"{name}: {station} under the pointer, {view.time}", view.hovered(*place), wanted)


def check_section(tally: Tally, view: View, name: str, rows: list[dict]):
    """The values of a section at places of its picture, against the nodes nearest to the points of its line. `rows` tells from the
    lowest up how each is told, and the time and the level that are asked for it."""
    (from_x, from_y), (to_x, to_y) = view.line()
    left, top, width, height = view.page.js("""(() => { const canvas = document.getElementById("section-canvas");
        canvas.scrollIntoView({ block: "center" }); const box = canvas.getBoundingClientRect();
        return [box.left + 58, box.top + 10, box.width - 72, box.height - 42]; })()""")
    middles = _middles([row["at"] for row in rows])
    for row, middle in zip(rows, middles, strict=True):
        for share in (0.06, 0.31, 0.44, 0.69, 0.94):
            view.page.hover(left + share * width, top + height * (1 - middle))
            told = view.page.text("section-readout")
            x, y = round(from_x + share * (to_x - from_x)), round(from_y + share * (to_y - from_y))
            wanted = f"{row['told']}: {shown(*view.asked(x, y, row.get('time'), row.get('level')))}"
            tally.check(f"{name}: the section at {share}", told.endswith(wanted), f"found {told!r}, wanted {wanted!r}")


def _middles(at: list[int]) -> list[float]:
    """The shares of the height at which rows stand, whose cells reach half-way to their neighbours."""
    low, high = at[0] - (at[1] - at[0]) / 2, at[-1] + (at[-1] - at[-2]) / 2
    return [(place - low) / (high - low) for place in at]
