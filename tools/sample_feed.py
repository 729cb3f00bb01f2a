"""Writes a feed to try pictures on: the air of a valley over a day, and the gauges of its river.

    python3 tools/sample_feed.py > sample.jsonl

The collection `air` is a grid of 48 by 32 nodes, 500 metres apart, at four heights and 24 hours: `pm10`, particles in ug/m3, with a lake
where nothing is measured. The collection `river` has six gauges, with the water level in cm at 48 hours; two of them were silent for a while.
All of it is made by sums of smooth functions.
"""

import json
import math

CRS = "http://www.opengis.net/def/crs/EPSG/0/32633"
VERTICAL = "height above ground"
_WEST, _SOUTH, _STEP = 400_000, 5_600_000, 500
_COLUMNS, _ROWS = 48, 32
_HEIGHTS = [10, 50, 150, 300]
_GAUGES = {"A": "Alder Bridge", "B": "Birch Weir", "C": "Cedar Lock", "D": "Dogwood Ford", "E": "Elm Mill", "F": "Fir Mouth"}
_SILENT = {"B": range(14, 22), "E": [5, 30, 31]}


def _times(count: int) -> list[str]:
    return [f"2024-01-{1 + hour // 24:02}T{hour % 24:02}:00:00Z" for hour in range(count)]


def _valley(x: float) -> float:
    """How far north the river is, from 0 to 1, by how far east."""
    return 0.5 + 0.22 * math.sin(5 * x)


def _particles(x: float, y: float, height: int, hour: int) -> int | None:
    """By the place from 0 to 1: most in the valley and over two towns, in the morning and in the evening."""
    if ((x - 0.72) / 0.07) ** 2 + ((y - 0.8) / 0.08) ** 2 < 1:
        return None  # the lake
    valley = math.exp(-(((y - _valley(x)) / 0.16) ** 2))
    towns = sum(math.exp(-((x - east) ** 2 + (y - _valley(east)) ** 2) / 0.012) for east in (0.25, 0.68))
    traffic = math.exp(-(((hour - 8) / 2.5) ** 2)) + math.exp(-(((hour - 18) / 3) ** 2))
    return round((8 + 26 * valley + 45 * towns * (0.3 + traffic)) * math.exp(-height / 160))


def _level(place: int, hour: int) -> int | None:
    """A flood that runs from gauge to gauge."""
    if hour in _SILENT.get("ABCDEF"[place], ()):
        return None
    return round(120 + 14 * place + (150 - 15 * place) * math.exp(-(((hour - 12 - 4 * place) / (5 + place)) ** 2)))


def _coverage(kind: str, axes: dict, key: str, label: str, unit: str, values: list) -> dict:
    referencing = [{"coordinates": ["x", "y"], "system": {"type": "ProjectedCRS", "id": CRS}}]
    if "z" in axes:
        referencing.append({"coordinates": ["z"], "system": {"type": "VerticalCRS", "id": VERTICAL}})
    referencing.append({"coordinates": ["t"], "system": {"type": "TemporalRS", "calendar": "Gregorian"}})
    names = [name for name in "tzyx" if name in axes and len(axes[name]) > 1]
    return {
        "type": "Coverage",
        "domain": {"type": "Domain", "domainType": kind, "axes": {name: {"values": some} for name, some in axes.items()}, "referencing": referencing},
        "parameters": {key: {"type": "Parameter", "observedProperty": {"label": {"en": label}}, "unit": {"symbol": unit}}},
        "ranges": {key: {"type": "NdArray", "dataType": "integer", "axisNames": names, "shape": [len(axes[name]) for name in names], "values": values}},
    }


def _air() -> dict:
    rows, columns, hours = range(_ROWS), range(_COLUMNS), range(24)
    places = [(column / (_COLUMNS - 1), row / (_ROWS - 1)) for row in rows for column in columns]
    values = [_particles(x, y, height, hour) for hour in hours for height in _HEIGHTS for x, y in places]
    axes = {"t": _times(24), "z": _HEIGHTS, "y": [_SOUTH + _STEP * row for row in rows], "x": [_WEST + _STEP * column for column in columns]}
    return _coverage("Grid", axes, "pm10", "Particles PM10", "ug/m3", values)


def _gauge(place: int) -> dict:
    x = 4_000 * place + 1_500
    y = round(15_500 * _valley(x / 23_500))
    axes = {"t": _times(48), "y": [_SOUTH + y], "x": [_WEST + x]}
    return _coverage("PointSeries", axes, "level", "Water level", "cm", [_level(place, hour) for hour in range(48)])


def lines() -> list[dict]:
    """The lines of the feed."""
    found = [
        {"collection": {"id": "air", "kind": "grid", "title": "Air of the valley", "crs": CRS, "vertical": VERTICAL}},
        {"grid": {"collection": "air", "instance": "2024-01-01T00", "coverage": _air()}},
        {"collection": {"id": "river", "kind": "station", "title": "Gauges of the river", "crs": CRS}},
    ]
    for place, (id_, label) in enumerate(_GAUGES.items()):
        found.append({"station": {"collection": "river", "id": id_, "label": label, "coverage": _gauge(place)}})
    return [*found, {"publish": {}}]


if __name__ == "__main__":
    for line in lines():
        print(json.dumps(line, separators=(",", ":")))
