"""A feed with all that a collection may have: levels, instances, two parameters, missing values, axes that aren't even."""

import json
from math import cos, hypot, sin

CRS = "http://www.opengis.net/def/crs/EPSG/0/32633"
VERTICAL = "http://www.opengis.net/def/crs/EPSG/0/5714"
X = list(range(280000, 460001, 2500)) + [464000, 470000, 478000, 488000]
Y = list(range(5240000, 5350001, 2500))
LEVELS = [10, 250, 500, 1000, 1500, 2500]
TIMES = [f"2024-06-0{1 + hour // 24}T{hour % 24:02}:00:00Z" for hour in range(0, 48, 6)]
PARAMETERS = {
    "temp": {"type": "Parameter", "unit": {"symbol": "Cel"}, "observedProperty": {"label": {"en": "Air temperature"}}},
    "wind": {"type": "Parameter", "unit": {"symbol": "m/s"}, "observedProperty": {"label": {"en": "Wind speed"}}},
}
REFERENCING = [
    {"coordinates": ["x", "y"], "system": {"type": "ProjectedCRS", "id": CRS}},
    {"coordinates": ["z"], "system": {"type": "VerticalCRS", "id": VERTICAL}},
    {"coordinates": ["t"], "system": {"type": "TemporalRS", "calendar": "Gregorian"}},
]


def _temp(t: int, z: int, y: int, x: int) -> int | None:
    """Warmer by day and in the south, colder above; missing below the ground of a mountain."""
    if hypot(x - 390000, y - 5300000) < 14000 - 9 * z:
        return None
    return round(9 + 6 * sin(t / 1.3 - 1.2) - z / 130 - (y - 5290000) / 14000 + 4 * sin(x / 31000) * cos(y / 23000))


def _wind(t: int, z: int, y: int, x: int) -> int | None:
    return round(3 + z / 180 + 4 * sin(x / 45000 - t / 1.5) ** 2 * (1 + cos(y / 30000)))


def _coverage(kind: str, axes: dict, late: int) -> dict:
    order = [name for name in ("t", "z", "y", "x") if kind == "Grid" or name == "t"]
    places = [(t, z, y, x) for t in range(len(TIMES)) for z in axes["z"] for y in axes["y"] for x in axes["x"]]
    shape = [len(TIMES) if name == "t" else len(axes[name]) for name in order]
    ranges = {
        name: {"type": "NdArray", "dataType": "integer", "axisNames": order, "shape": shape, "values": [value(t + late, z, y, x) for t, z, y, x in places]}
        for name, value in (("temp", _temp), ("wind", _wind))
    }
    listed = {name: {"values": values} for name, values in ({"t": TIMES} | axes).items()}
    domain = {"type": "Domain", "domainType": kind, "axes": listed, "referencing": REFERENCING}
    return {"type": "Coverage", "domain": domain, "parameters": PARAMETERS, "ranges": ranges}


def weather_lines() -> list[dict]:
    """The lines of the feed: a collection of grids with two instances, and one of masts."""
    lines = [{"collection": {"id": "weather", "kind": "grid", "title": "Weather, western hills", "crs": CRS, "vertical": VERTICAL}}]
    for late, instance in enumerate(("2024-06-01T00", "2024-06-01T06")):
        lines.append({"grid": {"collection": "weather", "instance": instance, "coverage": _coverage("Grid", {"z": LEVELS, "y": Y, "x": X}, late)}})
    lines.append({"collection": {"id": "masts", "kind": "station", "title": "Masts", "crs": CRS, "vertical": VERTICAL}})
    for number, (x, y) in enumerate([(300000, 5250000), (352500, 5320000), (390000, 5300000), (455000, 5270000), (481000, 5345000)]):
        coverage = _coverage("PointSeries", {"z": [10], "y": [y], "x": [x]}, 0)
        lines.append({"station": {"collection": "masts", "id": f"M{number}", "label": f"Mast {number}", "coverage": coverage}})
    return [*lines, {"collection": {"id": "empty", "kind": "grid", "title": "Nothing yet", "crs": CRS}}, {"publish": {}}]


def weather_feed(path: str):
    with open(path, "w", encoding="utf-8") as file:
        for line in weather_lines():
            file.write(json.dumps(line, separators=(",", ":")) + "\n")


def large_feed(path: str):
    """A grid of 2,100,000 nodes at one time, which is more than a reply may have, and 5,001 stations, which are too."""
    wide, high = 1500, 1400
    row = ",".join(str(x % 10) for x in range(wide + 10))
    values = ",".join(row[2 * (3 * y % 10):][: 2 * wide - 1] for y in range(high))
    referencing = json.dumps(REFERENCING[::2])
    with open(path, "w", encoding="utf-8") as file:
        file.write(json.dumps({"collection": {"id": "fine", "kind": "grid", "title": "Fine grid", "crs": CRS}}) + "\n")
        axes = f'"x":{{"start":0,"stop":{50 * (wide - 1)},"num":{wide}}},"y":{{"start":0,"stop":{50 * (high - 1)},"num":{high}}},"t":{{"values":["{TIMES[0]}"]}}'
        domain = f'{{"type":"Domain","domainType":"Grid","axes":{{{axes}}},"referencing":{referencing}}}'
        array = f'{{"type":"NdArray","dataType":"integer","axisNames":["t","y","x"],"shape":[1,{high},{wide}],"values":[{values}]}}'
        coverage = f'{{"type":"Coverage","domain":{domain},"parameters":{json.dumps({"temp": PARAMETERS["temp"]})},"ranges":{{"temp":{array}}}}}'
        file.write(f'{{"grid":{{"collection":"fine","instance":"1","coverage":{coverage}}}}}\n')
        file.write(json.dumps({"collection": {"id": "many", "kind": "station", "title": "Many stations", "crs": CRS}}) + "\n")
        for number in range(5001):
            file.write(json.dumps(_small_station(number)) + "\n")
        file.write('{"publish":{}}\n')


def _small_station(number: int) -> dict:
    axes = {"x": {"values": [number % 100 * 1000]}, "y": {"values": [number // 100 * 1000]}, "t": {"values": TIMES[:2]}}
    domain = {"type": "Domain", "domainType": "PointSeries", "axes": axes, "referencing": REFERENCING[::2]}
    array = {"type": "NdArray", "dataType": "integer", "axisNames": ["t"], "shape": [2], "values": [number, -number]}
    coverage = {"type": "Coverage", "domain": domain, "parameters": {"temp": PARAMETERS["temp"]}, "ranges": {"temp": array}}
    return {"station": {"collection": "many", "id": f"N{number}", "label": f"Station {number}", "coverage": coverage}}
