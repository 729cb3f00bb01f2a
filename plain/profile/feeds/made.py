"""The feed that is made of a number, to try a program on and to measure it."""

from plain.profile.coverage_json.coverages import Coverage, Domain, Parameter, Referencing
from plain.profile.coverage_json.written import coverage_tree
from plain.profile.json_text import write_json

FIRST_TIME = 1_704_067_200  # 2024-01-01T00:00:00Z
HOUR = 3_600

COLUMNS, ROWS = 1_040, 500
STATIONS, TIMES = 40, 300


def made_feed(number: int) -> str:
    """The lines of the feed: a grid, stations, and a publish."""
    lines = [
        _collection("grid", "grid"),
        {"grid": {"collection": "grid", "instance": "1", "coverage": coverage_tree(_grid(number))}},
        _collection("sites", "station"),
        *(_station(number, station) for station in range(STATIONS)),
        {"publish": {}},
    ]
    return "".join(write_json(line) + "\n" for line in lines)


def _collection(id_: str, kind: str) -> dict:
    return {"collection": {"id": id_, "kind": kind, "title": id_, "crs": "local"}}


def _grid(number: int) -> Coverage:
    axes = {"t": [FIRST_TIME], "y": range(0, 100 * ROWS, 100), "x": range(0, 100 * COLUMNS, 100)}
    values = [_node_value(number, row, column) for row in range(ROWS) for column in range(COLUMNS)]
    return _coverage(Domain("Grid", axes), "temp", "Cel", values)


def _node_value(number: int, row: int, column: int) -> int | None:
    return None if (column + row) % 13 == 0 else (number + column + 3 * row) % 10


def _station(number: int, station: int) -> dict:
    id_ = f"s{station:02}"
    times = range(FIRST_TIME, FIRST_TIME + TIMES * HOUR, HOUR)
    domain = Domain("PointSeries", {"t": times, "y": [500 * station], "x": [1_000 * station]})
    values = [(number + station + time) % 10 for time in range(TIMES)]
    coverage = _coverage(domain, "level", "m", values)
    return {"station": {"collection": "sites", "id": id_, "label": id_, "coverage": coverage_tree(coverage)}}


def _coverage(domain: Domain, id_: str, unit: str, values: list[int | None]) -> Coverage:
    """A coverage of one parameter, whose label is its id."""
    return Coverage(None, domain, Referencing("local", None), [Parameter(id_, "en", id_, unit)], [values])
