"""Asks a server of OGC API Environmental Data Retrieval, and gives xarray datasets and pandas tables.

    from edr_client import Server

The methods and their words are the standard's (OGC 19-086r6), with `_` for `-`: position, radius, area, cube, trajectory, corridor,
locations and instances; coords, within, within_units, bbox, corridor_width, width_units, datetime, z, parameter_name, crs. The server has
to answer in CoverageJSON, and the values have to be numbers. Needs Debian's python3-xarray, which brings pandas and numpy.

A grid is a dataset: a variable for each parameter, along t, z, y and x, also where an axis has one value. The server of the examples is
started by `./edr make 7 > made.jsonl; ./edrd made.jsonl --port 8080`.

>>> from edr_client import Server
>>> server = Server("http://127.0.0.1:8080")
>>> warm = server.area("grid", "POLYGON((0 200,300 200,0 300,0 200))", datetime="2024-01-01T00:00:00Z")
>>> warm.temp.isel(t=0).to_pandas()
x    0    100  200  300
y
200  3.0  4.0  5.0  6.0
300  6.0  NaN  NaN  NaN
>>> float(warm.temp.max()), warm.temp.attrs["units"], warm.attrs["crs"]
(6.0, 'Cel', 'local')

Stations are a table: a row for each time, and a column for each parameter beside the location, t, z, y and x.

>>> server.locations("sites").head(2)
    label     x    y
id
s00   s00     0    0
s01   s01  1000  500
>>> sites = server.radius("sites", "POINT(0 0)", within=3, within_units="km", datetime="2024-01-01T10:00:00Z/2024-01-01T11:00:00Z")
>>> sites.assign(t=sites.t.dt.hour)
  location   t     y     x  level
0      s00  10     0     0    7.0
1      s00  11     0     0    8.0
2      s01  10   500  1000    8.0
3      s01  11   500  1000    9.0
4      s02  10  1000  2000    9.0
5      s02  11  1000  2000    0.0

A trajectory is a table in the order of its line, and so are the points of a MULTIPOINT; what the server refuses is an EdrError.

>>> server.trajectory("grid", "LINESTRING(0 200,200 100)")[["y", "x", "temp"]]
     y    x  temp
0  200    0   3.0
1  100  200   2.0
>>> server.trajectory("grid", "LINESTRING(-20 0,-10 0)")
Traceback (most recent call last):
edr_client.EdrError: 404 NoSamples: http://127.0.0.1:8080/collections/grid/trajectory?coords=LINESTRING%28-20%200%2C-10%200%29&f=CoverageJSON

Values are floats, NaN where one is missing; every whole number of the server's profile is exact as a float. Times are in UTC, in tables
with that time zone and in datasets without one; where one lies outside the years 1678 to 2261, which pandas can't hold, all stay texts.
A parameter whose id is the name of an axis or `location` has a `_` behind its name.
"""

import json
from datetime import datetime, timezone
from urllib.error import HTTPError
from urllib.parse import quote, urlencode
from urllib.request import Request, urlopen

import numpy
import pandas
import xarray

AXES = ("t", "z", "y", "x")  # the order of axes in datasets and tables
_COMPOSITE = "composite"
_ON_AXES = ("Grid", "Point", "PointSeries", "VerticalProfile")


class EdrError(Exception):
    """What a server refuses: its status, and the code and the number of its body, where it has them."""

    def __init__(self, status: int, code: str, number: int | None, url: str):
        super().__init__(f"{status} {code}: {url}")
        self.status = status
        self.code = code
        self.number = number
        self.url = url


class NotRead(Exception):
    """A document that isn't read here: ranges behind URLs or in tiles, or values that aren't numbers."""


# The server


class Server:
    """A server by its address, such as `http://127.0.0.1:8080`, and how many seconds it may take."""

    def __init__(self, address: str, timeout: float = 60):
        self.address = address.rstrip("/")
        self.timeout = timeout
        self.edition: int | None = None  # the one that the last reply was of, where the server said so

    # what there is

    def collections(self) -> pandas.DataFrame:
        """The collections by their ids: title, reference system, queries and parameters."""
        found = self.get(["collections"], f="json")["collections"]
        rows = [(each.get("title", ""), ", ".join(each.get("crs", [])), *map(_keys, map(each.get, ("data_queries", "parameter_names")))) for each in found]
        ids = pandas.Index([each["id"] for each in found], name="id")
        return pandas.DataFrame(rows, index=ids, columns=["title", "crs", "queries", "parameters"])

    def collection(self, collection: str, instance: str | None = None) -> dict:
        """The description of a collection, or of one of its instances."""
        return self.get(_path(collection, instance), f="json")

    def instances(self, collection: str) -> list[str]:
        """The ids of a collection's instances."""
        return [each["id"] for each in self.get([*_path(collection), "instances"], f="json")["instances"]]

    # queries

    def position(self, collection: str, coords, **words):
        """At a POINT, a dataset; at a MULTIPOINT, a table."""
        return self._ask(collection, "position", coords=coords, **words)

    def radius(self, collection: str, coords, within, within_units: str = "m", **words):
        """Within a distance of a POINT."""
        return self._ask(collection, "radius", coords=coords, within=within, within_units=within_units, **words)

    def area(self, collection: str, coords, **words):
        """In a POLYGON or a MULTIPOLYGON."""
        return self._ask(collection, "area", coords=coords, **words)

    def cube(self, collection: str, bbox, **words):
        """In a box: `minx, miny, maxx, maxy`, or `minx, miny, minz, maxx, maxy, maxz`."""
        return self._ask(collection, "cube", bbox=bbox, **words)

    def trajectory(self, collection: str, coords, **words) -> pandas.DataFrame:
        """At the vertices of a LINESTRING, with times (M) and levels (Z) where it has them."""
        return self._ask(collection, "trajectory", coords=coords, **words)

    def corridor(self, collection: str, coords, corridor_width, width_units: str = "m", **words):
        """Near a LINESTRING: at most half the width from it, and half the `corridor_height` in `height_units`, where given."""
        return self._ask(collection, "corridor", coords=coords, corridor_width=corridor_width, width_units=width_units, **words)

    def locations(self, collection: str, location: str | None = None, **words) -> pandas.DataFrame:
        """The values of one location; without one, where all of them are."""
        if location is not None:
            return table(self.get([*_path(collection), "locations", location], f="CoverageJSON", **words))
        features = self.get([*_path(collection), "locations"], f="json")["features"]
        rows = [(each["properties"].get("label", ""), *each["geometry"]["coordinates"][:2]) for each in features]
        return pandas.DataFrame(rows, index=pandas.Index([each["id"] for each in features], name="id"), columns=["label", "x", "y"])

    def _ask(self, collection: str, query: str, instance: str | None = None, **words):
        return read(self.get([*_path(collection, instance), query], **words, f="CoverageJSON"))

    def get(self, path: list[str], **words) -> dict:
        """The JSON of a page, by the parts of its path and the words of its query text. Raises EdrError."""
        pairs = [(name.replace("_", "-"), spelled(name, value)) for name, value in words.items() if value is not None]
        url = "/".join([self.address, *(quote(part, safe="") for part in path)])
        url += "?" + urlencode(pairs, quote_via=quote) if pairs else ""
        try:
            with urlopen(Request(url, headers={"Accept": "application/json, */*"}), timeout=self.timeout) as reply:
                edition = reply.headers.get("X-Edr-Edition", "")
                self.edition = int(edition) if edition.isdigit() else None
                return json.load(reply)
        except HTTPError as error:
            raise _refusal(error, url) from None


def _path(collection: str, instance: str | None = None) -> list[str]:
    return ["collections", collection] + ([] if instance is None else ["instances", instance])


def _keys(members: dict | None) -> str:
    return ", ".join(members or {})


def _refusal(error: HTTPError, url: str) -> EdrError:
    try:
        body = json.load(error)
    except ValueError:
        body = None
    body = body if isinstance(body, dict) else {}
    return EdrError(error.code, str(body.get("code", error.reason)), body.get("number"), url)


def spelled(name: str, value) -> str:
    """A value of a query as text. Geometries of shapely, times, lists of names or numbers, and intervals of two times are spelled."""
    if isinstance(value, str):
        return value
    if hasattr(value, "wkt"):
        return value.wkt
    if isinstance(value, (datetime, numpy.datetime64)):
        return _instant(value)
    if isinstance(value, (list, tuple)):
        separator = "/" if name == "datetime" else ","
        return separator.join(".." if each is None else spelled(name, each) for each in value)
    return str(value)


def _instant(value) -> str:
    time = pandas.Timestamp(value)
    time = time.tz_localize(timezone.utc) if time.tzinfo is None else time.tz_convert(timezone.utc)
    return time.strftime("%Y-%m-%dT%H:%M:%SZ")


# Documents


def read(document: dict):
    """A document of CoverageJSON: a dataset where it is one coverage on axes, and else a table."""
    is_on_axes = document.get("type") == "Coverage" and document["domain"].get("domainType") in _ON_AXES
    return dataset(document) if is_on_axes else table(document)


def dataset(coverage: dict) -> xarray.Dataset:
    """A coverage whose domain has the axes y and x, and perhaps t and z."""
    part = _Part(coverage, {})
    if _COMPOSITE in part.axes:
        raise NotRead("a domain of tuples is read as a table")
    names = list(part.axes)
    variables = {column_of(key): (names, values, part.attributes(key)) for key, values in part.ranges().items()}
    coordinates = {name: (name, values, part.axis_attributes(name)) for name, values in part.axes.items()}
    return xarray.Dataset(variables, coordinates, part.systems())


def table(document: dict) -> pandas.DataFrame:
    """A row for each place of each coverage: the location's id, t, z, y and x, and the value of each parameter."""
    is_collection = document.get("type") == "CoverageCollection"
    parts = [_Part(each, document) for each in document["coverages"]] if is_collection else [_Part(document, {})]
    if not parts:
        return pandas.DataFrame()
    found = pandas.concat([part.table() for part in parts], ignore_index=True)
    places = [name for name in ("location", *AXES) if name in found.columns]
    found = found[places + [name for name in found.columns if name not in places]]
    if "t" in found.columns and found["t"].dtype != object:
        found["t"] = found["t"].dt.tz_localize("UTC")
    found.attrs = parts[0].systems()
    return found


def column_of(key: str) -> str:
    """The name of a parameter's variable or column: its id, with a `_` behind it where that is the name of an axis."""
    return f"{key}_" if key in (*AXES, "location") else key


def label_of(tree: dict, name: str = "label") -> str:
    """A text in English, or else in the first language that it has."""
    texts = tree.get(name, "")
    return texts if isinstance(texts, str) else texts.get("en") or next(iter(texts.values()), "")


class _Part:
    """A coverage, with what its collection lends it. The axes stand in the order t, z, y, x, composite."""

    def __init__(self, coverage: dict, collection: dict):
        self.coverage = coverage
        self.domain = coverage["domain"]
        if not isinstance(self.domain, dict):
            raise NotRead("the domain stands behind a URL")
        self.parameters = coverage.get("parameters") or collection.get("parameters") or {}
        self.referencing = self.domain.get("referencing") or collection.get("referencing") or []
        axes = self.domain["axes"]
        self.axes = {name: _axis(name, axes[name]) for name in (*AXES, _COMPOSITE) if name in axes}
        self.tuples = _tuples(axes[_COMPOSITE]) if _COMPOSITE in axes else {}

    def table(self) -> pandas.DataFrame:
        """A row for each place, the last axis fastest."""
        indices = numpy.indices([len(values) for values in self.axes.values()])
        columns: dict = {"location": self.coverage["id"]} if "id" in self.coverage else {}
        for (name, values), index in zip(self.axes.items(), indices):
            index = index.ravel()
            columns |= {key: some[index] for key, some in self.tuples.items()} if name == _COMPOSITE else {name: values[index]}
        columns |= {column_of(key): values.ravel() for key, values in self.ranges().items()}
        return pandas.DataFrame(columns, index=range(indices[0].size))

    def ranges(self) -> dict[str, numpy.ndarray]:
        """The values of each parameter along all axes."""
        return {key: self._values(found) for key, found in self.coverage["ranges"].items()}

    def _values(self, found) -> numpy.ndarray:
        if not isinstance(found, dict) or found.get("type") != "NdArray" or found.get("dataType") not in ("integer", "float"):
            raise NotRead("a range isn't an NdArray of numbers")
        names, shape = found.get("axisNames", []), found.get("shape", [])
        values = numpy.array(found["values"], dtype=float).reshape(shape)
        wanted = [name for name in self.axes if name in names]
        values = values.transpose([names.index(name) for name in wanted])
        return values.reshape([len(axis) for axis in self.axes.values()])

    def attributes(self, key: str) -> dict[str, str]:
        """The label and the unit of a parameter, by the names of the CF conventions."""
        tree = self.parameters.get(key, {})
        found = {"long_name": label_of(tree.get("observedProperty", {})), "units": unit_of(tree)}
        return {name: text for name, text in found.items() if text}

    def axis_attributes(self, name: str) -> dict[str, str]:
        is_projected = any(each.get("system", {}).get("type") == "ProjectedCRS" for each in self.referencing)
        return {"units": "m"} if name in ("x", "y") and is_projected else {}

    def systems(self) -> dict[str, str]:
        """The ids of the reference systems of x and y, and of z, where they have some."""
        found = {}
        for each in self.referencing:
            system, names = each.get("system", {}), each.get("coordinates", [])
            if "id" in system and system.get("type") != "TemporalRS":
                found.setdefault("crs" if "x" in names else "vertical", system["id"])
        return found


def unit_of(parameter: dict) -> str:
    """The symbol of a parameter's unit, or else its label."""
    unit = parameter.get("unit") or {}
    symbol = unit.get("symbol")
    return symbol.get("value", "") if isinstance(symbol, dict) else symbol or label_of(unit)


def _axis(name: str, axis: dict) -> numpy.ndarray:
    """The values of an axis; of tuples their places in the list."""
    if name == _COMPOSITE:
        return numpy.arange(len(axis["values"]))
    if "values" in axis:
        return times(axis["values"]) if name == "t" else numpy.array(axis["values"])
    values = numpy.linspace(axis["start"], axis["stop"], axis["num"])
    is_whole = all(float(axis[end]).is_integer() for end in ("start", "stop")) and bool(numpy.all(values == numpy.round(values)))
    return values.astype(int) if is_whole else values


def _tuples(axis: dict) -> dict[str, numpy.ndarray]:
    """The values of each coordinate of an axis of tuples."""
    if axis.get("dataType") != "tuple":
        raise NotRead("an axis of polygons")
    columns = zip(*axis["values"])
    return {name: times(values) if name == "t" else numpy.array(values) for name, values in zip(axis["coordinates"], columns)}


def times(texts) -> numpy.ndarray:
    """Times in UTC, or the texts where pandas can't hold one of them."""
    try:
        return pandas.to_datetime(list(texts), utc=True).tz_localize(None).to_numpy()
    except (pandas.errors.OutOfBoundsDatetime, ValueError):
        return numpy.array(texts, dtype=object)
