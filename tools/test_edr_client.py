"""Tries `edr_client.py` against the daemon: the examples in its docstring, and each query on grids and stations.

    python3 tools/test_edr_client.py
    EDRD=crates/edrd/out/edrd python3 tools/test_edr_client.py

`EDRD` is the daemon that is started, by default `./edrd`.
"""

import datetime
import doctest
import json
import sys
import tempfile
import unittest
from pathlib import Path

import numpy
import pandas

import edr_client
import sample_feed
from daemons import TOP, served

sys.path.append(str(TOP))
from plain.profile.feeds.made import made_feed  # noqa: E402

CITY = "POINT(406000 5608000)"
NOON = "2024-01-01T12:00:00Z"


def feed_file(folder: str, text: str) -> Path:
    path = Path(folder, "feed.jsonl")
    path.write_text(text, encoding="utf-8")
    return path


class Examples(unittest.TestCase):
    def test_docstring(self) -> None:
        with tempfile.TemporaryDirectory() as folder, served(feed_file(folder, made_feed(7))) as address:
            text = edr_client.__doc__.replace("http://127.0.0.1:8080", address)
            examples = doctest.DocTestParser().get_doctest(text, {}, "edr_client", edr_client.__file__, 0)
            found = doctest.DocTestRunner(optionflags=doctest.NORMALIZE_WHITESPACE).run(examples)
            self.assertEqual(found.failed, 0)
            self.assertGreater(found.attempted, 8)


class Queries(unittest.TestCase):
    @classmethod
    def setUpClass(cls) -> None:
        folder = cls.enterClassContext(tempfile.TemporaryDirectory())
        feed = feed_file(folder, "".join(json.dumps(line) + "\n" for line in sample_feed.lines()))
        cls.server = edr_client.Server(cls.enterClassContext(served(feed)))

    def test_what_there_is(self) -> None:
        found = self.server.collections()
        self.assertEqual(list(found.index), ["air", "river"])
        self.assertEqual(found.loc["river", "queries"], "area, corridor, cube, locations, radius")
        self.assertEqual(self.server.instances("air"), ["2024-01-01T00"])
        self.assertEqual(self.server.collection("air")["title"], "Air of the valley")
        self.assertEqual(self.server.collection("air", "2024-01-01T00")["id"], "2024-01-01T00")
        self.assertEqual(self.server.edition, 1)

    def test_point(self) -> None:
        found = self.server.position("air", CITY)
        self.assertEqual(dict(found.sizes), {"t": 24, "z": 4, "y": 1, "x": 1})
        found = self.server.position("air", CITY, datetime=NOON, z=10)
        self.assertEqual(dict(found.sizes), {"t": 1, "z": 1, "y": 1, "x": 1})
        self.assertEqual(found.attrs, {"crs": sample_feed.CRS, "vertical": sample_feed.VERTICAL})
        self.assertEqual(found.pm10.attrs, {"long_name": "Particles PM10", "units": "ug/m3"})
        self.assertEqual(found.t.values[0], numpy.datetime64("2024-01-01T12:00"))

    def test_points(self) -> None:
        coords = "MULTIPOINT((406000 5608000),(416000 5610000))"
        one = self.server.position("air", coords, datetime=NOON, z=10)
        self.assertEqual(list(one.columns), ["t", "z", "y", "x", "pm10"])
        self.assertEqual(len(one), 2)
        self.assertEqual(len(self.server.position("air", coords, z=10)), 48)

    def test_values_are_where_they_belong(self) -> None:
        """A cube has at each of its nodes what a position there has."""
        cube = self.server.cube("air", (405_000, 5_607_000, 406_000, 5_608_500), datetime=NOON)
        for x in cube.x.values:
            for y in cube.y.values:
                point = self.server.position("air", f"POINT({x} {y})", datetime=NOON)
                numpy.testing.assert_array_equal(cube.pm10.sel(x=x, y=y).values.ravel(), point.pm10.values.ravel())

    def test_grids(self) -> None:
        polygon = "POLYGON((405000 5607000,408000 5607000,405000 5610000,405000 5607000))"
        self.assertTrue(numpy.isnan(self.server.area("air", polygon, z=10).pm10.values).any())
        self.assertEqual(self.server.radius("air", CITY, 1, "km", z=10, datetime=NOON).pm10.shape, (1, 1, 5, 5))
        box = (405_000, 5_607_000, 10, 406_000, 5_608_000, 60)
        self.assertEqual(list(self.server.cube("air", box, instance="2024-01-01T00").z.values), [10, 50])
        line = "LINESTRING Z(405000 5607000 10,406000 5608000 60)"
        found = self.server.corridor("air", line, 1000, corridor_height=20, height_units="m")
        self.assertEqual(list(found.z.values), [10, 50])

    def test_times(self) -> None:
        def hours(times) -> int:
            return self.server.position("air", CITY, z=10, datetime=times).sizes["t"]

        at = datetime.datetime(2024, 1, 1, 12, tzinfo=datetime.timezone.utc)
        self.assertEqual(hours(at), 1)
        self.assertEqual(hours((at, None)), 12)
        self.assertEqual(hours((numpy.datetime64("2024-01-01T02:00"), pandas.Timestamp("2024-01-01T05:00+01:00"))), 3)

    def test_trajectory(self) -> None:
        found = self.server.trajectory("air", f"LINESTRING M(405000 5607000 1704067200,406000 5608000 1704070800)", z=10)
        self.assertEqual(list(found["t"]), [pandas.Timestamp("2024-01-01T00:00Z"), pandas.Timestamp("2024-01-01T01:00Z")])
        self.assertEqual(len(self.server.trajectory("air", "LINESTRING(405000 5607000,406000 5608000)")), 2 * 24 * 4)

    def test_stations(self) -> None:
        places = self.server.locations("river")
        self.assertEqual(list(places.index), list("ABCDEF"))
        found = self.server.locations("river", "B")
        self.assertEqual(list(found.columns), ["location", "t", "y", "x", "level"])
        self.assertEqual(int(found["level"].isna().sum()), 8)
        self.assertEqual(int(found["x"].iloc[0]), places.loc["B", "x"])
        near = self.server.radius("river", f"POINT({places.loc['B', 'x']} {places.loc['B', 'y']})", within=0)
        pandas.testing.assert_frame_equal(near, found)
        line = "LINESTRING(400000 5608000,424000 5608000)"
        self.assertEqual(set(self.server.corridor("river", line, 20, "km", datetime=NOON)["location"]), set("ABCDEF"))

    def test_refusals(self) -> None:
        with self.assertRaises(edr_client.EdrError) as found:
            self.server.position("river", CITY)
        self.assertEqual((found.exception.status, found.exception.code, found.exception.number), (400, "QueryNotOffered", 21))
        with self.assertRaises(edr_client.EdrError) as found:
            self.server.position("air", CITY, resolution_x=5)
        self.assertEqual(found.exception.code, "UnknownParameter")


class Documents(unittest.TestCase):
    """Documents of other servers."""

    def test_other_forms(self) -> None:
        axes = {"x": {"start": 0.5, "stop": 2.5, "num": 3}, "y": {"values": [50.25]}, "t": {"values": ["0001-01-01T00:00:00Z"]}}
        parameter = {"type": "Parameter", "observedProperty": {"label": {"de": "Wind"}}, "unit": {"symbol": {"value": "m/s", "type": "u"}}}
        found = edr_client.read({
            "type": "Coverage",
            "domain": {"type": "Domain", "domainType": "Grid", "axes": axes, "referencing": []},
            "parameters": {"w": parameter},
            "ranges": {"w": {"type": "NdArray", "dataType": "float", "axisNames": ["x"], "shape": [3], "values": [1.5, None, 2]}},
        })
        numpy.testing.assert_array_equal(found.w.sel(y=50.25, x=[0.5, 1.5, 2.5]).values.ravel(), [1.5, numpy.nan, 2])
        self.assertEqual(found.w.attrs, {"long_name": "Wind", "units": "m/s"})
        self.assertEqual(found.t.values[0], "0001-01-01T00:00:00Z")

    def test_parameter_named_as_an_axis(self) -> None:
        domain = {"type": "Domain", "domainType": "Point", "axes": {"x": {"values": [1]}, "y": {"values": [5]}}, "referencing": []}
        found = {"type": "Coverage", "domain": domain, "parameters": {"x": {}}, "ranges": {"x": {"type": "NdArray", "dataType": "integer", "values": [7]}}}
        self.assertEqual(edr_client.table(found).to_dict("records"), [{"y": 5, "x": 1, "x_": 7.0}])
        self.assertEqual(float(edr_client.read(found)["x_"].sel(x=1, y=5)), 7)

    def test_order_of_axes(self) -> None:
        axes = {"x": {"values": [1, 2]}, "y": {"values": [5, 6, 7]}}
        found = edr_client.read({
            "type": "Coverage",
            "domain": {"type": "Domain", "domainType": "Grid", "axes": axes, "referencing": []},
            "parameters": {"a": {}},
            "ranges": {"a": {"type": "NdArray", "dataType": "integer", "axisNames": ["x", "y"], "shape": [2, 3], "values": [15, 16, 17, 25, 26, 27]}},
        })
        self.assertEqual(found.a.dims, ("y", "x"))
        self.assertEqual(float(found.a.sel(x=2, y=6)), 26)

    def test_not_read(self) -> None:
        domain = {"type": "Domain", "domainType": "Point", "axes": {"x": {"values": [1]}, "y": {"values": [5]}}, "referencing": []}
        for found in ("http://example.com/range", {"type": "NdArray", "dataType": "string", "values": ["a"]}, {"type": "TiledNdArray"}):
            with self.assertRaises(edr_client.NotRead):
                edr_client.read({"type": "Coverage", "domain": domain, "parameters": {"a": {}}, "ranges": {"a": found}})


if __name__ == "__main__":
    unittest.main()
