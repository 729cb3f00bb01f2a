"""Tries clients that exist against the daemon, over the sample feed; `bench/daemon/CLIENTS.md` has the table of what came of it.

    python3 tools/test_clients.py
    EDRD=crates/edrd/out/edrd EDR=crates/edr/out/edr python3 tools/test_clients.py

Needs Debian's python3-owslib, gdal-bin, qgis and python3-qgis; what isn't installed is left out. `EDR` and `EDRD` are the programs, by
default those at the top of the repository.
"""

import json
import re
import shutil
import subprocess
import sys
import tempfile
import unittest
from importlib.util import find_spec
from pathlib import Path

import edr_client
import sample_feed
from daemons import program, served

_CUBE = "/collections/air/cube?bbox=400000,5600000,423500,5615500&z=10&datetime=2024-01-01T08:00:00Z"
_GAUGES = "/collections/river/radius?coords=POINT(412000 5608000)&within=20&within-units=km"
_HEADINGS = "parameter\tt\tz\ty\tx\tvalue\n"


class _Served(unittest.TestCase):
    @classmethod
    def setUpClass(cls) -> None:
        cls.folder = Path(cls.enterClassContext(tempfile.TemporaryDirectory()))
        feed = cls.folder / "feed.jsonl"
        feed.write_text("".join(json.dumps(line) + "\n" for line in sample_feed.lines()), encoding="utf-8")
        cls.address = cls.enterClassContext(served(feed))
        cls.locations = f"{cls.address}/collections/river/locations"

    def fetched(self, target: str) -> str:
        """The table of a target."""
        return subprocess.run([program("edr"), "fetch", self.address + target], capture_output=True, text=True, check=True).stdout

    def table(self) -> Path:
        """A table with headings, in which a cell without a value is empty."""
        path = self.folder / "river.tsv"
        lines = self.fetched(_GAUGES)
        for _ in range(2):
            lines = re.sub(r"\t-(\t|\n)", r"\t\1", lines)
        path.write_text(_HEADINGS + lines)
        return path

    def raw_table(self) -> Path:
        path = self.folder / "raw.tsv"
        path.write_text(self.fetched(_GAUGES))
        return path

    def document(self) -> Path:
        """CoverageJSON in a file."""
        path = self.folder / "cube.covjson"
        server = edr_client.Server(self.address)
        path.write_text(json.dumps(server.get(["collections", "air", "cube"], bbox="400000,5600000,423500,5615500", z=10)))
        return path

    def picture(self) -> Path:
        """A raster of the grid, by way of lines of x, y and value."""
        rows = [line.split("\t") for line in self.fetched(_CUBE).splitlines()]
        rows.sort(key=lambda row: (-int(row[3]), int(row[4])))
        lines, path = self.folder / "air.xyz", self.folder / "air.tif"
        lines.write_text("".join(f"{row[4]} {row[3]} {-9999 if row[5] == '-' else row[5]}\n" for row in rows))
        subprocess.run(["gdal_translate", "-q", "-a_srs", "EPSG:32633", "-a_nodata", "-9999", lines, path], check=True)
        return path


def ran(*words) -> str:
    """What a program says, on both outputs."""
    return subprocess.run(list(map(str, words)), stdout=subprocess.PIPE, stderr=subprocess.STDOUT, text=True).stdout


@unittest.skipUnless(find_spec("owslib"), "python3-owslib isn't installed")
class OwsLib(_Served):
    def setUp(self) -> None:
        from owslib.ogcapi.features import Features

        self.client = Features(self.address)

    def test_pages(self) -> None:
        self.assertEqual([link["href"] for link in self.client.links], ["/collections", "/conformance"])
        self.assertEqual(self.client.conformance(), {"conformsTo": []})
        self.assertEqual([each["id"] for each in self.client.collections()["collections"]], ["air", "river"])
        self.assertEqual(self.client.collection("air")["title"], "Air of the valley")

    def test_data_by_a_plain_request(self) -> None:
        box = {"bbox": "400000,5600000,401000,5601000", "z": "10"}
        found = edr_client.read(self.client._request("collections/air/cube", kwargs=box))
        self.assertEqual(found.pm10.shape, (24, 1, 3, 3))

    def test_no_features(self) -> None:
        self.assertEqual(self.client.feature_collections(), [])
        for asked in (self.client.collection_items, self.client.collection_queryables):
            with self.assertRaisesRegex(RuntimeError, "NoSuchPage"):
                asked("river")
        with self.assertRaisesRegex(RuntimeError, "service-desc"):
            self.client.api()


@unittest.skipUnless(shutil.which("ogrinfo"), "gdal-bin isn't installed")
class Gdal(_Served):
    def test_locations_need_the_reference_system(self) -> None:
        found = ran("ogrinfo", "-al", "-so", self.locations)
        self.assertIn("Feature Count: 6", found)
        self.assertIn('ID["EPSG",4326]', found)
        path = self.folder / "gauges.gpkg"
        ran("ogr2ogr", "-f", "GPKG", "-a_srs", "EPSG:32633", path, self.locations)
        self.assertIn('ID["EPSG",32633]', ran("ogrinfo", "-al", "-so", path))

    def test_no_features_api(self) -> None:
        found = ran("ogrinfo", "-al", "-so", f"OAPIF:{self.address}")
        self.assertIn("NoSuchPage", found)
        self.assertNotIn("Feature Count: 6", found)

    def test_no_coverage_json(self) -> None:
        self.assertIn("not recognized", ran("gdalinfo", self.document()))

    def test_tables(self) -> None:
        path = self.folder / "river.gpkg"
        places = ("-oo", "X_POSSIBLE_NAMES=x", "-oo", "Y_POSSIBLE_NAMES=y", "-oo", "AUTODETECT_TYPE=YES")
        self.assertEqual(ran("ogr2ogr", "-f", "GPKG", "-a_srs", "EPSG:32633", path, self.table(), *places), "")
        found = ran("ogrinfo", "-q", "-al", "-where", "value IS NULL", path)
        self.assertEqual(found.count("value (Integer) = (null)"), 11)

    def test_dashes_become_zeros(self) -> None:
        """A table as it is, whose cells GDAL tells the types of."""
        words = ("-oo", "HEADERS=NO", "-oo", "AUTODETECT_TYPE=YES", "-al", "-q", "-where", "field_6 = 0")
        found = ran("ogrinfo", self.raw_table(), *words)
        self.assertIn("parsed incompletely to integer 0", found)
        self.assertEqual(found.count("field_6 (Integer) = 0"), 11)

    def test_rasters(self) -> None:
        found = ran("gdalinfo", "-stats", self.picture())
        for part in ("Size is 48, 32", "NoData Value=-9999", "Minimum=8.000, Maximum=87.000", "Pixel Size = (500.000000000000000,-500.000000000000000)"):
            self.assertIn(part, found)


_QGIS = r"""
import json, os, sys
os.environ["QT_QPA_PLATFORM"] = "offscreen"
from qgis.core import QgsApplication, QgsMeshLayer, QgsRasterLayer, QgsVectorLayer
application = QgsApplication([], False)
application.initQgis()
kinds = {"vector": QgsVectorLayer, "raster": QgsRasterLayer, "mesh": QgsMeshLayer}
found = []
for kind, source, provider in json.loads(sys.argv[1]):
    layer = kinds[kind](source, "layer", provider)
    fields = {field.name(): field.typeName() for field in layer.fields()} if layer.isValid() and kind == "vector" else {}
    count = layer.featureCount() if layer.isValid() and kind == "vector" else 0
    found.append([layer.isValid(), layer.crs().authid(), count, fields])
print("FOUND" + json.dumps(found))
"""


def _has_qgis() -> bool:
    return shutil.which("qgis") is not None and find_spec("qgis") is not None


@unittest.skipUnless(_has_qgis(), "qgis and python3-qgis aren't installed")
class Qgis(_Served):
    def layers(self, *sources: tuple[str, str, str]) -> list:
        """Whether each source is a layer, its reference system, and how many features with which fields it has."""
        done = subprocess.run([sys.executable, "-c", _QGIS, json.dumps(sources)], capture_output=True, text=True)
        return json.loads(done.stdout.split("FOUND")[1])

    def test_layers(self) -> None:
        text = "type=csv&delimiter=%5Ct&detectTypes=yes&crs=EPSG:32633"
        table, raw = f"file://{self.table()}?{text}&xField=x&yField=y", f"file://{self.raw_table()}?{text}&useHeader=No&xField=field_5&yField=field_4"
        places, read, untold, grid = self.layers(
            ("vector", self.locations, "ogr"), ("vector", table, "delimitedtext"), ("vector", raw, "delimitedtext"), ("raster", str(self.picture()), "gdal")
        )
        self.assertEqual(places[:3], [True, "EPSG:4326", 6])  # metres, which are taken for degrees
        self.assertEqual(read[:3], [True, "EPSG:32633", 288])
        self.assertEqual((read[3]["t"], read[3]["value"]), ("datetime", "integer"))
        self.assertEqual(untold[3]["field_6"], "text")
        self.assertEqual(grid[:2], [True, "EPSG:32633"])

    def test_what_is_no_layer(self) -> None:
        document = str(self.document())
        features = f" typename='river' url='{self.address}' version='OGC_API_FEATURES'"
        sources = [("vector", document, "ogr"), ("raster", document, "gdal"), ("mesh", document, "mdal"), ("vector", features, "OAPIF")]
        self.assertEqual([found[0] for found in self.layers(*sources)], [False] * 4)


if __name__ == "__main__":
    unittest.main()
