"""Draws one picture of each kind, from what `edr` gives over the sample feed.

    python3 tools/test_plot.py [--out FOLDER] [--edr PROGRAM]

The pictures stand in FOLDER then, by default `out/pictures`, to be looked at. PROGRAM is by default `./edr`; one that ends with `.py` is
run by Python. The last line is `N drawn, M refused as they should be`; the status is 1 where a picture is missing or has one colour.
"""

import argparse
import json
import subprocess
import sys
from pathlib import Path

import matplotlib.image

import sample_feed
from daemons import TOP, program

_AIR, _RIVER = "/collections/air", "/collections/river"
_BOX = "bbox=400000,5600000,423500,5615500"
_WAY = "401000 5607800,404000 5611200,409000 5612500,414000 5609000,418000 5605800,423000 5604500"
_FLIGHT = "401000 5607800 10 1704067200,409000 5612500 160 1704085200,414000 5609000 300 1704099600,423000 5604500 10 1704124800"
_GAUGES = "coords=POINT(412000 5608000)&within=20&within-units=km"


def _fine_way() -> str:
    """The way with many vertices, so that each node along it is met."""
    ends = [tuple(map(int, each.split())) for each in _WAY.split(",")]
    places = [tuple(round(a + (b - a) * part / 12) for a, b in zip(first, last)) for first, last in zip(ends, ends[1:]) for part in range(12)]
    return ",".join(f"{x} {y}" for x, y in [*places, ends[-1]])


def _timed_way() -> str:
    """The way from 00:00 on, ten minutes from vertex to vertex."""
    return ",".join(f"{place} {1_704_067_200 + 600 * number}" for number, place in enumerate(_fine_way().split(",")))


# The name of a picture, the target, the words of plot.py, and whether it is drawn of the table that `edr show` writes.
PICTURES = [
    ("map", f"{_AIR}/cube?{_BOX}&datetime=2024-01-01T08:00:00Z&z=10", "", False),
    ("map_of_several", f"{_AIR}/cube?{_BOX}", "--datetime 2024-01-01T18:00:00Z --z 50 --zone Europe/Berlin", False),
    ("map_of_area", f"{_AIR}/area?coords=POLYGON((402000 5603000,412000 5602000,420000 5612000,404000 5613000,402000 5603000))&z=10&datetime=2024-01-01T18:00:00Z", "", False),
    ("map_of_corridor", f"{_AIR}/corridor?coords=LINESTRING({_WAY})&corridor-width=3&width-units=km&z=10&datetime=2024-01-01T18:00:00Z", "", False),
    ("map_of_stations", f"{_RIVER}/radius?{_GAUGES}&datetime=2024-01-01T16:00:00Z", "", False),
    ("map_of_points", f"{_AIR}/position?coords=MULTIPOINT(405000 5607000,412000 5610000,416600 5612300)&z=10&datetime=2024-01-01T08:00:00Z", "", False),
    ("map_of_table", f"{_AIR}/cube?{_BOX}&datetime=2024-01-01T08:00:00Z&z=10", "--label Particles --unit ug/m3", True),
    ("series", f"{_RIVER}/radius?{_GAUGES}", "", False),
    ("series_of_one", f"{_RIVER}/locations/B", "--zone America/New_York", False),
    ("series_of_table", f"{_RIVER}/radius?{_GAUGES}", "--label Level --unit cm --zone Europe/Berlin", True),
    ("series_of_point", f"{_AIR}/position?coords=POINT(406000 5610500)", "--kind series", False),
    ("section_of_trajectory", f"{_AIR}/trajectory?coords=LINESTRING({_fine_way()})&z=10&datetime=2024-01-01T08:00:00Z", "", False),
    ("section_of_way_in_time", f"{_AIR}/trajectory?coords=LINESTRING M({_timed_way()})&z=10", "", False),
    ("section_of_levels", f"{_AIR}/trajectory?coords=LINESTRING({_fine_way()})&datetime=2024-01-01T08:00:00Z", "", False),
    ("section_of_flight", f"{_AIR}/trajectory?coords=LINESTRING ZM({_FLIGHT})", "", False),
    ("section_of_row", f"{_AIR}/cube?bbox=400000,5612000,423500,5612000", "--datetime 2024-01-01T18:00:00Z", False),
    ("section_of_times", f"{_AIR}/position?coords=POINT(406000 5610500)", "", False),
    ("section_of_profile", f"{_AIR}/position?coords=POINT(406000 5610500)&datetime=2024-01-01T08:00:00Z", "", False),
    ("section_of_table", f"{_AIR}/trajectory?coords=LINESTRING({_fine_way()})&z=10&datetime=2024-01-01T08:00:00Z", "--kind section --unit ug/m3", True),
]

# What plot.py refuses: the target or the input, its words, and what its line has.
REFUSED = [
    (f"{_AIR}/cube?{_BOX}&z=10&datetime=2024-01-01T08:00:00Z", "--kind section", "a section needs a way"),
    (f"{_AIR}/cube?{_BOX}&z=10", "--kind series", "too many for a series"),
    (f"{_AIR}/cube?{_BOX}", "--z 11", "nothing is at z 11.0; there are 10, 50, 150, 300"),
    (f"{_AIR}/cube?{_BOX}", "--datetime 2025-01-01T00:00:00Z", "nothing is at t 2025-01-01T00:00:00Z"),
    (f"{_AIR}/cube?{_BOX}", "--datetime noon", "noon is no time"),
    (f"{_AIR}/cube?{_BOX}", "--parameter wind", "no parameter wind; there are pm10"),
    (f"{_AIR}/cube?{_BOX}", "--zone Mars/Olympus", "no such time zone"),
    (f"{_AIR}", "", "the input has no values to draw"),
    (b"", "", "nothing is there to draw"),
    (b"{", "", "no JSON"),
    (b"a,b\n1,2\n", "", "neither CoverageJSON nor a table"),
]


class Tester:
    """Runs `edr` and `plot.py`."""

    def __init__(self, edr: str, folder: Path):
        self.edr = [sys.executable, edr] if edr.endswith(".py") else [edr]
        self.folder = folder
        self.feed = "".join(json.dumps(line) + "\n" for line in sample_feed.lines()).encode()

    def document(self, target: str, is_table: bool = False) -> bytes:
        found = subprocess.run([*self.edr, "ask", target], input=self.feed, stdout=subprocess.PIPE, check=True).stdout
        return subprocess.run([*self.edr, "show"], input=found, stdout=subprocess.PIPE, check=True).stdout if is_table else found

    def plot(self, document: bytes, words: str, out: Path) -> subprocess.CompletedProcess:
        command = [sys.executable, str(TOP / "tools" / "plot.py"), "--out", str(out), *words.split()]
        return subprocess.run(command, input=document, capture_output=True)

    def fault_of_picture(self, name: str, target: str, words: str, is_table: bool) -> str:
        """What is wrong with a picture, or nothing."""
        out = self.folder / f"{name}.png"
        out.unlink(missing_ok=True)
        done = self.plot(self.document(target, is_table), words, out)
        if done.returncode or done.stderr:
            return f"status {done.returncode}: {done.stderr.decode()}"
        return "one colour" if matplotlib.image.imread(out).std() < 0.01 else ""

    def fault_of_refusal(self, source: str | bytes, words: str, line: str) -> str:
        out = self.folder / "refused.png"
        done = self.plot(source if isinstance(source, bytes) else self.document(source), words, out)
        is_good = done.returncode == 1 and line in done.stderr.decode() and done.stderr.count(b"\n") == 1 and not out.exists()
        return "" if is_good else f"status {done.returncode}: {done.stderr.decode()}, wanted: {line}"


def main() -> int:
    parser = argparse.ArgumentParser(description=__doc__, formatter_class=argparse.RawDescriptionHelpFormatter)
    parser.add_argument("--out", type=Path, default=TOP / "out" / "pictures")
    parser.add_argument("--edr", default=program("edr"))
    words = parser.parse_args()
    words.out.mkdir(parents=True, exist_ok=True)
    tester = Tester(words.edr, words.out)
    faults = [f"{picture[0]}: {fault}" for picture in PICTURES if (fault := tester.fault_of_picture(*picture))]
    faults += [f"{row[:2]}: {fault}" for row in REFUSED if (fault := tester.fault_of_refusal(*row))]
    print("\n".join([*faults, f"{len(PICTURES)} drawn, {len(REFUSED)} refused as they should be" if not faults else f"{len(faults)} faults"]))
    return 1 if faults else 0


if __name__ == "__main__":
    sys.exit(main())
