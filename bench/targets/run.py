#!/usr/bin/env python3
"""Measures the reading of targets: how many usual ones are read a second, and how the time grows with a target's length.

Usual targets are 10,000 lines of every kind of query, each with times, levels, names of parameters or none of them. Beside
`read_target` stand the pairs alone, cut and decoded by form_urlencoded. Long targets have 4,096 to 16,384 bytes: one name
again and again, and a list of names that all differ. Run it from anywhere: bench/targets/run.py"""
import os
import sys
import tempfile

sys.path.insert(0, os.path.join(os.path.dirname(os.path.abspath(__file__)), ".."))
from measure import bench, measure  # noqa: E402

TARGETS = 10_000
USUAL_ROUNDS = 40
LONG_ROUNDS = 100
SIZES = [4_096, 8_192, 16_384]
QUERIES = [
    "position?coords=POINT({x}%20{y})",
    "position?coords=MULTIPOINT(({x}%20{y}),({y}%20{x}))",
    "radius?coords=POINT({x}%20{y})&within=2.5&within-units=km",
    "area?coords=POLYGON(({x}%20{y},{y}%20{y},{y}%20{x},{x}%20{y}))",
    "cube?bbox={x},{x},{y},{y}",
    "trajectory?coords=LINESTRING({x}%20{y},{y}%20{x})",
    "corridor?coords=LINESTRING({x}%20{y},{y}%20{x})&corridor-width=500&width-units=m",
    "locations/station-{x}?crs=EPSG:32633",
]
FILTERS = [
    "",
    "&datetime=2024-01-01T00:00:00Z",
    "&datetime=2024-01-01T00:00:00Z/2024-01-02T00:00:00Z&parameter-name=temp,wind",
    "&z=0/500&parameter-name=temp&f=CoverageJSON",
]


def usual(number):
    """A target that people ask for."""
    query = QUERIES[number % len(QUERIES)].format(x=number, y=number + 500)
    return f"/collections/grid/{query}{FILTERS[number // len(QUERIES) % len(FILTERS)]}"


def one_name(size):
    """A name that stands as often as there is room for, two bytes each time."""
    front = "/collections/grid/position?"
    return front + "f&" * ((size - len(front)) // 2)


def many_names(size):
    """A list of names of three letters, all different, as long as there is room for."""
    letters = "abcdefghijklmnopqrstuvwxyz"
    names = (first + second + third for first in letters for second in letters for third in letters)
    front = "/collections/grid/position?coords=POINT(0%200)&parameter-name="
    return front + ",".join(next(names) for _ in range((size - len(front)) // 4))


def main():
    with tempfile.TemporaryDirectory() as folder:
        path = os.path.join(folder, "targets")

        def rate(command, text, rounds):
            """The seconds of a round."""
            with open(path, "w") as file:
                file.write(text)
            least, _, _ = measure(bench(command, 0), path)
            took, _, answer = measure(bench(command, rounds), path)
            return (took - least) / rounds, answer

        lines = [usual(number) for number in range(TARGETS)]
        print("| 10,000 usual targets | microseconds a target | targets a second |")
        print("|---|---|---|")
        for command in ("targets", "pairs"):
            took, answer = rate(command, "\n".join(lines), USUAL_ROUNDS)
            if command == "targets" and answer != str(TARGETS):
                sys.exit(f"{answer} of {TARGETS} targets ask for a page")
            name = "read_target" if command == "targets" else "the pairs alone"
            print(f"| {name} | {took / TARGETS * 1e6:.2f} | {TARGETS / took:,.0f} |")
        print()
        print("| long target | bytes | milliseconds | nanoseconds a byte |")
        print("|---|---|---|---|")
        for name, make in (("one name again and again", one_name), ("names that differ", many_names)):
            for size in SIZES:
                text = make(size)
                took, _ = rate("targets", text, LONG_ROUNDS)
                print(f"| {name} | {len(text):,} | {took * 1e3:.3f} | {took / len(text) * 1e9:.1f} |")


if __name__ == "__main__":
    main()
