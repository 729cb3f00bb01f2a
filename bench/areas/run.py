#!/usr/bin/env python3
"""Measures replies of discs, polygons and boxes: the time of an answer once the feed is read, beside python3 with the same
selection over lists, and the memory of the greatest reply.

It makes its grids from a seed in a temporary folder. The time of a box is that of many replies of `edr replay` on one connection,
less that of one. The time of another answer is that of many rounds of `edr_bench answers` less that of one; each round reads the
target, plans, opens tiles and writes the document to memory. python3 keeps the samples in one list, and each round selects and
writes the ranges alone. Run it from anywhere: bench/areas/run.py"""
import os
import random
import sys
import tempfile
import time

HERE = os.path.dirname(os.path.abspath(__file__))
sys.path.insert(0, os.path.join(HERE, ".."))
from measure import bench, measure  # noqa: E402

EDR = os.path.join(HERE, "..", "..", "release", "edr")
SEED = 20260101
REFERENCING = (
    '[{"coordinates":["x","y"],"system":{"id":"local","type":"ProjectedCRS"}},'
    '{"coordinates":["t"],"system":{"calendar":"Gregorian","type":"TemporalRS"}}]'
)


def samples_of(count):
    return random.Random(SEED).choices(range(10), k=count)


def grid(rows, columns):
    """One line: a grid of one time, a node each metre, with samples of one digit."""
    samples = ",".join(map(str, samples_of(rows * columns)))
    return (
        '{"type":"Coverage","domain":{"type":"Domain","domainType":"Grid","axes":{"x":{"start":0,"stop":%d,"num":%d},"y":'
        '{"start":0,"stop":%d,"num":%d},"t":{"values":["2024-01-01T00:00:00Z"]}},"referencing":%s},"parameters":{"temp":{'
        '"type":"Parameter","unit":{"symbol":"Cel"},"observedProperty":{"label":{"en":"Temperature"}}}},"ranges":{"temp":{'
        '"type":"NdArray","dataType":"integer","axisNames":["t","y","x"],"shape":[1,%d,%d],"values":[%s]}}}\n'
        % (columns - 1, columns, rows - 1, rows, REFERENCING, rows, columns, samples)
    )


def cube(lo_x, lo_y, hi_x, hi_y):
    return f"/collections/grid/cube?bbox={lo_x},{lo_y},{hi_x},{hi_y}"


def disc(x, y, metres):
    return f"/collections/grid/radius?coords=POINT({x} {y})&within={metres}&within-units=m"


def area(ring):
    return "/collections/grid/area?coords=POLYGON((" + ",".join(f"{x} {y}" for x, y in ring) + "))"


def zigzag(edges, side):
    """A polygon of so many edges over most of a square: teeth that rise from its lower part to its upper border."""
    teeth = (edges - 2) // 2
    step = side / teeth
    ring = [(0, 10)]
    for tooth in range(teeth):
        ring.append((round(step * tooth + step / 2), side - 10))
        ring.append((round(step * (tooth + 1)), 10))
    ring.append((0, 10))
    return ring


def comb(positions, rows, columns):
    """A polygon each of whose edges but two meets every row."""
    teeth = (positions - 3) // 2
    ring = [(0, 0)]
    for tooth in range(teeth):
        ring.append((columns * (2 * tooth + 1) // (2 * teeth), rows - 1))
        ring.append((columns * (2 * tooth + 2) // (2 * teeth), 0))
    ring.append((0, 0))
    return ring


# ---- the same selection in python3, over one list


def python_cube(samples, columns, lo_x, lo_y, hi_x, hi_y):
    picked = []
    for row in range(lo_y, hi_y + 1):
        picked += samples[row * columns + lo_x : row * columns + hi_x + 1]
    return ",".join(map(str, picked))


def python_disc(samples, columns, x, y, metres):
    picked = []
    for row in range(y - metres, y + metres + 1):
        for column in range(x - metres, x + metres + 1):
            inside = (column - x) ** 2 + (row - y) ** 2 <= metres**2
            picked.append(str(samples[row * columns + column]) if inside else "null")
    return ",".join(picked)


def python_area(samples, rows, columns, ring):
    """By the crossings of each row, sorted; the nodes of borders aren't looked at one by one."""
    picked = []
    edges = [(a, b) for a, b in zip(ring, ring[1:]) if a[1] != b[1]]
    for row in range(rows):
        line = [0] * columns
        crossings = []
        for (ax, ay), (bx, by) in edges:
            if min(ay, by) <= row < max(ay, by):
                crossings.append(ax + (row - ay) * (bx - ax) / (by - ay))
        crossings.sort()
        for left, right in zip(crossings[::2], crossings[1::2]):
            first, last = int(-(-left // 1)), int(right // 1)
            line[first : last + 1] = samples[row * columns + first : row * columns + last + 1]
        picked += line
    return ",".join(map(str, picked))


def python_time(select, *words):
    best = None
    for _ in range(3):
        began = time.perf_counter()
        select(*words)
        took = time.perf_counter() - began
        best = took if best is None else min(best, took)
    return best


def answer_time(path, target, rounds):
    """The seconds of one answer, and the bytes of it."""
    one, _, length = measure(bench("answers", target, 1), path)
    many, _, _ = measure(bench("answers", target, 1 + rounds), path)
    return (many - one) / rounds, int(length)


def reply_time(path, target, replies):
    """The seconds of one reply among many on a connection, and the bytes of its document."""
    _, _, length = measure(bench("answers", target, 1), path)
    times = []
    for count in (1, 1 + replies):
        requests = f"{path}.{count}"
        with open(requests, "w") as file:
            file.write(f"GET {target} HTTP/1.1\r\nHost: a\r\n\r\n" * count)
        took, _, _ = measure(["/bin/sh", "-c", 'exec "$0" replay "$1" > /dev/null', EDR, path], requests)
        times.append(took)
    return (times[1] - times[0]) / replies, int(length)


def main():
    print("| grid | query | milliseconds an answer | answers a second | of python3 | bytes |")
    print("|---|---|---|---|---|---|")
    with tempfile.TemporaryDirectory() as folder:
        paths, lists = {}, {}
        for rows, columns in ((2000, 2000), (200, 200), (1000, 1000)):
            paths[rows] = os.path.join(folder, f"grid-{rows}.json")
            with open(paths[rows], "w") as file:
                file.write(grid(rows, columns))
            lists[rows] = samples_of(rows * columns)
        polygon, teeth = zigzag(1000, 1000), comb(10_000, 2000, 2000)
        answers = [
            (2000, "cube of 500,000 values", cube(500, 500, 1499, 999), 200, (python_cube, lists[2000], 2000, 500, 500, 1499, 999)),
            (2000, "disc of 97 nodes", disc(1000, 1000, 5), 40_000, (python_disc, lists[2000], 2000, 1000, 1000, 5)),
            (200, "disc of 97 nodes", disc(100, 100, 5), 40_000, (python_disc, lists[200], 200, 100, 100, 5)),
            (1000, "polygon of 1,000 edges", area(polygon), 40, (python_area, lists[1000], 1000, 1000, polygon)),
        ]
        for side, name, target, rounds, python in answers:
            taken = reply_time if name.startswith("cube") else answer_time
            seconds, length = taken(paths[side], target, rounds)
            ratio = seconds / python_time(*python)
            print(f"| {side} by {side} | {name} | {seconds * 1e3:.3f} | {1 / seconds:,.0f} | {ratio:.3f} | {length:,} |")
        # more values than a reply may have, so the time is that of the mask
        began, _, _ = measure([EDR, "ask", "/collections"], paths[2000])
        ended, _, _ = measure([os.path.join(HERE, "refused.sh"), EDR, area(teeth)], paths[2000])
        print(f"\ncomb of 10,000 positions over 2,000 rows of 2,000 columns: {ended - began:.2f} seconds")
        _, small, _ = measure([EDR, "ask", cube(0, 0, 0, 0)], paths[2000])
        _, great, output = measure([EDR, "ask", cube(0, 0, 1999, 999)], paths[2000])
        print(f"2,000,000 values, {len(output):,} bytes: {(great - small) / 1e6:.1f} MB more at the peak than one value")


if __name__ == "__main__":
    main()
