#!/usr/bin/env python3
"""Measures replies of corridors and trajectories: the time of an answer once the feed is read, beside python3 with the same
selection over lists, and the memory of the greatest replies.

It makes its grids from a seed in a temporary folder. The time of an answer is that of many rounds of `edr_bench answers` less that of
one; each round reads the target, plans, opens tiles and writes the document to memory. python3 keeps the samples in one list, and
each round selects and writes the ranges alone. Run it from anywhere: bench/lines/run.py"""
import bisect
import os
import random
import sys
import tempfile
import time

HERE = os.path.dirname(os.path.abspath(__file__))
sys.path.insert(0, os.path.join(HERE, ".."))
from measure import bench, measure  # noqa: E402

EDR = os.path.join(HERE, "..", "..", "release", "edr")
SEED = 20260101
REFERENCING = (
    '[{"coordinates":["x","y"],"system":{"id":"local","type":"ProjectedCRS"}},'
    '{"coordinates":["t"],"system":{"calendar":"Gregorian","type":"TemporalRS"}}]'
)
TIMES = 100


def samples_of(count):
    return random.Random(SEED).choices(range(10), k=count)


def instants(count):
    return ",".join(f'"2024-01-{1 + hour // 24:02}T{hour % 24:02}:00:00Z"' for hour in range(count))


def grid(times, rows, columns):
    """One line: a grid of some hours, a node each metre, with samples of one digit."""
    samples = ",".join(map(str, samples_of(times * rows * columns)))
    return (
        '{"type":"Coverage","domain":{"type":"Domain","domainType":"Grid","axes":{"x":{"start":0,"stop":%d,"num":%d},"y":'
        '{"start":0,"stop":%d,"num":%d},"t":{"values":[%s]}},"referencing":%s},"parameters":{"temp":{'
        '"type":"Parameter","unit":{"symbol":"Cel"},"observedProperty":{"label":{"en":"Temperature"}}}},"ranges":{"temp":{'
        '"type":"NdArray","dataType":"integer","axisNames":["t","y","x"],"shape":[%d,%d,%d],"values":[%s]}}}\n'
        % (columns - 1, columns, rows - 1, rows, instants(times), REFERENCING, times, rows, columns, samples)
    )


def corridor(line, width):
    return f"/collections/grid/corridor?coords=LINESTRING({text(line)})&corridor-width={width}&width-units=m"


def trajectory(line):
    return f"/collections/grid/trajectory?coords=LINESTRING({text(line)})"


def text(line):
    return ",".join(f"{x} {y}" for x, y in line)


def zigzag(segments, side):
    """A line of so many segments over a whole square, each from its lower border to its upper one or back."""
    return [(place * (side - 1) // segments, (side - 1) * (place % 2)) for place in range(segments + 1)]


def scattered(segments, side):
    """A line of so many segments between any places of a square: most of them are long and cross many others."""
    draw = random.Random(SEED)
    return [(draw.randrange(side), draw.randrange(side)) for _ in range(segments + 1)]


def walk(segments):
    """A line of so many short segments, towards x 100 and back again."""
    return [(100 + 3 * abs(place - 50), 100 + 2 * place) for place in range(segments + 1)]


def vertices(count, side):
    """So many vertices near the nodes of a square, of which no two neighbours are nearest to one node."""
    draw = random.Random(SEED)
    line = [(draw.randrange(side), draw.randrange(side))]
    while len(line) < count:
        vertex = draw.randrange(side), draw.randrange(side)
        if vertex != line[-1]:
            line.append(vertex)
    return line


# ---- the same selection in python3, over one list


def python_corridor(samples, columns, line, width):
    taken = set()
    half = width // 2 + 1
    for (ax, ay), (bx, by) in zip(line, line[1:]):
        dx, dy = bx - ax, by - ay
        length = dx * dx + dy * dy
        for y in range(max(0, min(ay, by) - half), min(columns - 1, max(ay, by) + half) + 1):
            for x in range(max(0, min(ax, bx) - half), min(columns - 1, max(ax, bx) + half) + 1):
                along = dx * (x - ax) + dy * (y - ay)
                if along <= 0:
                    near = 4 * ((x - ax) ** 2 + (y - ay) ** 2) <= width**2
                elif along >= length:
                    near = 4 * ((x - bx) ** 2 + (y - by) ** 2) <= width**2
                else:
                    near = 4 * (dx * (y - ay) - dy * (x - ax)) ** 2 <= width**2 * length
                if near:
                    taken.add(y * columns + x)
    rows, ways = [node // columns for node in taken], [node % columns for node in taken]
    picked = []
    for y in range(min(rows), max(rows) + 1):
        for node in range(y * columns + min(ways), y * columns + max(ways) + 1):
            picked.append(str(samples[node]) if node in taken else "null")
    return ",".join(picked)


def nearest(axis, number):
    place = bisect.bisect_left(axis, number)
    if place == len(axis) or place > 0 and number - axis[place - 1] <= axis[place] - number:
        return place - 1
    return place


def python_trajectory(samples, side, line):
    axis = list(range(side))
    written = []
    for first in range(0, len(samples), side * side):
        nodes = [nearest(axis, y) * side + nearest(axis, x) for x, y in line]
        kept = [node for place, node in enumerate(nodes) if place == 0 or nodes[place - 1] != node]
        written.append(",".join(str(samples[first + node]) for node in kept))
    return written


def python_time(select, *words):
    best = None
    for _ in range(3):
        began = time.perf_counter()
        select(*words)
        took = time.perf_counter() - began
        best = took if best is None else min(best, took)
    return best


def answer_time(path, target, rounds):
    """The seconds of one answer, and the bytes of it."""
    one, _, length = measure(bench("answers", target, 1), path)
    many, _, _ = measure(bench("answers", target, 1 + rounds), path)
    return (many - one) / rounds, int(length)


def print_corridors(paths):
    print("| grid | corridor of 100 segments | milliseconds an answer | of python3 | bytes |")
    print("|---|---|---|---|---|")
    lines = [
        ("up and down over 1,000,000 nodes, 5 metres wide", zigzag(100, 1000), 5, 20),
        ("between any places of 1,000,000 nodes, 5 metres wide", scattered(100, 1000), 5, 20),
        ("of 360 metres, 20 metres wide", walk(100), 20, 1000),
    ]
    for name, line, width, rounds in lines:
        times = []
        for side in (1000, 2000):
            seconds, length = answer_time(paths[side], corridor(line, width), rounds)
            times.append(seconds)
            ratio = seconds / python_time(python_corridor, samples_of(side * side), side, line, width)
            print(f"| {side} by {side} | {name} | {seconds * 1e3:.3f} | {ratio:.4f} | {length:,} |")
        print(f"| | the larger grid beside the smaller | {times[1] / times[0]:.2f} | | |")


def print_trajectories(path, side):
    samples = samples_of(TIMES * side * side)
    print("\n| vertices | times | values | milliseconds an answer | nanoseconds a value | of python3 | bytes |")
    print("|---|---|---|---|---|---|---|")
    for count in (1000, 2500, 5000, 10_000):
        line = vertices(count, side)
        seconds, length = answer_time(path, trajectory(line), 10)
        ratio = seconds / python_time(python_trajectory, samples, side, line)
        values = count * TIMES
        print(f"| {count:,} | {TIMES} | {values:,} | {seconds * 1e3:.1f} | {seconds * 1e9 / values:.0f} | {ratio:.3f} | {length:,} |")


def print_memory(path, name, target):
    _, small, _ = measure([EDR, "ask", "/collections/grid/cube?bbox=0,0,0,0"], path)
    _, great, output = measure([EDR, "ask", target], path)
    print(f"\n{name}, {len(output):,} bytes: {(great - small) / 1e6:.1f} MB more at the peak than the box of one node")


def main():
    side = 100
    with tempfile.TemporaryDirectory() as folder:
        paths = {}
        for times, rows in ((1, 1000), (1, 2000), (TIMES, side)):
            paths[rows] = os.path.join(folder, f"grid-{rows}.json")
            with open(paths[rows], "w") as file:
                file.write(grid(times, rows, rows))
        print_corridors(paths)
        print_trajectories(paths[side], side)
        print_memory(paths[1000], "the corridor over 1,000,000 nodes", corridor(zigzag(100, 1000), 5))
        print_memory(paths[2000], "the same in 4,000,000 nodes", corridor(zigzag(100, 1000), 5))
        print_memory(paths[side], "the trajectory of 1,000,000 values", trajectory(vertices(10_000, side)))


if __name__ == "__main__":
    main()
