#!/usr/bin/env python3
"""Measures `edr ask`: one position on one grid, beside python3 with its json and jq where it is there, and how the time
of an answer alone grows with the grid and with the values of the reply.

It makes its grids from a seed in a temporary folder. The first table has the least wall time and the peak memory of each
program over several runs, and their ratios; a peak below that of this script itself, about 15 MB, can't be told, and shows
as that. The second has the time of an answer once the feed is read, by `edr_bench answers`: the time of many rounds less
that of one. Run it from anywhere: bench/ask/run.py"""
import multiprocessing
import os
import random
import shutil
import subprocess
import sys
import tempfile
import time

HERE = os.path.dirname(os.path.abspath(__file__))
sys.path.insert(0, os.path.join(HERE, ".."))
from measure import bench  # noqa: E402
from measure import measure as bench_measure  # noqa: E402

EDR = os.path.join(HERE, "..", "..", "edr")
SEED = 20260101
RUNS = 5
INSTANT = "2024-01-01T00:00:00Z"
REFERENCING = (
    '[{"coordinates":["x","y"],"system":{"id":"local","type":"ProjectedCRS"}},'
    '{"coordinates":["t"],"system":{"calendar":"Gregorian","type":"TemporalRS"}}]'
)


def make(path, columns, rows, low, high):
    """Writes one line: a grid of one time and columns * rows samples from low to high."""
    values = random.Random(SEED)
    xs = ",".join(str(100 * i) for i in range(columns))
    ys = ",".join(str(100 * j) for j in range(rows))
    samples = ",".join(str(values.randint(low, high)) for _ in range(columns * rows))
    line = (
        '{"type":"Coverage","domain":{"type":"Domain","domainType":"Grid","axes":{"x":{"values":[%s]},"y":{"values":[%s]},'
        '"t":{"values":["%s"]}},"referencing":%s},"parameters":{"temp":{"type":"Parameter","unit":{"symbol":"Cel"},'
        '"observedProperty":{"label":{"en":"Temperature"}}}},"ranges":{"temp":{"type":"NdArray","dataType":"integer",'
        '"axisNames":["t","y","x"],"shape":[1,%d,%d],"values":[%s]}}}\n'
        % (xs, ys, INSTANT, REFERENCING, rows, columns, samples)
    )
    with open(path, "w") as file:
        file.write(line)


def measure(words, path):
    """The least wall time in seconds, the peak memory in bytes, and the output."""
    best, peak, output = None, 0, b""
    for _ in range(RUNS):
        with open(path, "rb") as source:
            began = time.perf_counter()
            process = subprocess.Popen(words, stdin=source, stdout=subprocess.PIPE)
            output = process.stdout.read()
            _, status, usage = os.wait4(process.pid, 0)
            took = time.perf_counter() - began
        if status != 0:
            sys.exit(f"{words[0]} ended with {status}")
        best = took if best is None else min(best, took)
        peak = max(peak, usage.ru_maxrss * 1024)
    return best, peak, output


def programs_at(x, y):
    """The words of each program that is there, for the sample nearest to a point."""
    target = f"/collections/grid/position?coords=POINT({x} {y})&datetime={INSTANT}"
    programs = [("edr", [EDR, "ask", target]), ("python3", [sys.executable, os.path.join(HERE, "pick.py"), target])]
    if shutil.which("jq"):
        jq = ["jq", "-c", "-j", "-S", "--argjson", "x", str(x), "--argjson", "y", str(y), "--arg", "t", INSTANT]
        programs.append(("jq", jq + ["-f", os.path.join(HERE, "pick.jq")]))
    return programs


def grid_of(times, columns, rows):
    """One line: a grid of so many hours, with samples of one digit."""
    values = random.Random(SEED)
    instants = ",".join('"2024-01-%02dT%02d:00:00Z"' % (1 + hour // 24, hour % 24) for hour in range(times))
    samples = ",".join(map(str, values.choices(range(10), k=times * columns * rows)))
    return (
        '{"type":"Coverage","domain":{"type":"Domain","domainType":"Grid","axes":{"x":{"start":0,"stop":%d,"num":%d},"y":'
        '{"start":0,"stop":%d,"num":%d},"t":{"values":[%s]}},"referencing":%s},"parameters":{"temp":{"type":"Parameter",'
        '"unit":{"symbol":"Cel"},"observedProperty":{"label":{"en":"Temperature"}}}},"ranges":{"temp":{"type":"NdArray",'
        '"dataType":"integer","axisNames":["t","y","x"],"shape":[%d,%d,%d],"values":[%s]}}}\n'
        % (columns - 1, columns, rows - 1, rows, instants, REFERENCING, times, rows, columns, samples)
    )


def points(count, columns, nodes=None):
    """The target of so many positions, each on a node of its own, or again and again on the first of so many nodes."""
    places = [number % (nodes or count) for number in range(count)]
    nodes = ",".join(f"({place % columns} {place // columns})" for place in places)
    return f"/collections/grid/position?coords=MULTIPOINT({nodes})"


def answer_time(path, target, rounds):
    """The seconds of one answer, and the bytes of it."""
    one, _, length = bench_measure(bench("answers", target, 1), path)
    many, _, _ = bench_measure(bench("answers", target, 1 + rounds), path)
    return (many - one) / rounds, int(length)


def growth(folder):
    print("| grid | target | values | microseconds an answer | nanoseconds a value | bytes |")
    print("|---|---|---|---|---|---|")
    point = "/collections/grid/position?coords=POINT(31 17)"
    rows = [
        (1, 100, 40, "POINT", point, 1, 20_000),
        (1, 2000, 2000, "POINT", point, 1, 20_000),
        (200, 100, 200, "POINT", point, 200, 500),
        (200, 100, 200, "MULTIPOINT of 100", points(100, 100), 100 * 200, 20),
        (200, 100, 200, "MULTIPOINT of 1,000", points(1_000, 100), 1_000 * 200, 5),
        (200, 100, 200, "MULTIPOINT of 5,000", points(5_000, 100), 5_000 * 200, 2),
        (200, 100, 200, "MULTIPOINT of 10,000, two a node", points(10_000, 100, 5_000), 5_000 * 200, 2),
    ]
    for times, columns, lines, name, target, values, rounds in rows:
        path = os.path.join(folder, "grid.json")
        with open(path, "w") as file:
            file.write(grid_of(times, columns, lines))
        seconds, length = answer_time(path, target, rounds)
        grid = f"{times} by {lines} by {columns}"
        print(f"| {grid} | {name} | {values:,} | {seconds * 1e6:.1f} | {seconds * 1e9 / values:.0f} | {length:,} |")


def main():
    if not os.path.exists(EDR):
        sys.exit("release/edr is missing: release/renew puts it there")
    grids = [
        ("1 KB", 20, 20, 0, 9),
        ("4,000,000 samples of one digit", 2000, 2000, 0, 9),
        ("1,000,000 samples of five digits", 1000, 1000, 10000, 99999),
    ]
    print("| grid | bytes | program | seconds | of python3 | MB at the peak | bytes a sample over the input |")
    print("|---|---|---|---|---|---|---|")
    with tempfile.TemporaryDirectory() as folder:
        for name, columns, rows, low, high in grids:
            path = os.path.join(folder, "grid.json")
            # in a process of its own, whose memory isn't counted here
            maker = multiprocessing.get_context("spawn").Process(target=make, args=(path, columns, rows, low, high))
            maker.start()
            maker.join()
            size = os.path.getsize(path)
            programs = programs_at(50 * columns + 49, 50 * rows - 49)
            found = {program: measure(words, path) for program, words in programs}
            if len({output for _, _, output in found.values()}) != 1:
                sys.exit("the programs don't agree: " + repr(found))
            for program, (took, peak, _) in found.items():
                ratio = took / found["python3"][0]
                sample = (peak - size) / (columns * rows)
                print(f"| {name} | {size:,} | {program} | {took:.3f} | {ratio:.2f} | {peak / 1e6:.0f} | {sample:.0f} |")
        print()
        growth(folder)


if __name__ == "__main__":
    main()
