#!/usr/bin/env python3
"""Measures `edr check` on feeds: how fast lines are read beside python3 with its json, how many bytes a sample takes and how
long a tile is opened, and how time and memory grow with collections, publishes, blank lines and nested objects.

It makes its feeds from a seed in a temporary folder, and prints the tables of docs/BENCHMARKS.md, with what is wanted beside
what was found. Peaks are those of the whole process. Each feed is read RUNS times, and the least wall time is kept. The
program is asked through `./edr`, as users ask it. Run it from anywhere: bench/feeds/run.py

Bytes a sample and the opening of tiles are measured by `edr_bench tiles1` and `tiles5`, on the packed grid that an instance of
an edition has: 2,000 by 2,000 nodes, whose samples of five digits no line of a feed could have. The bytes are those of its
peak over that of `make`, which has the same samples in a list, and packs none."""
import multiprocessing
import os
import random
import subprocess
import sys
import tempfile
import time

HERE = os.path.dirname(os.path.abspath(__file__))
sys.path.insert(0, os.path.join(HERE, ".."))
from measure import bench  # noqa: E402
from measure import measure as bench_measure  # noqa: E402

EDR = os.path.join(HERE, "..", "..", "edr")
SEED = 20260101
RUNS = 3
NODES = 4_000_000
TILES = 1_024
TILE_ROUNDS = 200
# of the megabytes a second of python3; bytes a sample of one digit, and of five; microseconds a tile
LEAST_SPEED, MOST_BYTES, MOST_TILE = 1.2, {"tiles1": 1.1, "tiles5": 3.2}, 10
REFERENCING = (
    '[{"coordinates":["x","y"],"system":{"id":"local","type":"ProjectedCRS"}},'
    '{"coordinates":["t"],"system":{"calendar":"Gregorian","type":"TemporalRS"}}]'
)


def coverage(columns, rows, samples):
    """A grid of one time: its axes by their first, last and count, and these samples."""
    return (
        '{"type":"Coverage","domain":{"type":"Domain","domainType":"Grid","axes":{"x":{"start":0,"stop":%d,"num":%d},'
        '"y":{"start":0,"stop":%d,"num":%d},"t":{"values":["2024-01-01T00:00:00Z"]}},"referencing":%s},"parameters":{"temp":'
        '{"type":"Parameter","unit":{"symbol":"Cel"},"observedProperty":{"label":{"en":"Temperature"}}}},"ranges":{"temp":'
        '{"type":"NdArray","dataType":"integer","axisNames":["t","y","x"],"shape":[1,%d,%d],"values":[%s]}}}'
        % (columns - 1, columns, rows - 1, rows, REFERENCING, rows, columns, samples)
    )


def samples(count, low, high, seed):
    values = random.Random(seed)
    return ",".join(map(str, values.choices(range(low, high + 1), k=count)))


def write(path, make, *words):
    """Writes the pieces that `make` gives, in a process of its own, so that this one stays small: a program that it starts
    begins with its peak."""
    process = multiprocessing.Process(target=_write, args=(path, make, words))
    process.start()
    process.join()
    return path


def _write(path, make, words):
    with open(path, "w") as file:
        for piece in make(*words):
            file.write(piece)


def bare(count, columns, rows, low, high):
    """Bare grids, each published."""
    for number in range(count):
        yield coverage(columns, rows, samples(columns * rows, low, high, SEED + number)) + "\n"


def collections(count, order):
    numbers = list(range(count))
    if order == "descending":
        numbers.reverse()
    if order == "shuffled":
        random.Random(SEED).shuffle(numbers)
    for number in numbers:
        yield '{"collection":{"id":"%06d","kind":"grid","title":"t","crs":"c"}}\n' % number
    yield '{"publish":{}}\n'


def publishes(items, count, changed):
    """So many instances, and so many publishes, with one instance set before each where `changed`."""
    small = coverage(1, 1, "1")
    yield '{"collection":{"id":"g","kind":"grid","title":"t","crs":"local"}}\n'
    for number in range(items):
        yield '{"grid":{"collection":"g","instance":"%06d","coverage":%s}}\n' % (number, small)
    for number in range(count):
        if changed:
            yield '{"grid":{"collection":"g","instance":"%06d","coverage":%s}}\n' % (number * 7919 % items, small)
        yield '{"publish":{}}\n'


def measure(words, path, runs=RUNS):
    """The least wall time in seconds, the peak memory in bytes, and the output."""
    best, peak, output = None, 0, b""
    for _ in range(runs):
        with open(path, "rb") as source:
            began = time.perf_counter()
            process = subprocess.Popen(words, stdin=source, stdout=subprocess.PIPE, stderr=subprocess.PIPE)
            output = process.stdout.read() + process.stderr.read()
            _, _, usage = os.wait4(process.pid, 0)
            took = time.perf_counter() - began
        best = took if best is None else min(best, took)
        peak = max(peak, usage.ru_maxrss * 1024)
    return best, peak, output


def with_publishes(count, publishes_):
    for number in range(count):
        yield '{"collection":{"id":"%06d","kind":"grid","title":"t","crs":"c"}}\n' % number
    for _ in range(publishes_):
        yield '{"publish":{}}\n'


def repeated(count, piece):
    yield piece * count


def objects(count):
    yield "[" + '{"":1},' * count + "1]"


def reading(folder):
    print("| feed | bytes | program | seconds | megabytes a second | of python3 | wanted, at least | MB at the peak |")
    print("|---|---|---|---|---|---|---|---|")
    for name, count, columns, rows, low, high in [
        ("one-digit samples, 4,000,000 a line", 25, 2000, 2000, 0, 9),
        ("five-digit samples, 1,000,000 a line", 33, 1000, 1000, 10000, 99999),
    ]:
        path = write(os.path.join(folder, "feed"), bare, count, columns, rows, low, high)
        size = os.path.getsize(path)
        ours = measure([EDR, "check", "--summary"], path)
        theirs = measure([sys.executable, os.path.join(HERE, "check.py")], path)
        if ours[2] != theirs[2]:
            sys.exit(f"{name}: the two programs tell different things")
        for program, (seconds, peak, _), wanted in [("edr", ours, f"{LEAST_SPEED:.2f}"), ("python3", theirs, "")]:
            speed = f"{seconds:.2f} | {size / seconds / 1e6:.0f} | {theirs[0] / seconds:.2f} | {wanted}"
            print(f"| {name} | {size:,} | {program} | {speed} | {peak / 1e6:.0f} |", flush=True)


def samples_and_tiles():
    print("| 4,000,000 samples | bytes a sample | wanted, at most | microseconds to open a tile | wanted, at most |")
    print("|---|---|---|---|---|")
    _, listed, _ = bench_measure(bench("make", NODES))
    for name, command in [("of one digit", "tiles1"), ("of up to five digits", "tiles5")]:
        none, packed, _ = bench_measure(bench(command, 0))
        took, _, opened = bench_measure(bench(command, TILE_ROUNDS))
        if opened != str(TILES * TILE_ROUNDS):
            sys.exit(f"{opened} tiles were opened")
        tile = (took - none) / TILE_ROUNDS / TILES * 1e6
        size = f"{(packed - listed) / NODES:.2f} | {MOST_BYTES[command]:.1f}"
        print(f"| {name} | {size} | {tile:.3f} | {MOST_TILE} |", flush=True)


def growth(folder):
    """How much longer each feed takes than one of half the size: 2 is a time that grows with the size."""
    print("| what | seconds | of half as much | MB at the peak | of half as much | |")
    print("|---|---|---|---|---|---|")
    feeds = [
        ("{:,} collections, ids ascending", 160_000, collections, "ascending"),
        ("{:,} collections, ids descending", 160_000, collections, "descending"),
        ("{:,} collections, ids shuffled", 160_000, collections, "shuffled"),
        ("{:,} instances, published once", 20_000, publishes, 1, False),
        ("{:,} instances, 4,000 publishes", 20_000, publishes, 4_000, False),
        ("{:,} instances, 4,000 publishes, one set before each", 20_000, publishes, 4_000, True),
        ("{:,} collections, published once", 40_000, with_publishes, 1),
        ("{:,} collections, 500 publishes", 40_000, with_publishes, 500),
        ("{:,} line feeds", 16_000_000, repeated, "\n"),
        ("{:,} blanks in one line", 16_000_000, repeated, " "),
        ('a line of {:,} times `{{"":`, nested', 4_000_000, repeated, '{"":'),
        ("a line of {:,} objects of one member", 2_200_000, objects),
    ]
    for name, count, make, *words in feeds:
        found = []
        for size in (count // 2, count):
            path = write(os.path.join(folder, "feed"), make, size, *words)
            found.append(measure([EDR, "check"], path))
        (half, half_peak, _), (seconds, peak, output) = found
        time_ = f"{seconds:.2f} | {seconds / half:.2f}"
        memory = f"{peak / 1e6:.0f} | {peak / half_peak:.2f}"
        print(f"| {name.format(count)} | {time_} | {memory} | `{output.decode().strip()}` |", flush=True)


def main():
    if not os.path.exists(os.path.join(HERE, "..", "..", "release", "edr")):
        sys.exit("release/edr is missing: release/renew puts it there")
    bench("make", NODES)
    with tempfile.TemporaryDirectory() as folder:
        reading(folder)
        print()
        samples_and_tiles()
        print()
        growth(folder)


if __name__ == "__main__":
    process = multiprocessing.Process(target=main)
    process.start()
    process.join()
    sys.exit(process.exitcode)
