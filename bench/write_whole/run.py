#!/usr/bin/env python3
"""Measures `write_whole` on a grid of 500,000 samples of one digit, beside `to_vec` of the same tree of JSON.

A round of `write_whole` makes the tree, writes it and lets it go; a round of `to_vec` writes one tree that is there. What
a run with no round takes is taken off. The memory is that above the run that only makes the grid. Run it from anywhere:
bench/write_whole/run.py"""
import os
import sys

sys.path.insert(0, os.path.join(os.path.dirname(os.path.abspath(__file__)), ".."))
from measure import bench, measure  # noqa: E402

SAMPLES = 500_000
ROUNDS = 20
# of the time of `to_vec`, and in bytes a sample
MOST_TIME, MOST_MEMORY = 2.5, 80


def main():
    _, made, _ = measure(bench("make", SAMPLES))
    rows = []
    for name, command in [("to_vec", "tree"), ("write_whole", "write")]:
        none, _, _ = measure(bench(command, SAMPLES, 0))
        took, peak, length = measure(bench(command, SAMPLES, ROUNDS))
        rows.append((name, length, (took - none) / ROUNDS, (peak - made) / SAMPLES))
    if rows[0][1] != rows[1][1]:
        sys.exit(f"the texts have {rows[0][1]} and {rows[1][1]} bytes")
    print("| call | bytes written | seconds a round | of to_vec | bytes a sample over the grid |")
    print("|---|---|---|---|---|")
    for name, length, took, memory in rows:
        print(f"| {name} | {int(length):,} | {took:.4f} | {took / rows[0][2]:.2f} | {memory:.0f} |")
    _, _, took, memory = rows[1]
    if took > MOST_TIME * rows[0][2] or memory > MOST_MEMORY:
        sys.exit(f"wanted: at most {MOST_TIME} of to_vec's time, and {MOST_MEMORY} bytes a sample")


if __name__ == "__main__":
    main()
