#!/usr/bin/env python3
"""Measures `read_document` on a grid of 500,000 samples of five digits, beside `from_slice` of the JSON library on the same bytes.

A round reads the text and lets go of what was read. What a run with no round takes is taken off. The memory is that above the
run that only has the text. Run it from anywhere: bench/read_document/run.py"""
import json
import os
import random
import sys
import tempfile

sys.path.insert(0, os.path.join(os.path.dirname(os.path.abspath(__file__)), ".."))
from measure import bench, measure  # noqa: E402

ROWS, COLUMNS = 500, 1000
SAMPLES = ROWS * COLUMNS
ROUNDS = 20
SEED = 7
# of the time of `from_slice`, and in bytes a sample, where the axes stand in the order t, y, x
MOST_TIME, MOST_MEMORY = 1.3, 72


def document(order, falls):
    """A grid of one time, with the axes of its range in that order, and with its rows from north to south where y falls."""
    ys = range(0, 100 * ROWS, 100)
    numbers = random.Random(SEED)
    lengths = {"t": 1, "y": ROWS, "x": COLUMNS}
    return json.dumps({
        "type": "Coverage",
        "domain": {
            "type": "Domain",
            "domainType": "Grid",
            "axes": {
                "t": {"values": ["2024-01-01T00:00:00Z"]},
                "y": {"values": list(reversed(ys) if falls else ys)},
                "x": {"start": 0, "stop": 100 * (COLUMNS - 1), "num": COLUMNS},
            },
            "referencing": [{"coordinates": ["x", "y"], "system": {"type": "ProjectedCRS", "id": "local"}}],
        },
        "parameters": {"temp": {"type": "Parameter", "observedProperty": {"label": {"en": "Temperature"}}}},
        "ranges": {"temp": {
            "type": "NdArray",
            "dataType": "integer",
            "axisNames": order,
            "shape": [lengths[name] for name in order],
            "values": [numbers.randrange(10_000, 100_000) for _ in range(SAMPLES)],
        }},
    }, separators=(",", ":")).encode()


def main():
    print("| call | axes of the range | bytes | seconds a round | of from_slice | bytes a sample over the text |")
    print("|---|---|---|---|---|---|")
    missed = False
    for order, falls in [(["t", "y", "x"], False), (["t", "y", "x"], True), (["x", "y", "t"], False)]:
        with tempfile.NamedTemporaryFile() as file:
            text = document(order, falls)
            file.write(text)
            file.flush()
            rows = []
            for name, command in [("from_slice", "parse"), ("read_document", "read")]:
                none, held, _ = measure(bench(command, 0), file.name)
                took, peak, _ = measure(bench(command, ROUNDS), file.name)
                rows.append((name, (took - none) / ROUNDS, (peak - held) / SAMPLES))
        for name, took, memory in rows:
            of_parse = took / rows[0][1]
            axes = ", ".join(order) + (", y falling" if falls else "")
            print(f"| {name} | {axes} | {len(text):,} | {took:.4f} | {of_parse:.2f} | {memory:.0f} |")
        if order == ["t", "y", "x"] and not falls:
            missed = rows[1][1] > MOST_TIME * rows[0][1] or rows[1][2] > MOST_MEMORY
    if missed:
        sys.exit(f"wanted: at most {MOST_TIME} of from_slice's time, and {MOST_MEMORY} bytes a sample")


if __name__ == "__main__":
    main()
