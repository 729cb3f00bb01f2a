#!/usr/bin/env python3
"""Measures `edr work NUMBER`: the feed that is made, read, and asked four targets in one run, for each last digit that a number has.

The lines have to be those of docs/USE.md, but for the sum of the one node. Run it from anywhere:
bench/work/run.py"""
import os
import re
import sys

ABOVE = os.path.join(os.path.dirname(os.path.abspath(__file__)), "..", "..")
sys.path.insert(0, os.path.join(ABOVE, "bench"))
from measure import measure  # noqa: E402

EDR = os.path.join(ABOVE, "release", "edr")
MOST_SECONDS = 4


def told_in_docs():
    """The lines that docs/USE.md shows of the run of 7."""
    with open(os.path.join(ABOVE, "docs", "USE.md"), encoding="utf-8") as page:
        lines = [line.strip() for line in page]
    at = lines.index("./edr work 7")
    return lines[at + 1 : at + 6]


def main():
    wanted = told_in_docs()
    print("| run | seconds | MB at the peak |")
    print("|---|---|---|")
    slowest = 0
    for number in range(10):
        took, peak, output = measure([EDR, "work", str(number)])
        lines = list(wanted)
        lines[2] = re.sub(r"sum \d+", f"sum {(number + 6) % 10}", lines[2])
        if output.split("\n") != lines:
            sys.exit(f"work {number} tells otherwise than docs/USE.md:\n{output}")
        print(f"| `edr work {number}` | {took:.2f} | {peak / 1e6:.0f} |")
        slowest = max(slowest, took)
    if slowest > MOST_SECONDS:
        sys.exit(f"wanted: at most {MOST_SECONDS} seconds")


if __name__ == "__main__":
    main()
