#!/usr/bin/env python3
"""Measures the reading of well-known text: its time and memory on texts of 1, 2, 5 and 10 MB.

Each size has two texts: 10,000 positions with blanks between them, which is read whole, and as many short positions as
there is room for, which is refused as TooManyPositions. The last line tells how far the time is from linear. Run it
from anywhere: bench/well_known_text/run.py"""
import os
import sys
import tempfile

sys.path.insert(0, os.path.join(os.path.dirname(os.path.abspath(__file__)), ".."))
from measure import bench, measure  # noqa: E402

MEGABYTES = [1, 2, 5, 10]
MOST_POSITIONS = 10_000
SHORT = "100 -200"


def text_of(positions):
    return "MULTIPOINT(" + ",".join(positions) + ")"


def blank_text(size):
    """As many positions as are read, with blanks inside them to fill the size."""
    blanks = " " * (size // MOST_POSITIONS - len("000000 000000,") + 1)
    return text_of(f"{place:06}{blanks}{7 * place:06}" for place in range(MOST_POSITIONS))


def full_text(size):
    """Short positions only, to fill the size."""
    return text_of([SHORT] * (size // (len(SHORT) + 1)))


def main():
    words = bench("wkt")
    texts = [("10,000 positions and blanks", blank_text, str(MOST_POSITIONS)), ("short positions", full_text, "TooManyPositions")]
    print("| text | bytes | answer | seconds | nanoseconds a byte | MB at the peak | bytes over the text, a byte of it |")
    print("|---|---|---|---|---|---|---|")
    with tempfile.TemporaryDirectory() as folder:
        path = os.path.join(folder, "text.wkt")
        for name, make, wanted in texts:
            rates = []
            for megabytes in MEGABYTES:
                with open(path, "w") as file:
                    file.write(make(1_000_000 * megabytes))
                size = os.path.getsize(path)
                took, peak, answer = measure(words, path)
                if answer != wanted:
                    sys.exit(f"{name}, {size} bytes: {answer} and not {wanted}")
                rates.append(took / size)
                over = (peak - size) / size
                print(f"| {name} | {size:,} | {answer} | {took:.4f} | {took / size * 1e9:.1f} | {peak / 1e6:.1f} | {over:.1f} |")
            print(f"{name}: the greatest time a byte is {max(rates) / min(rates):.2f} of the least", file=sys.stderr)


if __name__ == "__main__":
    main()
