#!/usr/bin/env python3
"""Measures `edr import` on the largest table, of 200,000 samples, and `edr export` of 2,000,000 values, beside python3 with its
csv and json, which does the same work (`import.py`, `export.py`); both have to write the same bytes.

It makes the table and the feed from a seed in a temporary folder, and prints the table of docs/BENCHMARKS.md, with what is
wanted beside what was found. Megabytes are those of tables of comma-separated values. Peaks are those of the whole process. The
program is asked through `./edr`, as users ask it. Run it from anywhere: bench/tables/run.py"""
import datetime
import os
import random
import sys
import tempfile

HERE = os.path.dirname(os.path.abspath(__file__))
sys.path.insert(0, os.path.join(HERE, ".."))
from measure import RUNS, run_once  # noqa: E402

EDR = os.path.join(HERE, "..", "..", "edr")
SEED = 20260101
STATIONS, TIMES, PARAMETERS = 20, 1_000, 10
COLUMNS, ROWS = 2_000, 1_000
BEGIN = datetime.datetime(2024, 1, 1)
# megabytes a second, and of the speed of python3
LEAST_SPEED, LEAST_OF_PYTHON = {"import": 20, "export": 40}, 3


def table(path):
    """Hourly gauges, their records in the order of times; one value in twenty is missing."""
    source = random.Random(SEED)
    with open(path, "w") as file:
        file.write("station,label,x,y,t,parameter,value\n")
        for hour in range(TIMES):
            t = (BEGIN + datetime.timedelta(hours=hour)).isoformat() + "Z"
            for station in range(STATIONS):
                for parameter in range(PARAMETERS):
                    value = "" if source.random() < 0.05 else source.randint(-999, 99_999)
                    place = f"gauge-{station:02},Gauge {station},{station * 1_500},{station * -700}"
                    file.write(f"{place},{t},parameter-{parameter},{value}\n")
    return path


def feed(path):
    """One bare grid of one time."""
    source = random.Random(SEED)
    samples = ",".join(map(str, source.choices(range(100_000), k=COLUMNS * ROWS)))
    with open(path, "w") as file:
        file.write(
            '{"type":"Coverage","domain":{"type":"Domain","domainType":"Grid","axes":{"x":{"start":0,"stop":%d,"num":%d},'
            '"y":{"start":0,"stop":%d,"num":%d},"t":{"values":["2024-01-01T00:00:00Z"]}},"referencing":[{"coordinates":'
            '["x","y"],"system":{"id":"local","type":"ProjectedCRS"}},{"coordinates":["t"],"system":{"calendar":"Gregorian",'
            '"type":"TemporalRS"}}]},"parameters":{"temp":{"type":"Parameter","observedProperty":{"label":{"en":"temp"}}}},'
            '"ranges":{"temp":{"type":"NdArray","dataType":"integer","axisNames":["t","y","x"],"shape":[1,%d,%d],"values":[%s]}}}\n'
            % (COLUMNS - 1, COLUMNS, ROWS - 1, ROWS, ROWS, COLUMNS, samples)
        )
    return path


def measured(words, path):
    """The least wall time, the greatest peak, and the bytes that were written."""
    runs = [run_once(words, path) for _ in range(RUNS)]
    return min(took for took, _, _ in runs), max(peak for _, peak, _ in runs), runs[-1][2]


def compared(name, words, script, path, sized):
    """Both programs on one file; `sized` gives the bytes of the table by those of the input and of the output."""
    ours = measured([EDR, *words], path)
    theirs = measured([sys.executable, os.path.join(HERE, script)], path)
    if ours[2] != theirs[2]:
        sys.exit(f"{name}: the two programs write different bytes")
    size = sized(os.path.getsize(path), len(ours[2]))
    for program, (took, peak, output) in [("edr", ours), ("python3", theirs)]:
        wanted = f"{LEAST_SPEED[name]} | {LEAST_OF_PYTHON}" if program == "edr" else " | "
        speed = f"{took:.2f} | {size / took / 1e6:.0f} | {theirs[0] / took:.2f} | {wanted}"
        print(f"| {name} | {program} | {size:,} | {speed} | {peak / 1e6:.0f} | {len(output):,} |", flush=True)


def main():
    if not os.path.exists(os.path.join(HERE, "..", "..", "release", "edr")):
        sys.exit("release/edr is missing: release/renew puts it there")
    print("| command | program | bytes of the table | seconds | MB a second | of python3 | wanted, MB | wanted, of python3 | MB at the peak | bytes written |")
    print("|---|---|---|---|---|---|---|---|---|---|")
    with tempfile.TemporaryDirectory() as folder:
        path = table(os.path.join(folder, "table.csv"))
        compared("import", ["import"], "import.py", path, lambda read, written: read)
        path = feed(os.path.join(folder, "feed.jsonl"))
        target = f"/collections/grid/cube?bbox=0,0,{COLUMNS - 1},{ROWS - 1}"
        compared("export", ["export", target], "export.py", path, lambda read, written: written)


if __name__ == "__main__":
    main()
