"""What `edr export` writes of a bare grid of one time, in plain python3: the coverage is read by json, and its values that
aren't missing are written by csv."""
import csv
import json
import sys

coverage = json.loads(sys.stdin.readline())
axes = coverage["domain"]["axes"]


def values(axis):
    if "values" in axis:
        return axis["values"]
    step = (axis["stop"] - axis["start"]) // (axis["num"] - 1)
    return [axis["start"] + step * place for place in range(axis["num"])]


xs, ys, (t,) = values(axes["x"]), values(axes["y"]), values(axes["t"])
rows = csv.writer(sys.stdout, lineterminator="\n")
rows.writerow(["parameter", "t", "z", "y", "x", "id", "value"])
for name in sorted(coverage["ranges"]):
    samples = iter(coverage["ranges"][name]["values"])
    rows.writerows((name, t, "", y, x, "", value) for y in ys for x in xs if (value := next(samples)) is not None)
