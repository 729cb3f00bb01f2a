#!/usr/bin/env python3
"""The same answer as `edr ask`, by the standard library's json: the sample of the nearest node of one grid."""
import calendar
import json
import sys
import time


def nearest(values, c):
    return min(range(len(values)), key=lambda place: (abs(values[place] - c), values[place]))


def main():
    target = sys.argv[1]
    front, rest = "/collections/grid/position?coords=POINT(", target
    coords, instant = rest[len(front):].split(")&datetime=")
    x, y = (int(part) for part in coords.split(" "))
    grid = json.loads(sys.stdin.buffer.read())
    axes = grid["domain"]["axes"]
    ts, ys, xs = axes["t"]["values"], axes["y"]["values"], axes["x"]["values"]
    assert calendar.timegm(time.strptime(instant, "%Y-%m-%dT%H:%M:%SZ")) is not None
    t, row, column = ts.index(instant), nearest(ys, y), nearest(xs, x)
    number = (t * len(ys) + row) * len(xs) + column
    domain = {
        "axes": {"t": {"values": [instant]}, "x": {"values": [xs[column]]}, "y": {"values": [ys[row]]}},
        "domainType": "Point",
        "referencing": grid["domain"]["referencing"],
        "type": "Domain",
    }
    ranges = {
        name: {"dataType": "integer", "type": "NdArray", "values": [array["values"][number]]}
        for name, array in grid["ranges"].items()
    }
    answer = {"domain": domain, "parameters": grid["parameters"], "ranges": ranges, "type": "Coverage"}
    sys.stdout.write(json.dumps(answer, separators=(",", ":"), sort_keys=True))


main()
