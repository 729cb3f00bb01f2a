"""What `edr import` makes of a table, in plain python3: its records are read by csv, and the lines of the feed written by json.
It checks the numbers and the times of the records, and that no sample stands twice."""
import csv
import datetime
import json
import sys

rows = csv.reader(sys.stdin)
if next(rows, None) != ["station", "label", "x", "y", "t", "parameter", "value"]:
    sys.exit("table: NotHeader")
stations, parameters = {}, set()
for number, (station, label, x, y, t, parameter, value) in enumerate(rows, 2):
    time = datetime.datetime.fromisoformat(t.replace("Z", "+00:00")).timestamp()
    place, series = stations.setdefault(station, ((label, int(x), int(y)), {}))
    if place != (label, int(x), int(y)):
        sys.exit(f"table: PlaceDiffers record {number}")
    values = series.setdefault(time, (t, {}))[1]
    if parameter in values:
        sys.exit(f"table: SameSample record {number}")
    parameters.add(parameter)
    values[parameter] = int(value) if value else None

names = sorted(parameters)


def written(tree):
    return json.dumps(tree, sort_keys=True, separators=(",", ":"), ensure_ascii=False) + "\n"


def coverage(x, y, series):
    """A PointSeries: where one time stands, ranges have no axes."""
    times = sorted(series)
    shape = {"axisNames": ["t"], "shape": [len(times)]} if len(times) > 1 else {}
    referencing = [
        {"coordinates": ["x", "y"], "system": {"id": "local", "type": "ProjectedCRS"}},
        {"coordinates": ["t"], "system": {"calendar": "Gregorian", "type": "TemporalRS"}},
    ]
    axes = {"t": {"values": [series[time][0] for time in times]}, "x": {"values": [x]}, "y": {"values": [y]}}
    return {
        "domain": {"axes": axes, "domainType": "PointSeries", "referencing": referencing, "type": "Domain"},
        "parameters": {name: {"observedProperty": {"label": {"en": name}}, "type": "Parameter"} for name in names},
        "ranges": {
            name: {"dataType": "integer", "type": "NdArray", "values": [series[t][1].get(name) for t in times], **shape}
            for name in names
        },
        "type": "Coverage",
    }


sys.stdout.write(written({"collection": {"crs": "local", "id": "sites", "kind": "station", "title": "sites"}}))
for id_ in sorted(stations):
    (label, x, y), series = stations[id_]
    line = {"collection": "sites", "coverage": coverage(x, y, series), "id": id_, "label": label}
    sys.stdout.write(written({"station": line}))
sys.stdout.write(written({"publish": {}}))
