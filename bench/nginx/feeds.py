"""Feeds whose editions tell their numbers: each sample of the grid `now` is the number of the edition."""
import json

NOW = "/collections/now/position?coords=POINT(0%200)"
LARGE = "/collections/field/cube?bbox=0,0,999,499"


def coverage(columns, rows, samples):
    axes = {"x": {"start": 0, "stop": columns - 1, "num": columns}, "y": {"start": 0, "stop": rows - 1, "num": rows}}
    axes["t"] = {"values": ["2024-01-01T00:00:00Z"]}
    referencing = [{"coordinates": ["x", "y"], "system": {"id": "local", "type": "ProjectedCRS"}}]
    referencing.append({"coordinates": ["t"], "system": {"calendar": "Gregorian", "type": "TemporalRS"}})
    parameter = {"type": "Parameter", "observedProperty": {"label": {"en": "Temperature"}}}
    values = {"type": "NdArray", "dataType": "integer", "axisNames": ["t", "y", "x"], "shape": [1, rows, columns], "values": samples}
    domain = {"type": "Domain", "domainType": "Grid", "axes": axes, "referencing": referencing}
    return {"type": "Coverage", "domain": domain, "parameters": {"temp": parameter}, "ranges": {"temp": values}}


def collection(name):
    return {"collection": {"id": name, "kind": "grid", "title": name, "crs": "local"}}


def grid(name, it):
    return {"grid": {"collection": name, "instance": "1", "coverage": it}}


def write(path, editions, has_field=True):
    """A feed of so many editions: a field of 500,000 nodes, which stays, and the grid that tells the number."""
    field = [collection("field"), grid("field", coverage(1000, 500, [place % 10 for place in range(500_000)]))]
    lines = [*(field if has_field else []), collection("now")]
    for number in range(1, editions + 1):
        lines += [grid("now", coverage(2, 2, [number] * 4)), {"publish": {}}]
    with open(path, "w") as file:
        file.writelines(json.dumps(line, separators=(",", ":")) + "\n" for line in lines)
    return path
