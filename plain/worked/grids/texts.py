"""The form of a row, and the texts of feeds, replies and targets."""

import json
from dataclasses import dataclass

from plain.worked.runs import Row

NAMES = {
    6: "NoSuchPage", 7: "UnknownParameter", 8: "RepeatedParameter", 9: "BadFormat", 10: "MissingParameter", 11: "BadCoords",
    12: "WrongGeometry", 13: "BadBbox", 14: "BadDatetime", 15: "BadLevel", 16: "BadDistance", 17: "Conflict", 18: "UnknownCollection",
    19: "UnknownInstance", 20: "UnknownLocation", 21: "QueryNotOffered", 22: "UnknownParameterName", 23: "BadCrs", 24: "NoLevels",
    25: "NoSamples", 26: "TooLarge",
}  # fmt: skip


@dataclass(frozen=True)
class AskRow:
    """A feed, a target, and how `ask` ends: with an output, with a refusal's number, or with the feed's fault."""

    feed: str
    target: str
    output: str = ""
    refusal: int = 0
    fault: str = ""

    def ending(self) -> tuple[int, str, str]:
        """The status, the output, and the line on standard error."""
        if self.refusal:
            return 6, "", f'{{"code":"{NAMES[self.refusal]}","number":{self.refusal}}}\n'
        return (2, "", f"feed: {self.fault}\n") if self.fault else (0, self.output, "")

    def row(self) -> Row:
        """The row of `ask`."""
        return Row(("ask", self.target), self.feed, *self.ending())


T0, T1 = "2024-01-01T00:00:00Z", "2024-01-01T01:00:00Z"
A = '"a":{"observedProperty":{"label":{"en":"Air"}},"type":"Parameter","unit":{"symbol":"Cel"}}'
B = '"b":{"observedProperty":{"label":{"de":"Regen"}},"type":"Parameter"}'
XY = '{"coordinates":["x","y"],"system":{"id":"local","type":"ProjectedCRS"}}'
Z = '{"coordinates":["z"],"system":{"id":"depth","type":"VerticalCRS"}}'
T = '{"coordinates":["t"],"system":{"calendar":"Gregorian","type":"TemporalRS"}}'
FLAT, DEEP = f"[{XY},{T}]", f"[{XY},{Z},{T}]"
PUBLISH = '{"publish":{}}'


def feed(*lines: str) -> str:
    """Lines, each ended by LF."""
    return "".join(line + "\n" for line in lines)


def text(some: str) -> str:
    """A text as JSON."""
    return json.dumps(some, ensure_ascii=False)


def collection(id_: str, title: str = "Title", crs: str = "local", vertical: str | None = None) -> str:
    """The line that adds a collection."""
    more = "" if vertical is None else f',"vertical":{text(vertical)}'
    return f'{{"collection":{{"id":{text(id_)},"kind":"grid","title":{text(title)},"crs":{text(crs)}{more}}}}}'


def listed(some) -> str:
    """The items of a JSON list of numbers or times."""
    return ",".join(f'"{each}"' if isinstance(each, str) else str(each) for each in some)


def values(*some) -> str:
    """An axis of listed values."""
    return f'{{"values":[{listed(some)}]}}'


def steps(first: int, last: int, count: int) -> str:
    """An axis of equal steps."""
    return f'{{"num":{count},"start":{first},"stop":{last}}}'


def grid(axes: str, names: str, shape: str, samples: dict[str, str], parameters: str = f"{A},{B}", referencing: str = FLAT) -> str:
    """A coverage of a feed: its axes, the order of its ranges' axes with their lengths, and the samples of each parameter."""
    form = f'"type":"NdArray","dataType":"integer","axisNames":[{names}],"shape":[{shape}]'
    ranges = ",".join(f'{text(name)}:{{{form},"values":[{some}]}}' for name, some in samples.items())
    domain = f'{{"type":"Domain","domainType":"Grid","axes":{{{axes}}},"referencing":{referencing}}}'
    return f'{{"type":"Coverage","domain":{domain},"parameters":{{{parameters}}},"ranges":{{{ranges}}}}}'


def instance(collection_id: str, id_: str, coverage: str) -> str:
    """The line that sets an instance."""
    return f'{{"grid":{{"collection":{text(collection_id)},"instance":{text(id_)},"coverage":{coverage}}}}}'


TYX, TZYX = '"t","y","x"', '"t","z","y","x"'


def axes_of(x: int, y: int, t: str, z: str = "") -> str:
    """The axes of one place."""
    return f'{{"t":{t},"x":{values(x)},"y":{values(y)}' + (f',"z":{z}}}' if z else "}")


def tuples(t: str, some: str, names: str = '"x","y"') -> str:
    """The axes of a MultiPoint."""
    return f'{{"composite":{{"coordinates":[{names}],"dataType":"tuple","values":[{some}]}},"t":{t}}}'


def bare_range(some: str) -> str:
    """A range without axes."""
    return f'{{"dataType":"integer","type":"NdArray","values":[{some}]}}'


def range_along(names: str, shape: str, some: str) -> str:
    """A range with axes."""
    return f'{{"axisNames":[{names}],"dataType":"integer","shape":[{shape}],"type":"NdArray","values":[{some}]}}'


def covered(kind: str, axes: str, ranges: str, parameters: str = f"{A},{B}", referencing: str = FLAT) -> str:
    """A coverage of a reply."""
    domain = f'{{"axes":{axes},"domainType":"{kind}","referencing":{referencing},"type":"Domain"}}'
    return f'{{"domain":{domain},"parameters":{{{parameters}}},"ranges":{{{ranges}}},"type":"Coverage"}}'


def collected(*coverages: str) -> str:
    """A collection of coverages."""
    return f'{{"coverages":[{",".join(coverages)}],"type":"CoverageCollection"}}'


TIME, LEVEL, COMPOSITE = '"t"', '"z"', '"composite"'
POSITION = "/collections/g/position?coords="
RADIUS, AREA, CUBE = "/collections/g/radius?coords=", "/collections/g/area?coords=", "/collections/g/cube?bbox="
AT_T0 = f"&datetime={T0}"
