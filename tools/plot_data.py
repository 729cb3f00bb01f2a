"""The samples of one parameter that a picture is drawn of, from a document of CoverageJSON or from a table of `edr`."""

import csv
import io
import json
from dataclasses import dataclass, field, replace

import numpy
import pandas

import edr_client

_TABLE_NAMES = ["parameter", "t", "z", "y", "x", "value"]
_NO_VALUE = {name: ["-"] for name in ("t", "z", "value")}


class NotDrawn(Exception):
    """What can't be drawn, and why."""


@dataclass(frozen=True)
class Samples:
    """The samples of one parameter: a row for each place, with `value`, `y`, `x`, and `t`, `z`, `location` and `way` where they are known."""

    table: pandas.DataFrame
    name: str
    unit: str = ""
    crs: str = ""
    vertical: str = ""
    is_way: bool = False
    chosen: dict[str, tuple[int, int]] = field(default_factory=dict)  # which time and level of how many was chosen

    def quantity(self) -> str:
        """The label of an axis of values."""
        return f"{self.name} ({self.unit})" if self.unit else self.name

    def level_name(self) -> str:
        return f"z, {self.vertical}" if self.vertical and len(self.vertical) < 40 else "z"

    def values(self, name: str) -> list:
        """The values of a coordinate, ascending."""
        return sorted(self.table[name].unique()) if name in self.table else []

    def count(self, *names: str) -> int:
        """How many values a coordinate has, or how many places several have together."""
        names = [name for name in names if name in self.table]
        return len(self.table[names].drop_duplicates()) if names else 1

    def is_grid(self) -> bool:
        """Whether the places are all pairs of some x and some y, each once at a time and a level."""
        places = self.count("y", "x")
        if self.is_way or "location" in self.table or places != self.count("y") * self.count("x") or places == 1:
            return False
        return len(self.table) == places * self.count(*(name for name in ("t", "z") if name in self.table))

    def at(self, name: str, wanted) -> "Samples":
        """The samples at one time or level, by default the first."""
        values = self.values(name)
        if not values:
            return self
        chosen = values[0] if wanted is None else _value_of(name, wanted)
        if chosen not in values:
            raise NotDrawn(f"nothing is at {name} {wanted}; there are {_some(values)}")
        table = self.table[self.table[name] == chosen]
        return replace(self, table=table, chosen={**self.chosen, name: (values.index(chosen) + 1, len(values))})

    def lines(self) -> list[tuple[str, pandas.DataFrame]]:
        """The samples of each place and level by time, with a name for each."""
        keys = [name for name in ("location", "y", "x", "z") if name in self.table]
        several = [name for name in keys if self.count(name) > 1]
        found = []
        for values, group in self.table.groupby(keys, sort=False):
            place = dict(zip(keys, values))
            found.append((_line_name(place, several), group.sort_values("t")))
        return found

    def as_way(self) -> "Samples":
        """The same as a way, where the places aren't a grid."""
        return replace(self, is_way=self.is_way or not self.is_grid())

    def place_name(self) -> str:
        first = self.table.iloc[0]
        return str(first["location"]) if "location" in self.table else f"x {plain(first['x'])}, y {plain(first['y'])}"

    def ways(self, time: str | None) -> "Ways":
        """The samples along a way, level by level: those of one time, where each time has a way of its own."""
        samples = self
        if self.count("t") > 1 and (not self.is_way or _is_repeated(self.table, "t")):
            samples = self.at("t", time)
        elif time is not None:
            samples = self.at("t", time)
        has_levels = samples.count("z") > 1
        is_whole = has_levels and _is_repeated(samples.table, "z")
        # a way stands in its order already; a row or a column of a grid goes by its places
        order = (["z"] if is_whole else []) + ([] if self.is_way else ["y", "x"])
        table = samples.table.sort_values(order, kind="stable")
        samples = replace(samples, table=table)
        length = len(table) // samples.count("z") if is_whole else len(table)
        distance = _distance(table.iloc[:length])
        levels = numpy.array(samples.values("z"), dtype=float) if has_levels else None
        return Ways(samples, numpy.tile(distance, len(table) // length), levels, is_whole)


@dataclass(frozen=True)
class Ways:
    """Samples along a way, with the metres from its beginning; of several levels where `levels` isn't None."""

    samples: Samples
    distance: numpy.ndarray
    levels: numpy.ndarray | None
    is_whole: bool  # each level has the whole way


def _is_repeated(table: pandas.DataFrame, name: str) -> bool:
    """Whether each value of a coordinate has the same places in the same order, and several of them."""
    groups = [group[["y", "x"]].to_numpy() for _, group in table.groupby(name, sort=False)]
    return len(groups[0]) > 1 and all(numpy.array_equal(groups[0], group) for group in groups)


def _distance(table: pandas.DataFrame) -> numpy.ndarray:
    steps = numpy.hypot(table["x"].diff().fillna(0), table["y"].diff().fillna(0))
    return steps.cumsum().to_numpy(dtype=float)


def _line_name(place: dict, several: list[str]) -> str:
    """What tells a line from the others."""
    if "location" in place:
        parts = [str(place["location"])] if "location" in several or "z" not in several else []
    else:
        parts = [f"{name} {plain(place[name])}" for name in ("x", "y") if "z" not in several or {"x", "y"} & set(several)]
    if "z" in several:
        parts.append(f"z {plain(place['z'])}")
    return ", ".join(parts)


def plain(number) -> str:
    """A number without an exponent."""
    return f"{number:.12g}"


def _value_of(name: str, wanted):
    if name != "t":
        return wanted
    try:
        time = pandas.Timestamp(wanted)
    except ValueError:
        raise NotDrawn(f"{wanted} is no time") from None
    return time.tz_localize("UTC") if time.tzinfo is None else time.tz_convert("UTC")


def _some(values: list) -> str:
    texts = [value.strftime("%Y-%m-%dT%H:%M:%SZ") if isinstance(value, pandas.Timestamp) else plain(value) for value in values]
    return ", ".join(texts if len(texts) <= 6 else [*texts[:3], "..", texts[-1]])


# Reading


def read_samples(text: bytes, parameter: str | None = None, label: str | None = None, unit: str | None = None) -> Samples:
    """The samples of a parameter, by default of the first. Raises NotDrawn."""
    if not text.strip():
        raise NotDrawn("nothing is there to draw")
    samples = _of_document(text, parameter) if text.lstrip()[:1] == b"{" else _of_table(text, parameter)
    if "t" in samples.table and not isinstance(samples.table["t"].dtype, pandas.DatetimeTZDtype):
        raise NotDrawn("a time outside the years 1678 to 2261")
    return replace(samples, name=label or samples.name, unit=unit or samples.unit)


def _of_document(text: bytes, parameter: str | None) -> Samples:
    try:
        document = json.loads(text)
    except ValueError:
        raise NotDrawn("the input is no JSON") from None
    if document.get("type") not in ("Coverage", "CoverageCollection"):
        raise NotDrawn(f"the input has no values to draw; it is {text[:80].decode(errors='replace')}")
    coverages = document.get("coverages", [document])
    if not coverages:
        raise NotDrawn("nothing is there to draw")
    parameters = coverages[0].get("parameters") or document["parameters"]
    key = _chosen(parameter, list(coverages[0]["ranges"]))
    table = edr_client.table(document)
    kinds = {each["domain"].get("domainType", document.get("domainType")) for each in coverages}
    tree = parameters[key]
    return Samples(
        _of_parameter(table, edr_client.column_of(key)),
        edr_client.label_of(tree["observedProperty"]) or key,
        edr_client.unit_of(tree),
        table.attrs.get("crs", ""),
        table.attrs.get("vertical", ""),
        is_way=kinds == {"Trajectory"},
    )


def _of_parameter(table: pandas.DataFrame, column: str) -> pandas.DataFrame:
    places = [name for name in ("location", *edr_client.AXES) if name in table.columns]
    return table[[*places, column]].set_axis([*places, "value"], axis="columns")


def _chosen(parameter: str | None, names: list[str]) -> str:
    if parameter is not None and parameter not in names:
        raise NotDrawn(f"no parameter {parameter}; there are {', '.join(names)}")
    return parameter or names[0]


def _of_table(text: bytes, parameter: str | None) -> Samples:
    """The table of `edr fetch`, six cells a line. It doesn't tell what a way is: here places that aren't a grid, each with a time of its own."""
    try:
        table = pandas.read_csv(io.BytesIO(text), sep="\t", header=None, names=_TABLE_NAMES, keep_default_na=False, na_values=_NO_VALUE, dtype={"parameter": str}, quoting=csv.QUOTE_NONE)
    except (ValueError, pandas.errors.ParserError):
        raise NotDrawn("the input is neither CoverageJSON nor a table of edr") from None
    if table[["y", "x"]].isna().any(axis=None) or not all(pandas.api.types.is_numeric_dtype(table[name]) for name in ("z", "y", "x", "value")):
        raise NotDrawn("the input is neither CoverageJSON nor a table of edr")
    key = _chosen(parameter, list(dict.fromkeys(table["parameter"])))
    table = table[table["parameter"] == key].drop(columns="parameter").reset_index(drop=True)
    table = table.drop(columns=[name for name in ("t", "z") if table[name].isna().all()])
    if "t" in table:
        table["t"] = pandas.Series(edr_client.times(table["t"]))
        table["t"] = table["t"].dt.tz_localize("UTC") if table["t"].dtype != object else table["t"]
    samples = Samples(table, key)
    has_own_times = "t" in table and 1 < samples.count("y", "x") == samples.count("t", "y", "x") and samples.count("t") > 1
    return replace(samples, is_way=has_own_times and not samples.is_grid())
