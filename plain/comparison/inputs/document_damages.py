"""Damages of a document that go by its members: each breaks one of the checks, or nearly so."""

import copy

from plain.comparison.inputs.draws import Draw
from plain.comparison.inputs.texts import instant, time
from plain.comparison.inputs.trees import Spelled, any_tree
from plain.profile import limits

_NOT_WHOLE = [Spelled(text) for text in ("1.0", "1.5", "1e2", "-0", "-0.0", "0e0", "18446744073709551616", "-9223372036854775809")]
_BEYOND = [limits.COORDINATE + 1, -limits.COORDINATE - 1, 2**63 - 1, 2**63, 2**64 - 1, -(2**63)]
_BAD_TIMES = ["2024-06-19", "2023-02-29T00:00:00Z", "2016-12-31T23:59:60Z", "2024-01-01T24:00Z", "", "0000-01-01T00:00+00:01"]
_BAD_TIMES += ["9999-12-31T23:59:59-00:01", "2024-01-01T00:00:00.5Z", "2024-01-01T00:00:00", "2024-13-01T00:00Z", " 2024-01-01T00:00Z"]


class _NothingThere(Exception):
    """The document has no such member."""


def damaged_document(draw: Draw, tree):
    """The document with one damage; as it is where the drawn damage finds nothing to break."""
    tree = copy.deepcopy(tree)
    try:
        draw.choice(_DAMAGES)(draw, _Parts(draw, tree))
    except (_NothingThere, KeyError, IndexError, TypeError, AttributeError, ValueError):
        # an earlier damage took away or changed what this one would break
        pass
    return tree


class _Parts:
    """The parts of a document, one of each drawn."""

    def __init__(self, draw: Draw, root):
        self.draw = draw
        self.root = root
        coverages = root.get("coverages") if type(root) is dict and "coverages" in root else [root]
        if not coverages:
            raise _NothingThere
        self.coverage = draw.choice(coverages)

    def domain(self) -> dict:
        return self.coverage["domain"]

    def axes(self) -> dict:
        return self.domain()["axes"]

    def axis(self, names: str = "tzyx") -> tuple[str, dict]:
        found = [name for name in self.axes() if name in names]
        if not found:
            raise _NothingThere
        name = self.draw.choice(found)
        return name, self.axes()[name]

    def listed(self) -> tuple[str, list]:
        found = [name for name, axis in self.axes().items() if name != "composite" and axis.get("values")]
        if not found:
            raise _NothingThere
        name = self.draw.choice(found)
        return name, self.axes()[name]["values"]

    def composite(self) -> dict:
        return self.axes()["composite"]

    def referencing(self) -> list:
        holder = self.domain() if "referencing" in self.domain() else self.root
        return holder["referencing"]

    def parameter(self) -> tuple[dict, str]:
        holder = self.coverage if "parameters" in self.coverage else self.root
        parameters = holder["parameters"]
        return parameters, self.draw.choice(list(parameters))

    def range(self) -> dict:
        ranges = self.coverage["ranges"]
        return ranges[self.draw.choice(list(ranges))]


def _member(draw, parts):
    """Drops or retypes one of the members that are looked at."""
    parameters, key = parts.parameter()
    range_ = parts.range()
    entry = draw.choice(parts.referencing())
    holder, name = draw.choice(
        [(parts.coverage, name) for name in ("type", "domain", "parameters", "ranges")]
        + [(parts.root, name) for name in ("type", "coverages", "domainType", "referencing", "parameters") if name in parts.root]
        + [(parts.domain(), name) for name in ("domainType", "axes", "referencing")]
        + [(parts.axes(), name) for name in parts.axes()]
        + [(entry, name) for name in ("coordinates", "system")]
        + [(entry["system"], name) for name in ("type", "id", "calendar")]
        + [(parameters, key), (parameters[key], "observedProperty"), (parameters[key]["observedProperty"], "label")]
        + [(range_, name) for name in ("type", "dataType", "axisNames", "shape", "values")]
    )
    if draw.chance(0.6):
        del holder[name]
    else:
        holder[name] = any_tree(draw)


def _axis_names(draw, parts):
    """Another axis than the type has, one less, or one more."""
    axes = parts.axes()
    name = draw.pick("t", "z", "y", "x", "composite", "T", "w")
    if draw.chance(0.5):
        axes[name] = draw.pick({"values": [draw.randint(0, 9)]}, {"values": ["2024-01-01T00:00:00Z"]}, any_tree(draw))
    else:
        axes.pop(name, None)


def _axis_form(draw, parts):
    name, axis = parts.axis()
    way = draw.randrange(5)
    if way == 0:
        parts.axes()[name] = any_tree(draw)
    elif way == 1:
        axis["values"] = any_tree(draw)
    elif way == 2:
        axis[draw.pick("start", "stop", "num", "values")] = any_tree(draw)
    elif way == 3:
        del axis[draw.choice(list(axis))]
    else:
        axis["values"] = []


def _axis_value(draw, parts):
    """One value that isn't of the type, isn't whole, is out of range, or is no time."""
    name, values = parts.listed()
    if name != "t" and draw.chance(0.2):
        return _two_wrong(draw, values, _BEYOND)
    for _ in range(draw.pick(1, 1, 2)):
        place = draw.randrange(len(values))
        if name == "t":
            bad = draw.choice(_BAD_TIMES)
            values[place] = draw.pick(bad, bad, any_tree(draw), instant(draw, time(draw)))
        else:
            wrong = draw.pick(draw.choice(_NOT_WHOLE), draw.choice(_BEYOND))
            values[place] = draw.pick(wrong, wrong, any_tree(draw), draw.near(limits.COORDINATE))


def _two_wrong(draw, values, beyond):
    """A number that isn't whole, and one that is out of range, in either order."""
    one, other = draw.sample(range(len(values)), 2)
    values[one], values[other] = draw.choice(_NOT_WHOLE), draw.choice(beyond)


def _axis_order(draw, parts):
    """Values that stand in no order, or one twice."""
    name, values = parts.listed()
    place = draw.randrange(len(values))
    way = draw.randrange(4)
    if way == 0:
        values.insert(place, values[place])
    elif way == 1:
        draw.shuffle(values)
    elif way == 2:
        values.append(values[0])
    elif name != "t":
        values[place] += draw.pick(-100, 100, -1, 1)


def _axis_several(draw, parts):
    """More values, also where a single one is wanted."""
    name, axis = parts.axis()
    if name == "t":
        axis["values"] = ["2024-01-01T00:00:00Z", "2024-01-01T01:00:00Z", "2024-01-01T02:00:00Z"][: draw.randint(1, 3)]
    else:
        length = draw.randint(1, 3)
        parts.axes()[name] = draw.pick({"values": list(range(length))}, {"start": 0, "stop": length - 1, "num": length})


def _span(draw, parts):
    """An axis by start, stop and num, near its limits and rules."""
    name, _axis = parts.axis("zyx")
    num = draw.pick(0, -1, 1, 2, 3, 4, 4_000_000, 4_000_001, 2**63, 2**64 - 1, *_NOT_WHOLE[:4])
    start = draw.pick(0, 0, 1, -limits.COORDINATE, limits.COORDINATE + 1, *_NOT_WHOLE[:4])
    stop = draw.pick(0, 1, 6, 12, limits.COORDINATE, -limits.COORDINATE - 1, start, *_NOT_WHOLE[:4])
    span = {"start": start, "stop": stop, "num": num}
    if draw.chance(0.05):
        num = draw.pick(4_000_000, 4_000_001, 3, 4)
        span = {"start": 0, "stop": draw.pick(1, -1, 25) * (num - 1), "num": num}
    elif draw.chance(0.2):
        step = draw.pick(limits.COORDINATE // 2, limits.COORDINATE // 2 + 1, limits.COORDINATE, -limits.COORDINATE)
        span = {"start": draw.pick(0, 1, -1), "num": draw.pick(2, 3)}
        span["stop"] = span["start"] + step * (span["num"] - 1)
    if draw.chance(0.1):
        span[draw.pick("start", "stop", "num")] = any_tree(draw)
    parts.axes()[name] = span


def _composite(draw, parts):
    composite = parts.composite()
    rows, names = composite["values"], composite["coordinates"]
    way = draw.randrange(10)
    if way == 9:
        parts.axes()["z"] = {"values": [5]}
    elif way == 0:
        composite["dataType"] = draw.pick("polygon", "Tuple", any_tree(draw))
    elif way == 1:
        composite["coordinates"] = draw.pick(names[::-1], names[:-1], names + ["z"], ["x", "y"], ["t", "x", "y", "z"], any_tree(draw))
    elif way == 2:
        composite["values"] = draw.pick([], any_tree(draw))
    elif way == 3:
        rows[draw.randrange(len(rows))] = draw.pick(rows[0][:-1], rows[0] + [0], [], any_tree(draw))
    elif way == 4:
        rows.reverse()
    elif way == 5:
        row = draw.choice(rows)
        row[draw.randrange(len(row))] = draw.pick(any_tree(draw), instant(draw, time(draw)))
    elif way == 6:
        # an x and a y, which stand beside each other
        one, other = draw.sample(rows, 2) if len(rows) > 1 else (rows[0], rows[0])
        place = names.index("x")
        one[place], other[place + 1] = draw.choice([(draw.choice(_NOT_WHOLE), draw.choice(_BEYOND)), (_BEYOND[0], _NOT_WHOLE[0])])
    else:
        for _ in range(draw.pick(1, 1, 2)):
            row = draw.choice(rows)
            place = draw.randrange(len(row))
            wrong = draw.choice(_BAD_TIMES) if names[place] == "t" else draw.pick(draw.choice(_NOT_WHOLE), draw.choice(_BEYOND))
            row[place] = wrong


def _system(draw, parts):
    entries = parts.referencing()
    way = draw.randrange(6)
    entry = draw.choice(entries)
    if way == 0:
        entry["coordinates"] = draw.pick(["x"], ["y"], ["x", "y"], ["y", "x", "z", "t"], ["z"], ["X", "Y"], "xy", any_tree(draw))
    elif way == 1:
        entry["system"]["type"] = draw.pick("GeographicCRS", "ProjectedCRS", "TemporalRS", "VerticalCRS", "", any_tree(draw))
    elif way == 2:
        entry["system"] = draw.pick({"type": "TemporalRS", "calendar": "Julian"}, {"type": "TemporalRS"}, any_tree(draw))
    elif way == 3:
        entries.remove(entry)
    elif way == 4:
        entries.insert(draw.randint(0, len(entries)), draw.pick(any_tree(draw), {"coordinates": ["x", "y"], "system": {"type": "x"}}))
    else:
        draw.shuffle(entries)


def _parameter(draw, parts):
    parameters, key = parts.parameter()
    parameter = parameters[key]
    way = draw.randrange(7)
    if way == 0:
        parameter["observedProperty"] = draw.pick({}, {"label": {}}, {"label": {"en": 1}}, {"label": "x"}, any_tree(draw))
    elif way == 1:
        parameter["observedProperty"]["categories"] = draw.pick([], None, [{"id": "x"}])
    elif way == 2:
        parameter["observedProperty"]["label"][draw.pick("de", "en", "zz")] = any_tree(draw)
    elif way == 3:
        parameter["unit"] = draw.pick(None, {}, {"symbol": {}}, {"symbol": {"value": 1}, "label": {"en": "x"}}, {"label": {}}, any_tree(draw))
    elif way == 4:
        parameter["unit"] = {"symbol": any_tree(draw), "label": draw.pick({"en": "x"}, any_tree(draw))}
    elif way == 5:
        name = draw.pick("", "a,b", "\x7f", "a\x7f", "\x1f", "x" * 128, "x" * 129, "é" * 65, "é" * 64, "zz")
        parameters[name] = draw.pick(parameter, parameter, parameter, any_tree(draw))
    else:
        parameters[key] = any_tree(draw)


def _range_kind(draw, parts):
    ranges = parts.coverage["ranges"]
    range_ = parts.range()
    way = draw.randrange(4)
    if way == 0:
        range_["type"] = draw.pick("TiledNdArray", "", any_tree(draw))
    elif way == 1:
        range_["dataType"] = draw.pick("float", "string", "", any_tree(draw))
    elif way == 2:
        ranges[draw.pick("zz", "", "A", "temp")] = draw.pick(range_, any_tree(draw))
    else:
        parts.coverage["ranges"] = draw.pick({}, any_tree(draw))


def _range_axes(draw, parts):
    range_ = parts.range()
    names = range_["axisNames"]
    way = draw.randrange(7)
    if way == 0:
        names.append(draw.pick("t", "z", "y", "x", "composite", "w", 1, names[0] if names else "x"))
    elif way == 1:
        names.pop(draw.randrange(len(names)))
    elif way == 2:
        draw.shuffle(names)
    elif way == 3:
        names[draw.randrange(len(names))] = draw.pick("t", "z", "y", "x", "composite", any_tree(draw))
    elif way == 4:
        del range_["axisNames"]
    elif way == 5:
        del range_["shape"]
    else:
        range_["axisNames"] = []


def _shape(draw, parts):
    shape = parts.range()["shape"]
    place = draw.randrange(len(shape))
    way = draw.randrange(5)
    if way == 0:
        shape[place] += draw.pick(1, -1, 10**6)
    elif way == 1:
        shape[place] = draw.pick(-1, 2**63, 2**64 - 1, draw.choice(_NOT_WHOLE), any_tree(draw))
    elif way == 2:
        shape.append(draw.pick(1, 0, shape[0]))
    elif way == 3:
        shape.pop(place)
    else:
        draw.shuffle(shape)


def _samples(draw, parts):
    values = parts.range()["values"]
    beyond = [limits.SAMPLE + 1, -limits.SAMPLE - 1, 2**63, 2**64 - 1, -(2**63)]
    if draw.chance(0.2):
        return _two_wrong(draw, values, beyond)
    for _ in range(draw.pick(1, 1, 2, 2)):
        place = draw.randrange(len(values))
        way = draw.randrange(5)
        if way == 0:
            values.pop(place)
        elif way == 1:
            values.append(draw.pick(0, None, "x"))
        else:
            values[place] = draw.pick(draw.choice(_NOT_WHOLE), draw.choice(beyond), limits.SAMPLE, any_tree(draw))


def _lent(draw, parts):
    """A member that is lent, or stands in front of one that is lent."""
    name = draw.pick("domainType", "referencing", "parameters")
    tree = draw.pick(any_tree(draw), {"domainType": "Grid", "referencing": [], "parameters": {}}[name])
    holder = draw.pick(parts.root, parts.coverage, parts.domain())
    if draw.chance(0.3):
        holder.pop(name, None)
    else:
        holder[name] = tree


def _moved(draw, parts):
    """A member that stands one object further out or in."""
    coverage, domain, root = parts.coverage, parts.domain(), parts.root
    range_ = parts.range()
    entry = draw.choice(parts.referencing())
    moves = [
        (domain, "referencing", coverage),
        (domain, "referencing", coverage),
        (domain, "domainType", domain["axes"]),
        (domain, "axes", coverage),
        (coverage, "parameters", domain),
        (coverage, "ranges", root),
        (coverage, "domain", root),
        (root, "parameters", domain),
        (range_, "shape", coverage),
        (range_, "dataType", coverage),
        (entry["system"], "id", entry),
        (entry["system"], "type", entry),
    ]
    holder, name, other = draw.choice(moves)
    other[name] = holder.pop(name)


def _type_of_domain(draw, parts):
    types = ["Grid", "Point", "PointSeries", "VerticalProfile", "MultiPoint", "Trajectory", "Section", "", "grid", "MultiPointSeries"]
    holder = parts.domain() if "domainType" in parts.domain() else parts.coverage
    holder["domainType"] = draw.choice(types)


_DAMAGES = [_member] * 4 + [_axis_names, _axis_form, _axis_form] + [_axis_value, _axis_order, _axis_several, _span] * 2
_DAMAGES += [_composite] * 3 + [_system, _parameter, _range_axes, _shape, _samples] * 2 + [_range_kind, _lent, _moved, _moved]
_DAMAGES += [_type_of_domain]
