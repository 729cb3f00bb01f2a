"""Documents of CoverageJSON."""

import math

from plain.comparison.inputs.document_damages import damaged_document
from plain.comparison.inputs.draws import Draw
from plain.comparison.inputs.texts import instant, time
from plain.comparison.inputs.trees import Spelled, any_tree, damaged_text, damaged_tree, spelled_tree
from plain.profile import limits

TYPES = ("Grid", "Point", "PointSeries", "VerticalProfile", "MultiPoint", "Trajectory")
IDS = ("temp", "wind", "a", "Z", "é", "p q", 'q"', "\U0001f600", "x" * 128)


def document_text(draw: Draw) -> bytes:
    """A document, or nearly one: without damage, with one, or with several."""
    tree = document(draw) if draw.chance(0.99) else any_tree(draw)
    damages = draw.pick(0, 0, 0, 1, 1, 1, 1, 2, 2, 3)
    for _ in range(damages):
        tree = damaged_document(draw, tree) if draw.chance(0.65) else damaged_tree(draw, tree)
    text = spelled_tree(draw, tree).encode("utf-8", "surrogatepass")
    return damaged_text(draw, text) if draw.chance(0.06) else text


def shown_text(draw: Draw) -> bytes:
    """A document, or nearly one, that is valid more often."""
    return document_text(draw) if draw.chance(0.6) else spelled_tree(draw, document(draw)).encode("utf-8", "surrogatepass")


def document(draw: Draw) -> dict:
    """The tree of a valid document."""
    if draw.chance(0.7):
        return coverage(draw, draw.choice(TYPES))
    return _collection(draw)


def _collection(draw: Draw) -> dict:
    type_ = draw.choice(TYPES)
    coverages = [coverage(draw, type_ if draw.chance(0.7) else draw.choice(TYPES)) for _ in range(draw.pick(0, 1, 1, 2, 2, 3))]
    tree = {"type": "CoverageCollection", "coverages": coverages}
    if draw.chance(0.5):
        tree["parameters"] = _parameters(draw, IDS)
        for item in coverages:
            tree["parameters"] |= {key: _parameter(draw) for key in item["ranges"]}
            if draw.chance(0.6):
                del item["parameters"]
    if draw.chance(0.5):
        tree["referencing"] = _referencing(draw, True, True)
        for item in coverages:
            if draw.chance(0.6):
                del item["domain"]["referencing"]
    if draw.chance(0.5):
        tree["domainType"] = type_
        for item in coverages:
            lent = item["domain"].get("domainType", item.get("domainType"))
            if lent == type_ and draw.chance(0.7):
                item["domain"].pop("domainType", None)
                item.pop("domainType", None)
    return _with_more(draw, tree)


def coverage(draw: Draw, type_: str, ids: tuple[str, ...] = IDS) -> dict:
    """The tree of a valid coverage."""
    axes, lengths = _axes(draw, type_)
    domain = {"type": "Domain", "domainType": type_, "axes": axes}
    domain["referencing"] = _referencing(draw, _has(axes, "z"), _has(axes, "t"))
    parameters = _parameters(draw, ids)
    in_ranges = [key for key in parameters if draw.chance(0.8)] or list(parameters)[:1]
    tree = {
        "type": "Coverage",
        "domain": domain,
        "parameters": parameters,
        "ranges": {key: _range(draw, lengths) for key in in_ranges},
    }
    if draw.chance(0.15):
        tree["domainType"] = domain.pop("domainType")
    elif draw.chance(0.1):
        tree["domainType"] = any_tree(draw)
    if draw.chance(0.4):
        tree["id"] = draw.pick("A", "station 1", "", "é", 5, None)
    return _with_more(draw, tree)


def _with_more(draw: Draw, tree: dict) -> dict:
    """The tree with members that are passed over."""
    if draw.chance(0.15):
        tree[draw.pick("@context", "title", "more", "Type", "domains")] = any_tree(draw)
    return tree


# Axes


def _axes(draw: Draw, type_: str) -> tuple[dict, dict[str, int]]:
    """The axes of a domain, and their lengths."""
    if type_ in ("MultiPoint", "Trajectory"):
        return _axes_with_tuples(draw, type_)
    single = {"Grid": "", "Point": "tzyx", "PointSeries": "zyx", "VerticalProfile": "tyx"}[type_]
    optional = {"Grid": "tz", "Point": "tz", "PointSeries": "z", "VerticalProfile": "t"}[type_]
    lengths = {}
    for name in "tzyx":
        if name in optional and draw.chance(0.5):
            continue
        lengths[name] = 1 if name in single else draw.pick(1, 2, 2, 3, 3, 4, 5)
    axes = {name: _axis(draw, name, length) for name, length in lengths.items()}
    return _shuffled(draw, axes), lengths


def _axes_with_tuples(draw: Draw, type_: str) -> tuple[dict, dict[str, int]]:
    count = draw.pick(1, 1, 2, 3, 4)
    has_z = draw.chance(0.5)
    names = (["t"] if type_ == "Trajectory" else []) + ["x", "y"] + (["z"] if has_z else [])
    moment = time(draw)
    rows = []
    for _ in range(count):
        rows.append([instant(draw, moment) if name == "t" else _coordinate(draw) for name in names])
        moment = min(moment + draw.pick(0, 0, 1, 3600), limits.LATEST_TIME)
    axes = {"composite": {"dataType": "tuple", "coordinates": names, "values": rows}}
    lengths = {"composite": count}
    alone = "t" if type_ == "MultiPoint" else "z"
    if draw.chance(0.5) and not (alone == "z" and has_z):
        axes[alone] = _axis(draw, alone, 1)
        lengths[alone] = 1
    return _shuffled(draw, axes), lengths


def _coordinate(draw: Draw) -> int:
    if draw.chance(0.9):
        return draw.randint(-300, 300)
    return draw.pick(limits.COORDINATE, -limits.COORDINATE, 0)


def _shuffled(draw: Draw, tree: dict) -> dict:
    keys = list(tree)
    draw.shuffle(keys)
    return {key: tree[key] for key in keys}


def _has(axes: dict, name: str) -> bool:
    return name in axes or "composite" in axes and name in axes["composite"]["coordinates"]


def _axis(draw: Draw, name: str, length: int) -> dict:
    if name == "t":
        return _times(draw, length)
    regular = draw.chance(0.6)
    steps = [draw.pick(1, 10, 100, 7)] * length if regular else [draw.pick(1, 2, 10, 100, 1000) for _ in range(length)]
    first = draw.randint(-300, 300) if draw.chance(0.9) else draw.pick(-limits.COORDINATE, limits.COORDINATE - sum(steps[1:]))
    values = [first + sum(steps[1 : place + 1]) for place in range(length)]
    if draw.chance(0.3):
        values.reverse()
    if regular and draw.chance(0.5):
        axis = {"start": values[0], "stop": values[-1], "num": length}
    else:
        axis = {"values": values}
        if draw.chance(0.1):
            axis["num"] = any_tree(draw)
    if draw.chance(0.05):
        axis[draw.pick("bounds", "dataType", "coordinates")] = any_tree(draw)
    return axis


def _times(draw: Draw, length: int) -> dict:
    step = draw.pick(1, 60, 3600, 86_400)
    last = min(time(draw) + step * length, limits.LATEST_TIME)
    values = [last - step * place for place in range(length)]
    if draw.chance(0.7):
        values.reverse()
    return {"values": [instant(draw, value) if limits.is_time(value) else value for value in values]}


# Reference systems


def _referencing(draw: Draw, has_z: bool, has_t: bool) -> list:
    crs = {"type": "ProjectedCRS"}
    if draw.chance(0.8):
        crs["id"] = draw.pick("http://www.opengis.net/def/crs/EPSG/0/32633", "local", "", 5)
    together = draw.chance(0.1)
    entries = [{"coordinates": draw.pick(["x", "y"], ["y", "x"], ["x", "y", "z"] if together else ["x", "y"]), "system": crs}]
    if has_z and draw.chance(0.8) or draw.chance(0.1):
        entries.append({"coordinates": ["z"], "system": _vertical(draw)})
        if draw.chance(0.2):
            entries.append({"coordinates": draw.pick(["z"], ["x", "z"], []), "system": _vertical(draw)})
    if has_t and draw.chance(0.8) or draw.chance(0.1):
        entries.append({"coordinates": ["t"], "system": {"type": "TemporalRS", "calendar": "Gregorian"}})
    if draw.chance(0.1):
        entries.append({"coordinates": any_tree(draw), "system": any_tree(draw)})
    if draw.chance(0.3):
        draw.shuffle(entries)
    return [_shuffled(draw, entry) for entry in entries]


def _vertical(draw: Draw) -> dict:
    system = {"type": draw.pick("VerticalCRS", "VerticalCRS", "VerticalCRS", "Vertical")}
    if draw.chance(0.8):
        system["id"] = draw.pick("height", "depth", "", 1)
    return system


# Parameters and ranges


def _parameters(draw: Draw, ids: tuple[str, ...]) -> dict:
    keys = draw.sample(ids, draw.pick(1, 1, 2, 3)) if len(ids) > 3 else list(ids)
    return {key: _parameter(draw) for key in keys}


def _parameter(draw: Draw) -> dict:
    tree = {"type": "Parameter", "observedProperty": {"label": _label(draw)}}
    if draw.chance(0.6):
        tree["unit"] = _unit(draw)
    if draw.chance(0.1):
        tree["observedProperty"]["id"] = any_tree(draw)
    return tree


def _label(draw: Draw) -> dict:
    languages = draw.sample(["en", "de", "", "fr", "é", "EN"], draw.pick(1, 1, 2, 3))
    return {language: draw.pick("Temperature", "Wind", "", "é", 'a"b', "tab\t", "\x1f\x0b\x7f") for language in languages}


def _unit(draw: Draw) -> dict:
    symbol = draw.pick("Cel", "m/s", "", {"type": "x", "value": "Cel"}, {"value": ""})
    form = draw.randrange(5)
    if form < 3:
        unit = {"symbol": symbol}
    elif form == 3:
        unit = {"label": _label(draw)}
    else:
        unit = {"symbol": draw.pick(None, 5, [], True, symbol), "label": _label(draw)}
    return unit


def _range(draw: Draw, lengths: dict[str, int]) -> dict:
    names = [name for name, length in lengths.items() if length > 1 or draw.chance(0.5)]
    draw.shuffle(names)
    values = [_sample(draw) for _ in range(math.prod(lengths.values()))]
    tree = {"type": "NdArray", "dataType": "integer", "axisNames": names, "shape": [lengths[name] for name in names]}
    tree["values"] = values
    if all(length == 1 for length in lengths.values()):
        if not names and draw.chance(0.6) or draw.chance(0.1):
            del tree["shape"]
        if not names and draw.chance(0.6):
            del tree["axisNames"]
    return tree


def _sample(draw: Draw):
    if draw.chance(0.8):
        return draw.randint(-50, 50)
    return draw.pick(None, None, limits.SAMPLE, -limits.SAMPLE, 0, Spelled("12"))
