"""Feeds of whole collections, with small axes, so that the targets that are asked of them meet their values."""

import math

from plain.comparison.inputs.draws import Draw
from plain.comparison.inputs.texts import instant
from plain.comparison.inputs.trees import spelled_tree
from plain.profile.json_text import write_json
from plain.profile.times import write_instant

_IDS = ("grid", "a", "b", "é", "a b", "a/b", "100%", "a+b", "日", ".", "A")
_INSTANCES = ("1", "2", "10", "9", "a", "A", "é", "~", "", "a b", "2024-01-01T00:00:00Z", "z" * 128)
_STATIONS = ("A", "B", "C", "a", "AA", "é", "s 1", "s/1", "10", "9")
_PARAMETERS = ("temp", "wind", "a", "Z", "é", "p q")
_CRS = ("local", "", "http://www.opengis.net/def/crs/EPSG/0/32633", "a b+c")
_TIMES = (0, 1_704_067_200, 1_709_164_800, -86_400)


def edition_feed(draw: Draw) -> bytes:
    """A feed whose last edition has some collections."""
    maker = EditionMaker(draw)
    for id_ in draw.sample(_IDS, draw.pick(1, 1, 2, 2, 3)):
        maker.collection(id_)
    maker.publish()
    if draw.chance(0.3):
        maker.change()
        if draw.chance(0.7):
            maker.publish()
    lines = [maker.spelled(tree) for tree in maker.trees]
    if draw.chance(0.01):
        lines.insert(draw.randint(0, len(lines)), draw.pick(b"{", b"{}", b'{"drop":{"collection":"none"}}', b"", b" "))
    return b"\n".join(lines) + draw.pick(b"\n", b"\n", b"")


class EditionMaker:
    """Makes the lines of one feed."""

    def __init__(self, draw: Draw):
        self.draw = draw
        self.trees: list[dict] = []
        self.is_plain = draw.chance(0.6)
        self.set_ones: list[tuple[str, str, dict]] = []  # the kind, the id, and the tree of each line that set something
        self.size = draw.pick(*["small"] * 10, "tiles", "long")

    def spelled(self, tree: dict) -> bytes:
        if self.size != "small" or self.draw.chance(0.5):
            return write_json(tree).encode("utf-8")
        return spelled_tree(self.draw, tree, has_repeats=False).encode("utf-8").replace(b"\n", b" ")

    def publish(self) -> None:
        self.trees.append({"publish": {}})

    def collection(self, id_: str) -> None:
        """A collection with its instances or stations."""
        draw = self.draw
        kind = draw.pick("grid", "grid", "station")
        crs = draw.choice(_CRS)
        parameters = {key: self.parameter() for key in draw.sample(_PARAMETERS, draw.pick(1, 1, 1, 2, 3))}
        if kind == "grid" and id_ == "grid" and draw.chance(0.3):
            self.trees.append(self.coverage("Grid", self.grid_axes(), parameters, crs))
            return
        inner = {"id": id_, "kind": kind, "title": draw.pick(id_, "", "Title é", 'a"b'), "crs": crs}
        if draw.chance(0.4):
            inner["vertical"] = draw.pick("height", "")
        self.trees.append({"collection": inner})
        if kind == "grid":
            self.instances(id_, parameters, crs)
        else:
            self.stations(id_, parameters, crs)

    def instances(self, id_: str, parameters: dict, crs: str) -> None:
        draw = self.draw
        ids = [each for each in _INSTANCES if each]
        for instance in draw.sample(ids, draw.pick(0, 1, 1, 1, 1, 2, 2, 2, 3, 3, 4)):
            coverage = self.coverage("Grid", self.grid_axes(), parameters, crs)
            tree = {"grid": {"collection": id_, "instance": instance, "coverage": coverage}}
            self.trees.append(tree)
            self.set_ones.append((id_, instance, tree))

    def stations(self, id_: str, parameters: dict, crs: str) -> None:
        draw = self.draw
        has_levels = draw.chance(0.5)
        spots = [(draw.randint(-3, 6), draw.randint(-3, 6)) for _ in range(draw.pick(1, 2, 5))]
        for station in draw.sample(_STATIONS, draw.pick(0, 1, 2, 3, 5)):
            type_, axes = self.station_axes(draw.choice(spots), has_levels)
            coverage = self.coverage(type_, axes, parameters, crs)
            inner = {"collection": id_, "id": station, "label": draw.pick(station, "", "Label é"), "coverage": coverage}
            self.trees.append({"station": inner})
            self.set_ones.append((id_, station, {"station": inner}))

    def change(self) -> None:
        """Drops or sets something again."""
        if not self.set_ones:
            return
        draw = self.draw
        id_, name, tree = draw.choice(self.set_ones)
        if draw.chance(0.5):
            self.trees.append(tree)
        else:
            kind = "station" if "station" in tree else "instance"
            self.trees.append({"drop": {"collection": id_, kind: name} if draw.chance(0.8) else {"collection": id_}})

    # axes: numbers, ascending

    def grid_axes(self) -> dict[str, list[int]]:
        draw = self.draw
        counts = {"t": draw.pick(1, 1, 2, 3, 4), "z": draw.pick(1, 2, 3, 4), "y": draw.pick(1, 2, 2, 3, 4), "x": draw.pick(1, 2, 3, 3, 4)}
        if self.size == "tiles" and draw.chance(0.7):
            wide = draw.pick({"y": 66, "x": 3}, {"y": 2, "x": 70}, {"y": 65, "x": 65}, {"y": 64, "x": 64}, {"y": 3, "x": 129})
            counts = {"t": draw.pick(1, 2), "z": draw.pick(1, 2)} | wide
        if draw.chance(0.6):
            del counts["z"]
        return {name: self.times(count) if name == "t" else self.numbers(count) for name, count in counts.items()}

    def station_axes(self, spot: tuple[int, int], has_levels: bool) -> tuple[str, dict[str, list[int]]]:
        draw = self.draw
        many = self.size == "long" and draw.chance(0.7)
        axes = {"t": self.times(draw.pick(255, 256, 257, 300) if many else draw.pick(1, 1, 2, 3))}
        type_ = "Grid" if draw.chance(0.4) else "PointSeries"
        if has_levels:
            axes["z"] = self.numbers(1 if type_ == "PointSeries" else draw.pick(1, 2, 3))
        return type_, axes | {"y": [spot[1]], "x": [spot[0]]}

    def times(self, count: int) -> list[int]:
        first, step = self.draw.choice(_TIMES), self.draw.pick(1, 2, 3600)
        places = sorted(self.draw.sample(range(count + 2), count))
        return [first + step * place for place in places]

    def numbers(self, count: int) -> list[int]:
        """Some numbers near 0, often with an even number between two of them, so that there are ties."""
        draw = self.draw
        first = draw.pick(0, 0, -1, -2, 1, -10)
        if draw.chance(0.4):
            step = draw.pick(1, 2, 2, 3, 4, 10)
            return [first + step * place for place in range(count)]
        numbers = [first]
        while len(numbers) < count:
            numbers.append(numbers[-1] + draw.pick(1, 2, 2, 3, 4))
        return numbers

    # trees

    def coverage(self, type_: str, axes: dict[str, list[int]], parameters: dict, crs: str) -> dict:
        draw = self.draw
        names = [name for name in axes if len(axes[name]) > 1 or draw.chance(0.6)]
        if not self.is_plain:
            draw.shuffle(names)
        referencing = [{"coordinates": ["x", "y"], "system": {"type": "ProjectedCRS", "id": draw.pick(crs, crs, "")}}]
        return {
            "type": "Coverage",
            "domain": {
                "type": "Domain",
                "domainType": type_,
                "axes": {name: self.axis(name, values) for name, values in axes.items()},
                "referencing": referencing,
            },
            "parameters": parameters,
            "ranges": {key: self.range(axes, names) for key in parameters},
        }

    def axis(self, name: str, values: list[int]) -> dict:
        if name == "t":
            return {"values": [write_instant(value) if self.is_plain else instant(self.draw, value) for value in values]}
        if self.draw.chance(0.2):
            values = values[::-1]
        steps = {after - before for before, after in zip(values, values[1:])}
        if len(steps) <= 1 and self.draw.chance(0.3):
            return {"start": values[0], "stop": values[-1], "num": len(values)}
        return {"values": values}

    def range(self, axes: dict[str, list[int]], names: list[str]) -> dict:
        draw = self.draw
        missing = draw.pick(0, 0.1, 0.4, 0.95)
        count = math.prod(map(len, axes.values()))
        samples = [None if draw.chance(missing) else draw.randint(-99, 999) for _ in range(count)]
        shape = [len(axes[name]) for name in names]
        return {"type": "NdArray", "dataType": "integer", "axisNames": names, "shape": shape, "values": samples}

    def parameter(self) -> dict:
        tree = {"type": "Parameter", "observedProperty": {"label": {self.draw.pick("en", "de"): self.draw.pick("Label", "")}}}
        return tree | {"unit": {"symbol": "m"}} if self.draw.chance(0.6) else tree


def many_points_feed(draw: Draw) -> tuple[bytes, bytes]:
    """A feed and a target of so many nodes that a reply is about as long as it may be."""
    maker = EditionMaker(draw)
    axes = {"t": maker.times(draw.pick(1, 2, 2, 2)), "y": list(range(0, 144, 2)), "x": list(range(72))}
    maker.trees += [maker.coverage("Grid", axes, {"temp": maker.parameter()}, "local")]
    nodes = draw.sample([(x, y) for y in axes["y"] for x in axes["x"]], draw.pick(4999, 5000, 5000, 5001, 5002))
    points = nodes + [(x, y + draw.pick(0, 1)) for x, y in draw.sample(nodes, 10) if y < axes["y"][-1]]
    draw.shuffle(points)
    text = ",".join(f"{x} {y}" for x, y in points)
    return maker.spelled(maker.trees[0]), f"/collections/grid/position?coords=MULTIPOINT({text})".encode()


def many_levels_feed(draw: Draw) -> tuple[bytes, bytes]:
    """A feed and a target of so many levels that a reply has about as many values as it may have."""
    parameters = draw.pick(1, 2)
    levels = 2_000_000 // parameters + draw.pick(-1, 0, 0, 1)
    axes = '"x":{"values":[0]},"y":{"values":[0]},"t":{"values":["2024-01-01T00:00:00Z"]},' + f'"z":{{"start":0,"stop":{levels - 1},"num":{levels}}}'
    values = ",".join([draw.choice("0123456789")] * levels)
    names = ("a", "b")[:parameters]
    each = ",".join(f'"{name}":{{"observedProperty":{{"label":{{"en":"a"}}}}}}' for name in names)
    ranges = ",".join(f'"{n}":{{"type":"NdArray","dataType":"integer","axisNames":["z"],"shape":[{levels}],"values":[{values}]}}' for n in names)
    referencing = '[{"coordinates":["x","y"],"system":{"type":"ProjectedCRS","id":"local"}}]'
    domain = f'{{"type":"Domain","domainType":"Grid","axes":{{{axes}}},"referencing":{referencing}}}'
    feed = f'{{"type":"Coverage","domain":{domain},"parameters":{{{each}}},"ranges":{{{ranges}}}}}'
    return feed.encode(), b"/collections/grid/position?coords=POINT(0 0)" + draw.pick(b"", b"&z=0/1000000", b"&parameter-name=a")
