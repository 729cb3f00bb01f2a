"""Feeds: lines that change few collections, so that they meet each other."""

from plain.comparison.inputs.documents import coverage
from plain.comparison.inputs.draws import Draw
from plain.comparison.inputs.edition_feeds import EditionMaker
from plain.comparison.inputs.trees import any_tree, damaged_text, damaged_tree, spelled_tree

_COLLECTIONS = ("grid", "a", "b", "é")
_INSTANCES = ("1", "2", "10", "z")
_STATIONS = ("A", "B", "é")
_NO_NAMES = ("", "a,b", "\x7f", "a\x1f", "x" * 129, "é" * 65, ",")
_CRS = ("local", "", "http://www.opengis.net/def/crs/EPSG/0/32633")


def feed_text(draw: Draw) -> bytes:
    """A feed, or nearly one."""
    maker = _FeedMaker(draw)
    lines = [maker.line() for _ in range(draw.pick(0, 1, 2, 3, 4, 5, 6, 8))]
    if draw.chance(0.8):
        lines.append(maker.spelled({"publish": {}}))
    lines = [line for line in lines for line in _with_blank_lines(draw, line)]
    text = b"\n".join(lines)
    if draw.chance(0.8):
        text += b"\n"
    return damaged_text(draw, text) if draw.chance(0.04) else text


def _with_blank_lines(draw: Draw, line: bytes) -> list[bytes]:
    if draw.chance(0.1):
        return [draw.pick(b"", b" ", b"\r", b"\t \r", b"\x0b", b"\x00"), line]
    return [line + draw.pick(b"", b"", b"", b"\r", b" ")]


class _FeedMaker:
    """Makes the lines of one feed. It knows what it set, so that most changes can be made."""

    def __init__(self, draw: Draw):
        self.draw = draw
        self.faults = draw.pick(0, 0, 0.05, 0.2)
        self.made: dict[str, str] = {}  # the CRS of each collection
        self.instances: list[tuple[str, str]] = []
        self.kinds: dict[str, str] = {}  # of the collections
        self.stations: list[tuple[str, str]] = []
        self.parameters = {"temp": _parameter("Temperature", "Cel")}

    def line(self) -> bytes:
        forms = [self.collection, self.bare]
        if self.made or self.is_fault():
            forms += [self.grid] * 5 + [self.drop, self.publish]
        if self.ids_of("station"):
            forms += [self.station] * 5 + [self.drop_station]
        tree = self.draw.choice(forms)()
        if self.is_fault():
            tree = damaged_tree(self.draw, tree)
        text = self.spelled(tree)
        return damaged_text(self.draw, text).replace(b"\n", b" ") if self.is_fault() and self.draw.chance(0.3) else text

    def spelled(self, tree) -> bytes:
        return spelled_tree(self.draw, tree).encode("utf-8").replace(b"\n", b" ")

    def is_fault(self) -> bool:
        return self.draw.chance(self.faults)

    def collection(self) -> dict:
        missing = [id_ for id_ in _COLLECTIONS if id_ not in self.made]
        any_id = self.is_fault() or not missing or self.draw.chance(0.08)
        id_ = self.draw.choice(_COLLECTIONS if any_id else missing)
        crs = self.draw.choice(_CRS)
        self.made.setdefault(id_, crs)
        title, kind = self.draw.pick("Grid", "", "é\n"), self.draw.pick("grid", "station")
        inner = {"id": id_, "kind": kind, "title": title, "crs": crs}
        self.kinds.setdefault(id_, inner["kind"])
        if self.draw.chance(0.3):
            inner["vertical"] = self.draw.pick("height", "")
        if self.is_fault():
            inner["kind"] = self.draw.pick("station", "Grid", any_tree(self.draw))
        self.slip(inner, "id", "title", "crs", "vertical", "more")
        return {"collection": inner}

    def ids_of(self, kind: str) -> list[str]:
        return [id_ for id_ in self.made if self.kinds.get(id_, "grid") == kind]

    def station(self) -> dict:
        """A station of few ids, a series or a column, with or without levels."""
        draw = self.draw
        ids = list(self.made) if self.is_fault() else self.ids_of("station")
        id_, station = draw.choice(ids), draw.choice(_STATIONS)
        self.stations.append((id_, station))
        maker = EditionMaker(draw)
        type_, axes = maker.station_axes((draw.randint(0, 3), draw.randint(0, 3)), draw.chance(0.2))
        if self.is_fault():
            type_, axes = draw.pick((type_, maker.grid_axes()), ("Grid", {"y": [0], "x": [0]}), ("Grid", maker.grid_axes()))
        if self.is_fault() or draw.chance(0.08):
            self.change_parameters()
        tree = maker.coverage(type_, axes, self.parameters, draw.choice(_CRS) if self.is_fault() else self.made[id_])
        inner = {"collection": id_, "id": station, "label": draw.pick("", "Label"), "coverage": tree}
        self.slip(inner, "collection", "id", "label", "coverage", "more")
        return {"station": inner}

    def drop_station(self) -> dict:
        id_, station = self.draw.choice(self.stations) if self.stations else (self.collection_id(), "A")
        inner = {"collection": id_, "station": self.draw.choice(_STATIONS) if self.is_fault() else station}
        self.slip(inner, "collection", "station", "instance", "more")
        return {"drop": inner}

    def grid(self) -> dict:
        id_, instance = self.collection_id(), self.draw.choice(_INSTANCES)
        self.instances.append((id_, instance))
        inner = {"collection": id_, "instance": instance, "coverage": self.coverage(self.made.get(id_, "local"))}
        self.slip(inner, "collection", "instance", "coverage", "more")
        return {"grid": inner}

    def slip(self, inner: dict, *names: str) -> None:
        """Now and then sets a member to a text that is no name, or to anything."""
        if self.is_fault():
            inner[self.draw.choice(names)] = self.draw.pick(self.draw.choice(_NO_NAMES), any_tree(self.draw))

    def bare(self) -> dict:
        crs = self.made.setdefault("grid", self.draw.choice(_CRS))
        self.instances.append(("grid", "1"))
        tree = self.coverage(crs)
        return tree | ({"publish": {}} if self.draw.chance(0.05) else {})

    def drop(self) -> dict:
        id_, instance = self.collection_id(), self.draw.choice(_INSTANCES)
        if self.instances and not self.is_fault():
            id_, instance = self.draw.choice(self.instances)
        if self.draw.chance(0.4):
            self.made.pop(id_, None)
            self.instances = [pair for pair in self.instances if pair[0] != id_]
            inner = {"collection": id_}
        else:
            self.instances = [pair for pair in self.instances if pair != (id_, instance)]
            inner = {"collection": id_, "instance": instance}
        self.slip(inner, "collection", "instance", "station", "more")
        return {"drop": inner}

    def publish(self) -> dict:
        return {"publish": any_tree(self.draw) if self.is_fault() else {}}

    def collection_id(self) -> str:
        if self.is_fault() or not self.ids_of("grid"):
            return self.draw.choice(_COLLECTIONS)
        return self.draw.choice(self.ids_of("grid"))

    def coverage(self, crs: str) -> dict:
        """A grid with times that fits a collection of this CRS, mostly."""
        draw = self.draw
        type_ = draw.pick("Point", "PointSeries", "MultiPoint") if self.is_fault() else "Grid"
        tree = coverage(draw, type_, tuple(self.parameters))
        axes = tree["domain"]["axes"]
        if type_ == "Grid" and "t" not in axes and not self.is_fault():
            tree = self.with_time(tree)
        for entry in tree["domain"]["referencing"]:
            system = entry["system"]
            if type(system) is dict and system.get("type") == "ProjectedCRS":
                system["id"] = draw.choice(_CRS) if self.is_fault() else draw.pick(crs, crs, "")
        if self.is_fault() or draw.chance(0.08):
            self.change_parameters()
        tree["parameters"] = {key: dict(tree_) for key, tree_ in self.parameters.items()}
        sample = next(iter(tree["ranges"].values()))
        tree["ranges"] = {key: dict(sample) for key in self.parameters}
        return tree

    def with_time(self, tree: dict) -> dict:
        tree["domain"]["axes"]["t"] = {"values": ["2024-01-01T00:00:00Z"]}
        return tree

    def change_parameters(self) -> None:
        """Other parameters from now on: more, fewer, or other labels, languages and units."""
        for _ in range(self.draw.pick(1, 1, 2, 3)):
            key = self.draw.pick("temp", "wind", "a")
            if key in self.parameters and len(self.parameters) > 1 and self.draw.chance(0.5):
                del self.parameters[key]
            else:
                self.parameters[key] = _parameter(
                    self.draw.pick("Temperature", "Heat"), self.draw.pick("Cel", "K", None), self.draw.pick("en", "en", "de")
                )


def _parameter(label: str, unit: str | None, language: str = "en") -> dict:
    tree = {"type": "Parameter", "observedProperty": {"label": {language: label}}}
    return tree if unit is None else tree | {"unit": {"symbol": unit}}
