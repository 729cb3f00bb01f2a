"""Corridors and trajectories, asked of feeds of their own: a collection of grids and one of stations, each with data."""

from functools import lru_cache

from plain.comparison.inputs.asks import Ask
from plain.comparison.inputs.draws import Draw
from plain.comparison.inputs.edition_feeds import EditionMaker
from plain.comparison.inputs.query_maker import Maker
from plain.profile.feeds.lines import read_feed


def line_input(draw: Draw) -> Ask:
    """A corridor or a trajectory, asked of the feed of the draw's group."""
    feed = _feed_of_group(draw.group)
    edition = read_feed(feed)[-1]
    maker = Maker(draw, edition)
    maker.collection = edition[draw.pick("g", "g", "s")]
    maker.instance = draw.choice(sorted(maker.collection.instances)) if maker.collection.instances and draw.chance(0.3) else None
    maker.page = "corridor" if maker.is_of_stations() else draw.pick("corridor", "trajectory")
    maker.front = None
    maker.add_pairs()
    return Ask((b"ask", maker.text().replace(b"\0", b"0")), feed)


class _LineFeed(EditionMaker):
    """Grids of more times, levels, rows and columns, so that lines meet several of them."""

    def grid_axes(self) -> dict[str, list[int]]:
        if self.size == "tiles":
            return super().grid_axes()
        draw = self.draw
        counts = {name: draw.randint(1, most) for name, most in (("t", 5), ("z", 5), ("y", 6), ("x", 6))}
        if draw.chance(0.4):
            del counts["z"]
        return {name: self.times(count) if name == "t" else self.numbers(count) for name, count in counts.items()}

    def start(self, id_: str, kind: str) -> tuple[dict, str]:
        """Adds a collection; gives its parameters and its reference system."""
        draw = self.draw
        names = draw.sample(("a", "b", "c"), draw.pick(1, 1, 2, 3))
        inner = {"id": id_, "kind": kind, "title": id_, "crs": "local"}
        if draw.chance(0.5):
            inner["vertical"] = "height"
        self.trees.append({"collection": inner})
        return {name: self.parameter() for name in names}, "local"


@lru_cache(maxsize=2)
def _feed_of_group(group: str) -> bytes:
    draw = Draw(group)
    maker = _LineFeed(draw)
    parameters, crs = maker.start("g", "grid")
    for instance in draw.sample(("1", "2", "10"), draw.pick(1, 1, 2)):
        coverage = maker.coverage("Grid", maker.grid_axes(), parameters, crs)
        maker.trees.append({"grid": {"collection": "g", "instance": instance, "coverage": coverage}})
    parameters, crs = maker.start("s", "station")
    has_levels = draw.chance(0.6)
    for id_ in draw.sample(("A", "B", "C", "AA", "10", "9"), draw.randint(1, 6)):
        type_, axes = maker.station_axes((draw.randint(-3, 6), draw.randint(-3, 6)), has_levels)
        coverage = maker.coverage(type_, axes, parameters, crs)
        maker.trees.append({"station": {"collection": "s", "id": id_, "label": id_, "coverage": coverage}})
    maker.publish()
    return b"\n".join(maker.spelled(tree) for tree in maker.trees) + b"\n"
