"""The documents that answer queries: their shapes, and the samples in them."""

from dataclasses import dataclass, replace
from itertools import product
from typing import Callable, Iterator

from plain.profile.answers.planar import squared_distance
from plain.profile.answers.selection import Place, asked_levels, levels_of, picked, route
from plain.profile.coverage_json.coverages import COMPOSITE, Coverage, Document, Domain, Referencing
from plain.profile.feeds.collections import Collection
from plain.profile.targets.pages import Location, Position, Query, Trajectory


@dataclass(frozen=True)
class Source:
    """A grid or a station that is looked at, with its id where it is a station; and the places that are wanted of it."""

    id: str | None
    coverage: Coverage
    wanted: set[Place]


@dataclass(frozen=True)
class Outline:
    """A coverage of a reply, but for its samples."""

    source: Source
    domain: Domain

    def values_of(self, parameter: int) -> list[int | None]:
        """The samples of a parameter of the source that are wanted; None at the other places of the domain."""
        values = self.source.coverage.ranges[parameter]
        places_on_axes = axis_places(self.source.coverage.domain)

        def value_at(place: Place) -> int | None:
            if place not in self.source.wanted:
                return None
            return values[_number(self.source.coverage.domain, *places_on_axes(place))]

        return [value_at(place) for place in places_of(self.domain)]


@dataclass(frozen=True)
class Reply:
    """A document that answers a query, but for its samples."""

    outlines: list[Outline]
    is_collection: bool
    parameters: list[int]  # the places of those that are asked, among the parameters of the collection
    collection: Collection

    def values(self) -> int:
        """How many values all its ranges have."""
        return len(self.parameters) * sum(outline.domain.count() for outline in self.outlines)

    def document(self) -> Document:
        """The document."""
        return Document([self._coverage(outline) for outline in self.outlines], self.is_collection)

    def _coverage(self, outline: Outline) -> Coverage:
        parameters = self.collection.parameters()
        vertical = self.collection.vertical if outline.domain.has("z") else None
        return Coverage(
            id=outline.source.id,
            domain=outline.domain,
            referencing=Referencing(self.collection.crs, vertical),
            parameters=[parameters[place] for place in self.parameters],
            ranges=[outline.values_of(place) for place in self.parameters],
        )


def places_of(domain: Domain) -> Iterator[Place]:
    """The places of a domain, in the order of its ranges."""
    axes = domain.axes
    if COMPOSITE in axes:
        alone = {name: axes[name][0] for name in axes if name != COMPOSITE}
        for numbers in axes[COMPOSITE]:
            found = alone | dict(zip(domain.coordinates, numbers))
            yield found["t"], found.get("z"), found["y"], found["x"]
    else:
        yield from product(axes["t"], levels_of(domain), axes["y"], axes["x"])


def _number(domain: Domain, t: int, z: int, y: int, x: int) -> int:
    """The number of a sample in its range, by its places on the axes."""
    levels, rows, columns = len(levels_of(domain)), len(domain.axes["y"]), len(domain.axes["x"])
    return ((t * levels + z) * rows + y) * columns + x


def axis_places(domain: Domain) -> Callable[[Place], list[int]]:
    """A function that tells where a place lies on the axes t, z, y and x of a grid or a station; 0 on z where there is none."""
    axes = [domain.axes["t"], levels_of(domain), domain.axes["y"], domain.axes["x"]]
    places_on = [{value: place for place, value in enumerate(values)} for values in axes]
    return lambda place: [places[value] for places, value in zip(places_on, place)]


# What is looked at


def as_location(query: Query, collection: Collection) -> Query:
    """The query, but a position of stations as that of the nearest one; of two that are equally near, the one with the lower id."""
    if collection.kind != "station" or not isinstance(query.shape, Position) or not collection.stations:
        return query
    point = query.shape.geometry.body[0]
    id_ = min(collection.stations, key=lambda id_: (squared_distance(collection.stations[id_].spot(), point[:2]), id_))
    return replace(query, shape=Location(id_), levels=asked_levels(query))


def sources(query: Query, collection: Collection) -> list[Source]:
    """What has wanted samples: the instance, or stations in ascending order of their ids."""
    query = as_location(query, collection)
    if collection.kind == "grid":
        grid = collection.instances[query.instance] if query.instance is not None else collection.newest()
        looked_at = [(None, grid)]
    else:
        looked_at = [(id_, station.coverage) for id_, station in sorted(collection.stations.items())]
    if isinstance(query.shape, Location):
        looked_at = [(id_, coverage) for id_, coverage in looked_at if id_ == query.shape.id]
    found = [Source(id_, coverage, picked(query, coverage.domain)) for id_, coverage in looked_at]
    return [source for source in found if source.wanted]


def asked_parameters(query: Query, collection: Collection) -> list[int]:
    """The places of the parameters that are asked, ascending."""
    parameters = collection.parameters()
    return [place for place, each in enumerate(parameters) if query.parameters is None or each.id in query.parameters]


# Shapes


def reply(query: Query, collection: Collection) -> Reply:
    """The reply to a query. It has no coverages where no sample is wanted."""
    found = sources(query, collection)
    if collection.kind == "station":
        outlines = [Outline(source, _at_one_node(source.coverage.domain, source.wanted)) for source in found]
        is_collection = not isinstance(as_location(query, collection).shape, Location)
    elif found:
        outlines, is_collection = _of_grid(query, found[0])
    else:
        outlines, is_collection = [], False
    return Reply(outlines, is_collection, asked_parameters(query, collection), collection)


def _of_grid(query: Query, source: Source) -> tuple[list[Outline], bool]:
    """The coverages of a reply from a grid, and whether they are a collection also where there is one alone."""
    domain = source.coverage.domain
    match query.shape:
        case Position(geometry) if geometry.tag == "POINT":
            return [Outline(source, _at_one_node(domain, source.wanted))], False
        case Position():
            return _at_points(source)
        case Trajectory(line):
            domains = [_along_line(domain, places, "Z" in line.dims) for places in route(query, domain)]
            return [Outline(source, each) for each in domains], len(domains) > 1
    return [Outline(source, _frame(domain, source.wanted))], False


def _occurring(wanted: set[Place]) -> list[list]:
    """The values of t, z, y and x that occur, ascending."""
    return [sorted({place[coordinate] for place in wanted}) for coordinate in range(4)]


def _axes(domain: Domain, times, levels, ys, xs) -> dict:
    """Axes in their order; with z where the data has levels."""
    axes = {"t": times, "z": levels, "y": ys, "x": xs}
    if "z" not in domain.axes:
        del axes["z"]
    return axes


def _at_one_node(domain: Domain, wanted: set[Place]) -> Domain:
    """The times and levels that are wanted at one node."""
    times, levels, ys, xs = _occurring(wanted)
    if len(levels) == 1:
        type_ = "Point" if len(times) == 1 else "PointSeries"
    else:
        type_ = "VerticalProfile" if len(times) == 1 else "Grid"
    return Domain(type_, _axes(domain, times, levels, ys, xs))


def _at_points(source: Source) -> tuple[list[Outline], bool]:
    """The nodes of some points, by ascending y and then x."""
    domain, wanted = source.coverage.domain, source.wanted
    times, levels, _, _ = _occurring(wanted)
    nodes = sorted({(y, x) for _, _, y, x in wanted})
    if len(times) == 1 and len(levels) == 1:
        if "z" in domain.axes:
            tuples, coordinates = [(x, y, levels[0]) for y, x in nodes], ("x", "y", "z")
        else:
            tuples, coordinates = [(x, y) for y, x in nodes], ("x", "y")
        return [Outline(source, Domain("MultiPoint", {"t": times, COMPOSITE: tuples}, coordinates))], False
    return [Outline(source, _at_one_node(domain, set(product(times, levels, [y], [x])))) for y, x in nodes], True


def _along_line(domain: Domain, places: list[Place], has_z: bool) -> Domain:
    """A list of places along a line, of which each has its z, or all have one or none."""
    if has_z:
        tuples = [(t, x, y, z) for t, z, y, x in places]
        return Domain("Trajectory", {COMPOSITE: tuples}, ("t", "x", "y", "z"))
    axes = {"z": [places[0][1]]} if "z" in domain.axes else {}
    return Domain("Trajectory", axes | {COMPOSITE: [(t, x, y) for t, z, y, x in places]}, ("t", "x", "y"))


def _frame(domain: Domain, wanted: set[Place]) -> Domain:
    """All x and y between those that occur, and the times and levels that occur."""
    times, levels, ys, xs = _occurring(wanted)
    ys = [y for y in domain.axes["y"] if ys[0] <= y <= ys[-1]]
    xs = [x for x in domain.axes["x"] if xs[0] <= x <= xs[-1]]
    return Domain("Grid", _axes(domain, times, levels, ys, xs))
