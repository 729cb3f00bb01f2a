"""Collections, and the changes that make editions of them.

Collections and instances are plain values; a draft or an edition is a dict of collections by their ids.
"""

from dataclasses import dataclass, replace

from plain.profile import limits
from plain.profile.coverage_json.coverages import Coverage, Parameter
from plain.profile.faults import NamedFault


@dataclass(frozen=True)
class Station:
    """A station: its label and its samples, a PointSeries, or a Grid of one x and one y."""

    label: str
    coverage: Coverage

    def spot(self) -> tuple[int, int]:
        """Its x and y."""
        axes = self.coverage.domain.axes
        return axes["x"][0], axes["y"][0]


@dataclass(frozen=True)
class Collection:
    """A collection of grids, with its instances by their ids; or one of stations, with these by their ids."""

    id: str
    kind: str
    title: str
    crs: str
    vertical: str | None
    instances: dict[str, Coverage]
    stations: dict[str, Station]

    def newest(self) -> Coverage | None:
        """The instance with the greatest id."""
        return self.instances[max(self.instances)] if self.instances else None

    def coverages(self) -> list[Coverage]:
        """Those of its instances or its stations."""
        return [*self.instances.values(), *(station.coverage for station in self.stations.values())]

    def parameters(self) -> list[Parameter]:
        """Those of its instances or stations, in ascending order of their ids; none where it has none."""
        coverages = self.coverages()
        return coverages[0].parameters if coverages else []


Collections = dict[str, Collection]


class ChangeFault(NamedFault):
    """The first reason to refuse a change: its name, and the count or id that it is about."""


def _refuse(applies: bool, name: str, *about) -> None:
    if applies:
        raise ChangeFault(name, *about)


# Each kind of change has a method `changed`, which gives the collections after it or raises the first fault that applies.


@dataclass(frozen=True)
class AddCollection:
    """Adds an empty collection."""

    collection: Collection

    def changed(self, collections: Collections) -> Collections:
        _refuse(self.collection.id in collections, "SameCollection")
        return collections | {self.collection.id: self.collection}


@dataclass(frozen=True)
class SetGrid:
    """Sets an instance of a collection of grids."""

    collection: str
    instance: str
    coverage: Coverage

    def changed(self, collections: Collections) -> Collections:
        _refuse(self.collection not in collections, "UnknownCollection")
        collection = collections[self.collection]
        _check_grid(collection, self.instance, self.coverage)
        instances = collection.instances | {self.instance: self.coverage}
        return collections | {collection.id: replace(collection, instances=instances)}


@dataclass(frozen=True)
class SetStation:
    """Sets a station of a collection of stations."""

    collection: str
    id: str
    label: str
    coverage: Coverage

    def changed(self, collections: Collections) -> Collections:
        _refuse(self.collection not in collections, "UnknownCollection")
        collection = collections[self.collection]
        _check_station(collection, self.id, self.coverage)
        stations = collection.stations | {self.id: Station(self.label, self.coverage)}
        return collections | {collection.id: replace(collection, stations=stations)}


@dataclass(frozen=True)
class DropCollection:
    """Drops a collection."""

    collection: str

    def changed(self, collections: Collections) -> Collections:
        _refuse(self.collection not in collections, "UnknownCollection")
        return {id_: collection for id_, collection in collections.items() if id_ != self.collection}


@dataclass(frozen=True)
class DropInstance:
    """Drops an instance of a collection of grids."""

    collection: str
    instance: str

    def changed(self, collections: Collections) -> Collections:
        _refuse(self.collection not in collections, "UnknownCollection")
        collection = collections[self.collection]
        _refuse(collection.kind != "grid", "WrongKind")
        _refuse(self.instance not in collection.instances, "UnknownInstance")
        instances = {id_: grid for id_, grid in collection.instances.items() if id_ != self.instance}
        return collections | {collection.id: replace(collection, instances=instances)}


@dataclass(frozen=True)
class DropStation:
    """Drops a station of a collection of stations."""

    collection: str
    station: str

    def changed(self, collections: Collections) -> Collections:
        _refuse(self.collection not in collections, "UnknownCollection")
        collection = collections[self.collection]
        _refuse(collection.kind != "station", "WrongKind")
        _refuse(self.station not in collection.stations, "UnknownStation")
        stations = {id_: station for id_, station in collection.stations.items() if id_ != self.station}
        return collections | {collection.id: replace(collection, stations=stations)}


@dataclass(frozen=True)
class SetBare:
    """Sets the instance `1` of the collection `grid`, which is made where it isn't there."""

    coverage: Coverage

    def changed(self, collections: Collections) -> Collections:
        referencing = self.coverage.referencing
        made = Collection("grid", "grid", "grid", referencing.crs, referencing.vertical, {}, {})
        return SetGrid("grid", "1", self.coverage).changed({"grid": made} | collections)


Change = AddCollection | SetGrid | SetStation | DropCollection | DropInstance | DropStation | SetBare


def _check_grid(collection: Collection, instance: str, coverage: Coverage) -> None:
    """Refuses a grid that can't be set as this instance."""
    _refuse(collection.kind != "grid" or coverage.domain.type != "Grid", "WrongKind")
    others = [grid for id_, grid in collection.instances.items() if id_ != instance]
    _check_coverage(collection, coverage, others)


def _check_station(collection: Collection, id_: str, coverage: Coverage) -> None:
    """Refuses a coverage that can't be set as this station."""
    axes = coverage.domain.axes
    is_column = coverage.domain.type == "Grid" and len(axes["x"]) == 1 and len(axes["y"]) == 1
    _refuse(collection.kind != "station" or not (is_column or coverage.domain.type == "PointSeries"), "WrongKind")
    others = [station.coverage for other, station in collection.stations.items() if other != id_]
    _check_coverage(collection, coverage, others)
    _refuse(any(("z" in axes) != ("z" in other.domain.axes) for other in others), "LevelsDiffer")


def _check_coverage(collection: Collection, coverage: Coverage, others: list[Coverage]) -> None:
    """What is refused of grids and stations alike, the others being those that stay in the collection."""
    domain = coverage.domain
    _refuse("t" not in domain.axes, "NoTimes")
    _refuse(coverage.referencing.crs not in ("", collection.crs), "CrsDiffers")
    _refuse(domain.count() > limits.NODES, "TooManyNodes", domain.count())
    if others:
        difference = _difference(coverage.parameters, others[0].parameters)
        _refuse(difference is not None, "ParametersDiffer", difference)


def _difference(some: list[Parameter], others: list[Parameter]) -> str | None:
    """The least id that only one side has, or at which the two differ; None where the parameters are the same."""
    left = {parameter.id: parameter for parameter in some}
    right = {parameter.id: parameter for parameter in others}
    differing = [id_ for id_ in left | right if left.get(id_) != right.get(id_)]
    return min(differing, default=None)
