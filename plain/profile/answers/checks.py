"""The refusals that an edition decides, in the order of their numbers."""

from plain.profile import limits
from plain.profile.answers.offered import is_offered
from plain.profile.answers.selection import asked_levels
from plain.profile.answers.shapes import Reply, reply
from plain.profile.feeds.collections import Collection, Collections
from plain.profile.refusals import Refused
from plain.profile.targets.pages import Corridor, Description, Location, Query, Trajectory

# The kinds of collections that have a page; all have the page of a collection.
_KIND_OF_PAGE = {"Instances": "grid", "Instance": "grid", "Locations": "station"}


def _refuse(applies: bool, name: str) -> None:
    if applies:
        raise Refused(name)


def checked_page(page: Description, edition: Collections) -> None:
    """Refuses a description page that the edition doesn't have."""
    if not page.ids:
        return
    _refuse(page.ids[0] not in edition, "UnknownCollection")
    collection = edition[page.ids[0]]
    if page.name == "Instance":
        _refuse(collection.kind == "grid" and page.ids[1] not in collection.instances, "UnknownInstance")
    _refuse(_KIND_OF_PAGE.get(page.name, collection.kind) != collection.kind, "QueryNotOffered")


def checked_reply(query: Query, edition: Collections) -> Reply:
    """The reply to a query. Raises Refused with the first refusal that applies."""
    _refuse(query.collection not in edition, "UnknownCollection")
    collection = edition[query.collection]
    _refuse(_is_unknown_instance(query, collection), "UnknownInstance")
    _refuse(_is_unknown_location(query, collection), "UnknownLocation")
    _refuse(not is_offered(query, collection.kind), "QueryNotOffered")
    known = {parameter.id for parameter in collection.parameters()}
    _refuse(query.parameters is not None and not known.issuperset(query.parameters), "UnknownParameterName")
    _refuse(query.crs is not None and query.crs != collection.crs, "BadCrs")
    _refuse(_asks_for_levels(query) and not _has_levels(query, collection), "NoLevels")
    found = reply(query, collection)
    _refuse(not found.outlines, "NoSamples")
    is_too_large = found.values() > limits.REPLY_VALUES or len(found.outlines) > limits.REPLY_COVERAGES
    _refuse(is_too_large, "TooLarge")
    return found


def _is_unknown_instance(query: Query, collection: Collection) -> bool:
    if collection.kind != "grid":
        return False
    if query.instance is None:
        return not collection.instances
    return query.instance not in collection.instances


def _is_unknown_location(query: Query, collection: Collection) -> bool:
    is_location = collection.kind == "station" and isinstance(query.shape, Location)
    return is_location and query.shape.id not in collection.stations


def _asks_for_levels(query: Query) -> bool:
    """Whether there is a `z`, a z of the geometry, or a box of six numbers."""
    if isinstance(query.shape, (Trajectory, Corridor)) and "Z" in query.shape.geometry.dims:
        return True
    return asked_levels(query) is not None


def _has_levels(query: Query, collection: Collection) -> bool:
    """Whether the instance that is asked has levels, or a station."""
    if collection.kind == "station":
        return any("z" in station.coverage.domain.axes for station in collection.stations.values())
    grid = collection.newest() if query.instance is None else collection.instances[query.instance]
    return "z" in grid.domain.axes
