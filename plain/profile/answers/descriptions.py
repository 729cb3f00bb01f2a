"""The pages that tell of what there is."""

from plain.profile.answers.offered import nearest_is_offered
from plain.profile.coverage_json.written import parameter_tree
from plain.profile.feeds.collections import Collection, Collections, Station
from plain.profile.json_text import write_json
from plain.profile.targets.pages import Description
from plain.profile.times import write_instant

_PLAIN = b"ABCDEFGHIJKLMNOPQRSTUVWXYZabcdefghijklmnopqrstuvwxyz0123456789-._~"

_QUERIES_OF_GRIDS = ("area", "corridor", "cube", "position", "radius", "trajectory")
_QUERIES_OF_STATIONS = ("area", "corridor", "cube", "locations", "radius")


def description(page: Description, edition: Collections) -> str:
    """The text of a page that the edition has."""
    return write_json(_tree(page, edition))


def _tree(page: Description, edition: Collections):
    if page.name == "Landing":
        links = [{"href": "/collections", "rel": "data"}, {"href": "/conformance", "rel": "conformance"}]
        return {"links": links, "title": "EDR"}
    if page.name == "Conformance":
        return {"conformsTo": []}
    if page.name == "Collections":
        return {"collections": [_collection_tree(edition[id_]) for id_ in sorted(edition)], "links": []}
    collection = edition[page.ids[0]]
    if page.name == "Collection":
        return _collection_tree(collection)
    if page.name == "Instances":
        return {"instances": [_instance_tree(collection, id_) for id_ in sorted(collection.instances)], "links": []}
    if page.name == "Instance":
        return _instance_tree(collection, page.ids[1])
    stations = [_station_tree(id_, collection.stations[id_]) for id_ in sorted(collection.stations)]
    return {"features": stations, "type": "FeatureCollection"}


def escaped(id_: str) -> str:
    """An id as it stands in a path."""
    return "".join(chr(byte) if byte in _PLAIN else f"%{byte:02X}" for byte in id_.encode("utf-8"))


def _collection_tree(collection: Collection) -> dict:
    path = f"/collections/{escaped(collection.id)}"
    if collection.kind == "grid":
        names = (*_QUERIES_OF_GRIDS, "instances")
        coverages = [collection.newest()] if collection.instances else []
    else:
        names = _QUERIES_OF_STATIONS + (("position",) if nearest_is_offered() else ())
        coverages = collection.coverages()
    return _data_tree(collection, collection.id, path, names, coverages)


def _instance_tree(collection: Collection, id_: str) -> dict:
    path = f"/collections/{escaped(collection.id)}/instances/{escaped(id_)}"
    return _data_tree(collection, id_, path, _QUERIES_OF_GRIDS, [collection.instances[id_]])


def _data_tree(collection: Collection, id_: str, path: str, queries: tuple[str, ...], coverages: list) -> dict:
    """What is told of a collection or an instance; the coverages are those that its extent is over."""
    tree = {
        "crs": [collection.crs],
        "data_queries": {name: {"link": {"href": f"{path}/{name}", "rel": "data"}} for name in queries},
        "id": id_,
        "links": [],
        "output_formats": ["CoverageJSON"],
        "parameter_names": {parameter.id: parameter_tree(parameter) for parameter in collection.parameters()},
        "title": collection.title,
    }
    if coverages:
        tree["extent"] = _extent_tree(collection, coverages)
    return tree


def _extent_tree(collection: Collection, coverages: list) -> dict:
    """The least and the greatest values of the axes."""

    def ends(name: str) -> list[int]:
        axes = [coverage.domain.axes[name] for coverage in coverages if name in coverage.domain.axes]
        return [min(axis[0] for axis in axes), max(axis[-1] for axis in axes)]

    (x0, x1), (y0, y1) = ends("x"), ends("y")
    tree = {
        "spatial": {"bbox": [[x0, y0, x1, y1]], "crs": collection.crs},
        "temporal": {"interval": [[write_instant(time) for time in ends("t")]]},
    }
    if any("z" in coverage.domain.axes for coverage in coverages):
        tree["vertical"] = {"interval": [ends("z")]}
    return tree


def _station_tree(id_: str, station: Station) -> dict:
    return {
        "geometry": {"coordinates": list(station.spot()), "type": "Point"},
        "id": id_,
        "properties": {"label": station.label},
        "type": "Feature",
    }
