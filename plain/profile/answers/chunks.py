"""The chunks that a reply needs: those that hold a wanted sample."""

import math

from plain.profile.answers.checks import checked_reply
from plain.profile.answers.selection import levels_of
from plain.profile.answers.shapes import Source, asked_parameters, axis_places, sources
from plain.profile.coverage_json.coverages import Domain
from plain.profile.feeds.collections import Collection, Collections
from plain.profile.refusals import Refused
from plain.profile.targets.pages import Description, Query
from plain.profile.targets.read import read_target

TILE = 64  # rows and columns of a tile of a grid
BLOCK = 256  # values of a block of a station


def needed_by(target: bytes, edition: Collections) -> list[int]:
    """The numbers of the chunks that a target needs; none where it is refused or asks for a description."""
    try:
        page = read_target(target)
        if isinstance(page, Description):
            return []
        checked_reply(page, edition)
    except Refused:
        return []
    return needed(page, edition[page.collection])


def needed(query: Query, collection: Collection) -> list[int]:
    """The numbers of the tiles or blocks that hold a wanted sample, ascending, each once."""
    if collection.kind == "grid":
        numbers = [_tiles(source, query, collection) for source in sources(query, collection)]
    else:
        numbers = [_blocks(source, query, collection) for source in sources(query, collection)]
    return sorted(set().union(*numbers))


def _tiles(source: Source, query: Query, collection: Collection) -> set[int]:
    """The tiles of a grid that are needed."""
    domain = source.coverage.domain
    places = map(axis_places(domain), source.wanted)
    return {tile_of(domain, parameter, *place) for place in places for parameter in asked_parameters(query, collection)}


def tile_of(domain: Domain, parameter: int, t: int, z: int, y: int, x: int) -> int:
    """The tile of a sample, by its parameter and its places on the axes."""
    rows, columns = math.ceil(len(domain.axes["y"]) / TILE), math.ceil(len(domain.axes["x"]) / TILE)
    number = (parameter * len(domain.axes["t"]) + t) * len(levels_of(domain)) + z
    return (number * rows + y // TILE) * columns + x // TILE


def _blocks(source: Source, query: Query, collection: Collection) -> set[int]:
    """The blocks of a station that are needed."""
    domain = source.coverage.domain
    stations = sorted(collection.stations.items())
    before = [station.coverage.domain for id_, station in stations if id_ < source.id]
    first = len(collection.parameters()) * sum(map(blocks_of, before))
    places = map(axis_places(domain), source.wanted)
    return {
        first + block_of(domain, parameter, t, z) for t, z, _, _ in places for parameter in asked_parameters(query, collection)
    }


def blocks_of(domain: Domain) -> int:
    """How many blocks a station has for each parameter."""
    return math.ceil(domain.count() / BLOCK)


def block_of(domain: Domain, parameter: int, t: int, z: int) -> int:
    """The block of a sample of a station, counted from the station's first."""
    return parameter * blocks_of(domain) + (t * len(levels_of(domain)) + z) // BLOCK
