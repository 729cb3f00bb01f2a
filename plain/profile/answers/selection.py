"""Which samples a query wants of a grid or of a station, by their places.

A place is t, z, y and x of a sample; z is None where the data has no levels.
"""

from itertools import product
from typing import Callable

from plain.profile.answers.planar import Spot, in_box, in_disc, in_polygons, near_segment
from plain.profile.coverage_json.coverages import Domain
from plain.profile.levels import At, Between
from plain.profile.targets.pages import Area, Corridor, Cube, Location, Position, Query, Radius, Trajectory
from plain.profile.well_known_text import Geometry

Place = tuple[int, int | None, int, int]


def levels_of(domain: Domain) -> list:
    """The levels of a grid or a station, or None alone where it has none."""
    return list(domain.axes["z"]) if "z" in domain.axes else [None]


def nearest(values, number: int) -> int:
    """The nearest of some values, the lower one where two are equally near."""
    return min(values, key=lambda value: (abs(value - number), value))


def picked(query: Query, domain: Domain) -> set[Place]:
    """The places of the samples that are wanted."""
    match query.shape:
        case Trajectory():
            return {place for places in route(query, domain) for place in places}
        case Corridor():
            return _in_corridor(query, domain)
    times = _times_of_datetime(query, domain)
    levels = [level for level in levels_of(domain) if _is_level_asked(query, level)]
    return {(t, z, y, x) for t, z, (y, x) in product(times, levels, _nodes(query, domain))}


def _times_of_datetime(query: Query, domain: Domain) -> list[int]:
    return [time for time in domain.axes["t"] if query.times is None or query.times.has(time)]


def _is_level_asked(query: Query, level: int | None) -> bool:
    """Whether a level is asked by `z`, by the z of a point, or by a box; all are, where none of them is there."""
    asked = asked_levels(query)
    return asked is None or asked.has(level)


def asked_levels(query: Query):
    """The levels of `z`, of a point or of a box, or None where there is none of these."""
    match query.shape:
        case Position(geometry) | Radius(geometry, _) if geometry.dims == "Z":
            return At(geometry.body[0][2])
        case Cube(_, _, (least, greatest)):
            return Between(least, greatest)
    return query.levels


# Positions, radius, area, cube


def _nodes(query: Query, domain: Domain) -> set[tuple[int, int]]:
    """The nodes y, x that are wanted."""
    if isinstance(query.shape, Position):
        return {_nearest_node(domain, point) for point in query.shape.geometry.body if is_in_domain(domain, point)}
    takes = _place_test(query.shape)
    return {(y, x) for y, x in product(domain.axes["y"], domain.axes["x"]) if takes((x, y))}


def is_in_domain(domain: Domain, position: tuple[int, ...]) -> bool:
    """Whether a position is in the box of x and y; borders are inside."""
    xs, ys = domain.axes["x"], domain.axes["y"]
    return in_box(position[:2], (xs[0], ys[0]), (xs[-1], ys[-1]))


def _nearest_node(domain: Domain, position: tuple[int, ...]) -> tuple[int, int]:
    return nearest(domain.axes["y"], position[1]), nearest(domain.axes["x"], position[0])


def _place_test(shape) -> Callable[[Spot], bool]:
    """Whether a point is taken, apart from its times and levels."""
    match shape:
        case Radius(geometry, within):
            return lambda p: in_disc(p, geometry.body[0][:2], within)
        case Area(geometry):
            polygons = geometry.body if geometry.tag == "MULTIPOLYGON" else [geometry.body]
            return lambda p: in_polygons(p, polygons)
        case Cube(least, greatest, _):
            return lambda p: in_box(p, least, greatest)
        case Location():
            return lambda p: True


# Corridors


def _in_corridor(query: Query, domain: Domain) -> set[Place]:
    """The places that one and the same segment takes by time, level and place."""
    line = query.shape.geometry
    found = set()
    for start, end in zip(line.body, line.body[1:]):
        times = [time for time in domain.axes["t"] if _has_segment_time(query, start, end, time)]
        levels = [level for level in levels_of(domain) if _has_segment_level(query, start, end, level)]
        spots = product(domain.axes["y"], domain.axes["x"])
        nodes = [(y, x) for y, x in spots if near_segment((x, y), start[:2], end[:2], query.shape.width)]
        found |= {(t, z, y, x) for t, z, (y, x) in product(times, levels, nodes)}
    return found


def _has_segment_time(query: Query, start, end, time: int) -> bool:
    if "M" in query.shape.geometry.dims:
        return start[-1] <= time <= end[-1]
    return query.times is None or query.times.has(time)


def _has_segment_level(query: Query, start, end, level: int | None) -> bool:
    height = query.shape.height
    if "Z" in query.shape.geometry.dims:
        return 2 * min(start[2], end[2]) - height <= 2 * level <= 2 * max(start[2], end[2]) + height
    if isinstance(query.levels, At) and height is not None:
        return 2 * abs(level - query.levels.level) <= height
    return query.levels is None or query.levels.has(level)


# Trajectories


def route(query: Query, domain: Domain) -> list[list[Place]]:
    """The places along a line, a list for each turn of time and level, time first. None of them is empty."""
    line = query.shape.geometry
    vertices = [vertex for vertex in line.body if _is_kept(line, domain, vertex)]
    if not vertices:
        return []
    times = [None] if "M" in line.dims else _times_of_datetime(query, domain)
    levels = [None] if "Z" in line.dims else [level for level in levels_of(domain) if _is_level_asked(query, level)]
    return [_list_of_turn(line, domain, vertices, time, level) for time, level in product(times, levels)]


def _is_kept(line: Geometry, domain: Domain, vertex) -> bool:
    times, levels = domain.axes["t"], levels_of(domain)
    if not is_in_domain(domain, vertex):
        return False
    if "M" in line.dims and not times[0] <= vertex[-1] <= times[-1]:
        return False
    return "Z" not in line.dims or levels[0] <= vertex[2] <= levels[-1]


def _list_of_turn(line: Geometry, domain: Domain, vertices: list, time: int | None, level: int | None) -> list[Place]:
    """The places of the vertices in one turn; of neighbours that are equal the first stays."""
    places: list[Place] = []
    for vertex in vertices:
        t = nearest(domain.axes["t"], vertex[-1]) if "M" in line.dims else time
        z = nearest(domain.axes["z"], vertex[2]) if "Z" in line.dims else level
        place = (t, z, *_nearest_node(domain, vertex))
        if not places or places[-1] != place:
            places.append(place)
    return places
