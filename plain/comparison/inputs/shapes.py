"""Geometries and distances that meet the values of some axes: on them, halfway between them, on borders, just reaching."""

from dataclasses import dataclass
from math import isqrt

from plain.comparison.inputs.draws import Draw
from plain.comparison.inputs.texts import spelled
from plain.profile import limits

Spot = tuple[int, int]


@dataclass(frozen=True)
class Pool:
    """The values that a query may meet. There are no levels where the data has none."""

    times: list[int]
    levels: list[int]
    ys: list[int]
    xs: list[int]


def near_values(draw: Draw, values: list[int]) -> int:
    """A number at, between, round or outside some values."""
    some, other = draw.choice(values), draw.choice(values)
    way = draw.random()
    if way < 0.45:
        return some
    if way < 0.65:
        place = draw.randrange(len(values))
        return (values[place] + values[min(place + 1, len(values) - 1)]) // 2 + draw.pick(0, 0, 0, 1)
    if way < 0.75:
        return (some + other) // 2
    if way < 0.85:
        return draw.near(min(values), max(values))
    return draw.randint(min(values) - 2, max(values) + 2)


def inside(draw: Draw, values: list[int]) -> int:
    """A number between the least and the greatest of some values."""
    return min(max(near_values(draw, values), min(values)), max(values))


def spot(draw: Draw, pool: Pool) -> Spot:
    """A point, mostly in the box of the axes."""
    if draw.chance(0.8):
        return inside(draw, pool.xs), inside(draw, pool.ys)
    if draw.chance(0.05):
        return draw.pick(limits.COORDINATE, -limits.COORDINATE), near_values(draw, pool.ys)
    return near_values(draw, pool.xs), near_values(draw, pool.ys)


def node(draw: Draw, pool: Pool) -> Spot:
    """A node."""
    return draw.choice(pool.xs), draw.choice(pool.ys)


def level(draw: Draw, pool: Pool) -> int:
    """A level, mostly one that is there."""
    return draw.choice(pool.levels) if pool.levels and draw.chance(0.7) else near_values(draw, pool.levels or [0])


# Well-known text


def _written(draw: Draw, position) -> str:
    return draw.pick(" ", " ", "  ").join(spelled(draw, number) for number in position)


def wkt(draw: Draw, tag: str, dims: str, body: str) -> bytes:
    """A geometry as text, in a spelling of its own."""
    heading = tag + draw.pick(" " if dims else "", "") + dims
    return draw.pick(heading, heading, heading.lower(), heading.capitalize()).encode() + draw.pick(b"", b"", b" ") + body.encode()


def _list(draw: Draw, positions) -> str:
    return "(" + draw.pick(",", ",", ", ").join(_written(draw, position) for position in positions) + ")"


def point(draw: Draw, pool: Pool, has_z: bool) -> bytes:
    """A POINT."""
    position = spot(draw, pool) + ((level(draw, pool),) if has_z else ())
    return wkt(draw, "POINT", "Z" if has_z else "", _list(draw, [position]))


def points(draw: Draw, pool: Pool) -> bytes:
    """A MULTIPOINT, with repeats and points outside."""
    spots = [spot(draw, pool) for _ in range(draw.pick(1, 1, 2, 3, 4, 6))]
    if draw.chance(0.1):
        spots = [node(draw, pool) for _ in range(40)]
    spots += draw.sample(spots, draw.pick(0, 0, 1)) if spots else []
    members = [_written(draw, each) for each in spots]
    return wkt(draw, "MULTIPOINT", "", "(" + ",".join(f"({m})" if draw.chance(0.4) else m for m in members) + ")")


# Polygons


def _ring(draw: Draw, pool: Pool) -> list[Spot]:
    """A closed ring: a rectangle or a triangle of nodes, a star, or a walk that may cross itself or lie on one line."""
    way = draw.randrange(6)
    if way <= 1:
        (x0, y0), (x1, y1) = (draw.pick(node, spot)(draw, pool) for _ in range(2))
        ring = [(x0, y0), (x1, y0), (x1, y1), (x0, y1)]
    elif way == 2:
        ring = [node(draw, pool) for _ in range(3)]
    elif way == 3:
        ring = [draw.pick(node, spot)(draw, pool) for _ in range(draw.pick(3, 4, 5, 7))]
    elif way == 4:
        low_x, high_x, low_y, high_y = pool.xs[0] - 1, pool.xs[-1] + 1, pool.ys[0] - 1, pool.ys[-1] + 1
        ring = [(low_x, low_y), (high_x, low_y), (high_x, high_y), (low_x, high_y)]
    else:
        x, y = node(draw, pool)
        d = draw.pick(0, 1, 2, 3)
        ring = [(x - d, y), (x, y - d), (x + d, y), (x, y + d)]
    if draw.chance(0.3):
        ring.reverse()
    if draw.chance(0.2):
        ring.insert(draw.randrange(len(ring)), draw.choice(ring))
    return ring + ring[:1]


def _polygon(draw: Draw, pool: Pool) -> str:
    return "(" + ",".join(_list(draw, _ring(draw, pool)) for _ in range(draw.pick(1, 1, 1, 2, 2, 3))) + ")"


def polygons(draw: Draw, pool: Pool) -> bytes:
    """A POLYGON or a MULTIPOLYGON."""
    if draw.chance(0.7):
        return wkt(draw, "POLYGON", "", _polygon(draw, pool))
    body = ",".join(_polygon(draw, pool) for _ in range(draw.pick(1, 2, 3)))
    return wkt(draw, "MULTIPOLYGON", "", f"({body})")


# Boxes and discs


def box(draw: Draw, pool: Pool, has_z: bool) -> bytes:
    """The text of a box, with borders on values or next to them."""
    axes = [pool.xs, pool.ys] + ([pool.levels or [0]] if has_z else [])
    pairs = [sorted((near_values(draw, values), near_values(draw, values))) for values in axes]
    if draw.chance(0.3):
        pairs = [[values[0] - draw.pick(0, 1), values[-1] + draw.pick(0, 1)] for values in axes]
    numbers = [low for low, _ in pairs] + [high for _, high in pairs]
    return ",".join(spelled(draw, number) for number in numbers).encode()


def reaching(draw: Draw, pool: Pool, centre: Spot) -> int:
    """A radius that just reaches a node, or just doesn't."""
    x, y = node(draw, pool)
    squared = (x - centre[0]) ** 2 + (y - centre[1]) ** 2
    return max(0, isqrt(squared) + draw.pick(0, 0, 0, 1, -1))


# Lines


@dataclass(frozen=True)
class Line:
    """A line, and widths and heights that just reach something."""

    text: bytes
    dims: str
    width: int
    height: int


def line(draw: Draw, pool: Pool, dims: str) -> Line:
    """A LINESTRING whose vertices are nodes, points between them and points outside; neighbours may be equal."""
    spots = _path(draw, pool)
    if draw.chance(0.4):
        place = draw.randrange(len(spots))
        spots.insert(place, spots[place])
    moments, levels = _moments(draw, pool, len(spots)), _levels_along(draw, pool, len(spots))
    positions = []
    for place, (x, y) in enumerate(spots):
        more = ([levels[place]] if "Z" in dims else []) + ([moments[place]] if "M" in dims else [])
        positions.append([x, y, *more])
    text = wkt(draw, "LINESTRING", dims, _list(draw, positions))
    return Line(text, dims, _reaching_width(draw, pool, spots), _reaching_height(draw, pool, levels))


def _path(draw: Draw, pool: Pool) -> list[Spot]:
    """Two spots or more: any, there and back, a cross, one spot alone, a walk over many nodes, or spots on one side of the box."""
    way = draw.randrange(10)
    spots = [draw.pick(node, spot)(draw, pool) for _ in range(draw.pick(2, 2, 3, 4, 6))]
    if way == 0:
        return spots + spots[::-1]
    if way == 1:
        (x0, y0), (x1, y1) = spots[:2]
        return [(x0, y0), (x1, y1), (x1, y0), (x0, y1)]
    if way == 2:
        return spots[:1] * draw.pick(2, 2, 3)
    if way == 3:
        return [draw.pick(node, spot)(draw, pool) for _ in range(draw.randint(8, 30))]
    if way == 4:
        by_x, by_y = draw.pick((0, 1), (1, 0), (1, 1))
        off = draw.pick(1, 1, 2, 5)
        return [(pool.xs[-1] + off if by_x else x, pool.ys[0] - off if by_y else y) for x, y in spots]
    return spots


def _moments(draw: Draw, pool: Pool, count: int) -> list[int]:
    """Times that don't decrease: any, all equal, on times that are there, or all before the first or after the last."""
    way = draw.randrange(8)
    if way == 0:
        return [near_values(draw, pool.times)] * count
    if way == 1:
        return sorted(draw.choice(pool.times) for _ in range(count))
    if way == 2:
        return [draw.pick(pool.times[0] - 1, pool.times[-1] + 1)] * count
    return sorted(near_values(draw, pool.times) for _ in range(count))


def _levels_along(draw: Draw, pool: Pool, count: int) -> list[int]:
    """Levels: any, or all equal."""
    return [level(draw, pool)] * count if draw.chance(0.2) else [level(draw, pool) for _ in range(count)]


def _reaching_width(draw: Draw, pool: Pool, spots: list[Spot]) -> int:
    """A width that just reaches a node from one of the segments, or just doesn't; or none at all, or the greatest."""
    if draw.chance(0.1):
        return draw.pick(0, 0, 4 * limits.COORDINATE)
    place = draw.randrange(len(spots) - 1)
    (ax, ay), (bx, by), (x, y) = spots[place], spots[place + 1], node(draw, pool)
    length = (bx - ax) ** 2 + (by - ay) ** 2
    along = (bx - ax) * (x - ax) + (by - ay) * (y - ay)
    if length == 0 or along <= 0 or draw.chance(0.1):
        squared = 4 * ((x - ax) ** 2 + (y - ay) ** 2)
    elif along >= length:
        squared = 4 * ((x - bx) ** 2 + (y - by) ** 2)
    else:
        squared = 4 * ((bx - ax) * (y - ay) - (by - ay) * (x - ax)) ** 2 // length
    return max(0, isqrt(squared) + draw.pick(0, 0, 0, 1, -1, 2))


def _reaching_height(draw: Draw, pool: Pool, levels: list[int]) -> int:
    if draw.chance(0.15):
        return draw.pick(0, 0, 1, 4 * limits.COORDINATE)
    return max(0, 2 * abs(level(draw, pool) - draw.choice(levels)) + draw.pick(0, 0, 1, -1))
