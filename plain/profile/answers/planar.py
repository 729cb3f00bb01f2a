"""Tests of one point in the plane. All of them compare whole numbers."""

Spot = tuple[int, int]  # x, y


def squared_distance(a: Spot, b: Spot) -> int:
    """The square of the distance of two points."""
    return (a[0] - b[0]) ** 2 + (a[1] - b[1]) ** 2


def _cross(a: Spot, b: Spot, p: Spot) -> int:
    """The cross product of b - a and p - a."""
    return (b[0] - a[0]) * (p[1] - a[1]) - (b[1] - a[1]) * (p[0] - a[0])


def in_box(p: Spot, least: Spot, greatest: Spot) -> bool:
    """Whether a point is in a box; borders are inside."""
    return least[0] <= p[0] <= greatest[0] and least[1] <= p[1] <= greatest[1]


def on_segment(p: Spot, a: Spot, b: Spot) -> bool:
    """Whether a point is on a segment, ends included."""
    least = min(a[0], b[0]), min(a[1], b[1])
    greatest = max(a[0], b[0]), max(a[1], b[1])
    return _cross(a, b, p) == 0 and in_box(p, least, greatest)


def _crosses(p: Spot, a: Spot, b: Spot) -> bool:
    """Whether exactly one end of an edge is above the row of a point, and the edge meets that row right of the point."""
    if a[1] <= p[1] < b[1]:
        return _cross(a, b, p) > 0
    if b[1] <= p[1] < a[1]:
        return _cross(b, a, p) > 0
    return False


def in_polygon(p: Spot, rings: list[list[Spot]]) -> bool:
    """Whether a point is on a border of a polygon, or an odd number of edges lies right of it."""
    edges = [edge for ring in rings for edge in zip(ring, ring[1:])]
    if any(on_segment(p, a, b) for a, b in edges):
        return True
    return sum(_crosses(p, a, b) for a, b in edges) % 2 == 1


def in_polygons(p: Spot, polygons: list[list[list[Spot]]]) -> bool:
    """Whether a point is in one of some polygons."""
    return any(in_polygon(p, rings) for rings in polygons)


def in_disc(p: Spot, centre: Spot, radius: int) -> bool:
    """Whether a point is no farther from a centre than a radius."""
    return squared_distance(p, centre) <= radius**2


def near_segment(p: Spot, a: Spot, b: Spot, width: int) -> bool:
    """Whether a point is no farther from a segment than half of a width."""
    length = squared_distance(a, b)
    along = (b[0] - a[0]) * (p[0] - a[0]) + (b[1] - a[1]) * (p[1] - a[1])
    if length == 0 or along <= 0:
        return 4 * squared_distance(p, a) <= width**2
    if along >= length:
        return 4 * squared_distance(p, b) <= width**2
    return 4 * _cross(a, b, p) ** 2 <= width**2 * length
