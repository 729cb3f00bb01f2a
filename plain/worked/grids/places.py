"""Points: on borders, outside, at equal distances, on tiles, and where samples are missing."""

from plain.worked.grids.fields import BOTH, digits, tiled_feed
from plain.worked.grids.texts import (
    A,
    AT_T0,
    COMPOSITE,
    DEEP,
    POSITION,
    PUBLISH,
    AskRow,
    T0,
    T1,
    TIME,
    TYX,
    TZYX,
    axes_of,
    collected,
    collection,
    covered,
    feed,
    grid,
    instance,
    range_along,
    steps,
    tuples,
    values,
)
from plain.worked.grids.usual import EAST, NORTH, TWO_TIMES, USUAL, alone, answered, point, refused, series

# the same grid, otherwise written
TURNED_Y = grid(
    f'{EAST},"y":{values(100, 0)},{TWO_TIMES}', TYX, "2,2,3",
    {"a": "13,null,15,10,11,12,23,24,25,20,21,22", "b": "113,114,115,110,111,112,123,124,null,120,121,122"},
)  # fmt: skip
TURNED_ALL = grid(
    f'"x":{steps(200, 0, 3)},"y":{values(100, 0)},"t":{values(T1, T0)}', TYX, "2,2,3",
    {"a": "25,24,23,22,21,20,15,null,13,12,11,10", "b": "null,124,123,122,121,120,115,114,113,112,111,110"},
)  # fmt: skip
OTHER_ORDER = grid(
    f"{EAST},{NORTH},{TWO_TIMES}", '"x","t","y"', "3,2,2",
    {"a": "10,13,20,23,11,null,21,24,12,15,22,25", "b": "110,113,120,123,111,114,121,124,112,115,122,null"},
)  # fmt: skip
# points of the usual grid, and the nodes that they take
PLACES = {
    (0, 0): (0, 0), (200, 0): (200, 0), (0, 100): (0, 100), (200, 100): (200, 100), (100, 100): (100, 100), (100, 0): (100, 0),
    (49, 0): (0, 0), (50, 0): (0, 0), (51, 0): (100, 0), (149, 0): (100, 0), (150, 0): (100, 0), (151, 0): (200, 0), (199, 0): (200, 0),
    (0, 49): (0, 0), (0, 50): (0, 0), (0, 51): (0, 100), (50, 50): (0, 0), (150, 50): (100, 0), (51, 51): (100, 100), (150, 51): (100, 100),
    (1, 99): (0, 100), (199, 1): (200, 0),
}  # fmt: skip
OUTSIDE = [(-1, 0), (201, 0), (0, -1), (0, 101), (-1, -1), (201, 101), (-1, 101), (201, -1), (-1, 50), (201, 50), (100, -1), (100, 101)]
SPELLINGS = [USUAL, TURNED_Y, TURNED_ALL, OTHER_ORDER]


def place_rows() -> list[AskRow]:
    """Points on borders, one metre outside, and at equal distances, over one grid in several spellings."""
    found = []
    for each in SPELLINGS:
        of_each = feed(collection("g", "Grid"), instance("g", "1", each), PUBLISH)
        found += [AskRow(of_each, f"{POSITION}POINT({x} {y}){AT_T0}", point(*node)) for (x, y), node in PLACES.items()]
        found += [AskRow(of_each, f"{POSITION}POINT({x} {y})", series(*node)) for (x, y), node in PLACES.items() if (x, y) == node]
        found += refused(25, *[f"{POSITION}POINT({x} {y})" for x, y in OUTSIDE], feed=of_each)
    return found


def one_time_feed(x: str, y: str, shape: str, some: str) -> str:
    """A feed of one grid with the parameter a at one time."""
    return feed(collection("g"), instance("g", "1", grid(f'"x":{x},"y":{y},"t":{values(T0)}', TYX, f"1,{shape}", {"a": some}, A)), PUBLISH)


def axis_rows() -> list[AskRow]:
    """Axes of one node, of unequal steps, below 0, and at the limits."""
    one = one_time_feed(values(5), values(7), "1,1", "3")
    uneven = one_time_feed(values(-10, -4, 0, 1, 3, 10), values(-3, -1), "2,6", "0,1,2,3,4,5,6,7,8,9,10,11")
    greatest = one_time_feed(values(-100_000_000, 100_000_000), steps(-100_000_000, 100_000_000, 2), "2,2", "1,2,3,9007199254740991")
    taken = {
        (-10, -3): (-10, -3, "0"), (-7, -3): (-10, -3, "0"), (-6, -3): (-4, -3, "1"), (-8, -2): (-10, -3, "0"), (-2, -2): (-4, -3, "1"),
        (-1, -1): (0, -1, "8"), (2, -1): (1, -1, "9"), (6, -3): (3, -3, "4"), (7, -3): (10, -3, "5"), (10, -1): (10, -1, "11"),
    }  # fmt: skip
    least = -100_000_000
    return [
        *answered(alone(5, 7, "3"), POSITION + "POINT(5 7)", feed=one),
        *refused(25, *[f"{POSITION}POINT({x} {y})" for x, y in ((4, 7), (6, 7), (5, 6), (5, 8))], feed=one),
        *[AskRow(uneven, f"{POSITION}POINT({x} {y})", alone(*node)) for (x, y), node in taken.items()],
        *refused(25, *[f"{POSITION}POINT({x} {y})" for x, y in ((-11, -3), (11, -1), (0, -4), (0, 0))], feed=uneven),
        *answered(alone(least, least, "1"), POSITION + "POINT(0 0)", POSITION + f"POINT({least} {least})", feed=greatest),
        *answered(alone(-least, least, "2"), POSITION + "POINT(1 0)", feed=greatest),
        *answered(alone(-least, -least, "9007199254740991"), POSITION + "POINT(1 1)", POSITION + f"POINT({-least} {-least})", feed=greatest),
    ]


def tiled_rows() -> list[AskRow]:
    """A grid of 130 by 66 nodes, two parameters, times and levels, of which each sample says in digits where it stands."""
    of_tiles = tiled_feed()
    nodes = [(0, 0), (63, 0), (64, 0), (127, 0), (128, 0), (129, 0), (0, 63), (63, 63), (64, 63), (0, 64), (64, 64), (128, 64), (129, 65)]

    def reply(x: int, y: int) -> str:
        ranges = [range_along(TZYX, "2,2,1,1", ",".join(digits(number, t, z, y, x) for t in BOTH for z in BOTH)) for number in BOTH]
        grid_axes = axes_of(10 * x, 10 * y, values(T0, T1), values(0, 10))
        return covered("Grid", grid_axes, f'"a":{ranges[0]},"b":{ranges[1]}', referencing=DEEP)

    several = tuples(values(T1), ",".join(f"[{10 * x},{10 * y},0]" for x, y in nodes), '"x","y","z"')
    some = [range_along(COMPOSITE, str(len(nodes)), ",".join(digits(number, 2, 1, y, x) for x, y in nodes)) for number in BOTH]
    points = ",".join(f"{10 * x} {10 * y}" for x, y in reversed(nodes))
    document = covered("MultiPoint", several, f'"a":{some[0]},"b":{some[1]}', referencing=DEEP)
    return [
        *[AskRow(of_tiles, f"{POSITION}POINT({10 * x} {10 * y})", reply(x, y)) for x, y in nodes],
        *answered(reply(63, 63), POSITION + "POINT(635 635)", POSITION + "POINT(626 629)", feed=of_tiles),
        *answered(reply(64, 64), POSITION + "POINT(636 636)", POSITION + "POINT(645 644)", feed=of_tiles),
        *answered(document, f"{POSITION}MULTIPOINT({points})&z=0&datetime={T1}", feed=of_tiles),
        *answered(collected(*[reply(*node) for node in nodes]), f"{POSITION}MULTIPOINT({points})", feed=of_tiles),
        *refused(25, POSITION + "POINT(1291 0)", POSITION + "POINT(0 651)", feed=of_tiles),
    ]


def missing_rows() -> list[AskRow]:
    """Missing samples are selected like any other."""
    empty = feed(collection("g"), instance("g", "1", grid(f"{EAST},{NORTH},{TWO_TIMES}", TYX, "2,2,3", {"a": ",".join(["null"] * 12)}, A)), PUBLISH)
    nulls = f'"a":{range_along(TIME, "2", "null,null")}'
    return [
        *answered(point(100, 100), f"{POSITION}POINT(100 100){AT_T0}"),
        *answered(series(200, 100), POSITION + "POINT(200 100)"),
        *answered(alone(0, 0, "null"), f"{POSITION}POINT(0 0){AT_T0}", feed=empty),
        *answered(covered("PointSeries", axes_of(0, 100, values(T0, T1)), nulls, A), POSITION + "POINT(0 100)", feed=empty),
        *answered(
            covered("MultiPoint", tuples(values(T0), "[0,0],[100,0]"), f'"a":{range_along(COMPOSITE, "2", "null,null")}', A),
            f"{POSITION}MULTIPOINT(0 0,100 0){AT_T0}",
            feed=empty,
        ),
        *refused(25, POSITION + "POINT(-1 0)", feed=empty),
    ]


def rows() -> list[AskRow]:
    """All of them."""
    return place_rows() + axis_rows() + tiled_rows() + missing_rows()
