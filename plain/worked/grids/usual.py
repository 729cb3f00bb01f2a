"""The small grids that most rows are about, and what they answer."""

from plain.worked.grids.texts import (
    A,
    COMPOSITE,
    DEEP,
    PUBLISH,
    AskRow,
    T0,
    T1,
    TIME,
    TYX,
    TZYX,
    axes_of,
    bare_range,
    collection,
    covered,
    feed,
    grid,
    instance,
    listed,
    range_along,
    steps,
    tuples,
    values,
)

TWO_TIMES = f'"t":{values(T0, T1)}'
EAST, NORTH = f'"x":{values(0, 100, 200)}', f'"y":{values(0, 100)}'
SAMPLES = {"a": "10,11,12,13,null,15,20,21,22,23,24,25", "b": "110,111,112,113,114,115,120,121,122,123,124,null"}
USUAL = grid(f"{EAST},{NORTH},{TWO_TIMES}", TYX, "2,2,3", SAMPLES)
# what stands at each node, by y and then x: of a and of b, at both times
NODES = {
    (0, 0): ("10", "20", "110", "120"),
    (100, 0): ("11", "21", "111", "121"),
    (200, 0): ("12", "22", "112", "122"),
    (0, 100): ("13", "23", "113", "123"),
    (100, 100): ("null", "24", "114", "124"),
    (200, 100): ("15", "25", "115", "null"),
}
GRID = feed(collection("g", "Grid"), instance("g", "1", USUAL), collection("bare"), PUBLISH)
LEVELS = f'"x":{values(0, 100)},"y":{values(0)},"z":{values(0, 10, 20)},{TWO_TIMES}'
DEEP_GRID = grid(LEVELS, TZYX, "2,3,1,2", {"a": "1,2,3,null,5,6,11,12,13,14,15,16"}, A, DEEP)
DEEP_FEED = feed(collection("g", "Deep", vertical="depth"), instance("g", "1", DEEP_GRID), PUBLISH)
WIDE_COUNT = 5001
WIDE_SAMPLES = f"{listed(range(WIDE_COUNT))},{listed(range(1, WIDE_COUNT + 1))}"
WIDE = grid(f'"x":{steps(0, 5000, WIDE_COUNT)},"y":{values(0)},{TWO_TIMES}', TYX, f"2,1,{WIDE_COUNT}", {"a": WIDE_SAMPLES}, A)
WIDE_FEED = GRID + feed(collection("wide"), instance("wide", "1", WIDE), PUBLISH)


def row_of_points(count: int) -> str:
    """A MULTIPOINT of the first nodes of the wide grid."""
    return f"MULTIPOINT({','.join(f'{x} 0' for x in range(count))})"


def point(x: int, y: int) -> str:
    """The usual grid's node at the first time."""
    a, _, b, _ = NODES[x, y]
    return covered("Point", axes_of(x, y, values(T0)), f'"a":{bare_range(a)},"b":{bare_range(b)}')


def series(x: int, y: int) -> str:
    """The usual grid's node at both times."""
    a, later_a, b, later_b = NODES[x, y]
    ranges = f'"a":{range_along(TIME, "2", f"{a},{later_a}")},"b":{range_along(TIME, "2", f"{b},{later_b}")}'
    return covered("PointSeries", axes_of(x, y, values(T0, T1)), ranges)


def several_points(some: str, a: str, b: str, count: int) -> str:
    """The usual grid's nodes at the first time."""
    ranges = ",".join(f'"{name}":{range_along(COMPOSITE, str(count), each)}' for name, each in (("a", a), ("b", b)))
    return covered("MultiPoint", tuples(values(T0), some), ranges)


def refused(number: int, *targets: str, feed: str = GRID) -> list[AskRow]:
    """Rows of one refusal."""
    return [AskRow(feed, target, refusal=number) for target in targets]


def answered(output: str, *targets: str, feed: str = GRID) -> list[AskRow]:
    """Rows of one output."""
    return [AskRow(feed, target, output) for target in targets]


POLYGON = "POLYGON((0 0,200 0,0 100,0 0))"


def several_of_one() -> str:
    """The MultiPoint of the usual grid's first node alone."""
    return covered("MultiPoint", tuples(values(T0), "[0,0]"), f'"a":{bare_range("10")},"b":{bare_range("110")}')


def alone(x: int, y: int, some: str) -> str:
    """A point of one time and of the parameter a."""
    return covered("Point", axes_of(x, y, values(T0)), f'"a":{bare_range(some)}', A)


def deep(kind: str, x: int, t: str, z: str, ranges: str) -> str:
    """A coverage of the grid with levels."""
    return covered(kind, axes_of(x, 0, t, z), f'"a":{ranges}', A, DEEP)
