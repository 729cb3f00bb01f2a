"""Grids of several rows and columns, and the frames that radius, area and cube answer of them.

Samples are written as they lie: in a row from the lowest x on, a row behind a `/` above the one before, and behind a `;` the next level or
time. `-` is a missing sample, `.` a node of a frame that isn't taken; both are null.
"""

from plain.worked.grids.texts import (
    A,
    B,
    DEEP,
    FLAT,
    PUBLISH,
    RADIUS,
    T0,
    T1,
    TYX,
    TZYX,
    collection,
    covered,
    feed,
    grid,
    instance,
    range_along,
    steps,
    values,
)
from plain.worked.grids.usual import TWO_TIMES


def samples(some: str) -> str:
    """Samples as they lie, as a list of JSON."""
    return ",".join("null" if each in ("-", ".") else each for each in some.replace("/", " ").replace(";", " ").split())


def frame(x: str, y: str, ranges: dict[str, str], t: tuple[str, ...] = (T0,), z: str = "") -> str:
    """A Grid of a reply: its axes, and the samples of each parameter as they lie."""
    axes = f'{{"t":{values(*t)},"x":{x},"y":{y}' + (f',"z":{z}}}' if z else "}")
    written = []
    for name, some in ranges.items():
        sheets = some.split(";")
        rows = sheets[0].split("/")
        times = f"{len(t)},{len(sheets) // len(t)}" if z else str(len(t))
        written.append(f'"{name}":{range_along(TZYX if z else TYX, f"{times},{len(rows)},{len(rows[0].split())}", samples(some))}')
    parameters = ",".join({"a": A, "b": B}[name] for name in ranges)
    return covered("Grid", axes, ",".join(written), parameters, DEEP if z else FLAT)


def field(x: str, y: str, some: str) -> str:
    """A Grid of a reply, with the parameter a at the first time."""
    return frame(x, y, {"a": some})


def disc(x: int, y: int, *within: int) -> list[str]:
    """Targets of discs around a point, each of so many metres."""
    return [f"{RADIUS}POINT({x} {y})&within={each}&within-units=m" for each in within]


def square(low: int, high: int) -> str:
    """The ring of a square, of which both sides go from the low to the high coordinate."""
    return f"({low} {low},{high} {low},{high} {high},{low} {high},{low} {low})"


def flat_feed(x: str, y: str, shape: str, some: str, names: str = '"y","x"') -> str:
    """A feed of one grid with the parameter a at one time, which its range leaves out."""
    return feed(collection("g"), instance("g", "1", grid(f'"x":{x},"y":{y},"t":{values(T0)}', names, shape, {"a": samples(some)}, A)), PUBLISH)


# five rows and columns, ten metres from each other: a sample says its row and its column, from 1. The node at x 20 and y 30 has none.
FIVE = steps(0, 40, 5)
FIELD_ROWS = "11 12 13 14 15 / 21 22 23 24 25 / 31 32 33 34 35 / 41 42 - 44 45 / 51 52 53 54 55"
FIELD = flat_feed(FIVE, values(0, 10, 20, 30, 40), "5,5", FIELD_ROWS)
# the same grid, otherwise written
FIELD_SPELLINGS = [
    FIELD,
    flat_feed(FIVE, steps(40, 0, 5), "5,5", "51 52 53 54 55 / 41 42 - 44 45 / 31 32 33 34 35 / 21 22 23 24 25 / 11 12 13 14 15"),
    flat_feed(
        values(40, 30, 20, 10, 0), values(40, 30, 20, 10, 0), "1,5,5",
        "55 54 53 52 51 / 45 44 - 42 41 / 35 34 33 32 31 / 25 24 23 22 21 / 15 14 13 12 11", TYX,
    ),
    flat_feed(FIVE, FIVE, "5,1,5", "11 21 31 41 51 / 12 22 32 42 52 / 13 23 33 - 53 / 14 24 34 44 54 / 15 25 35 45 55", '"x","t","y"'),
]  # fmt: skip

# x 0, 10, 20 and y 0, 10, at four levels and two times: a sample says its time, its level and its node, from 1
STACK_ROWS = (
    "111 112 113 / 114 115 116 ; 121 122 123 / 124 125 126 ; 131 132 133 / 134 135 136 ; 141 142 143 / 144 145 146 ;"
    "211 212 213 / 214 215 216 ; 221 222 223 / 224 225 226 ; 231 232 233 / 234 235 236 ; 241 242 243 / 244 245 246"
)
STACK_AXES = f'"x":{steps(0, 20, 3)},"y":{values(0, 10)},"z":{values(-5, 0, 5, 20)},{TWO_TIMES}'
STACK = feed(
    collection("g", vertical="depth"),
    instance("g", "1", grid(STACK_AXES, TZYX, "2,4,2,3", {"a": samples(STACK_ROWS)}, A, DEEP)),
    PUBLISH,
)

# steps that aren't equal, but some beside each other are
UNEVEN = flat_feed(values(-9, -4, 1, 6, 8, 9), values(-3, -1, 0), "3,6", "1 2 3 4 5 6 / 7 8 9 10 11 12 / 13 14 15 16 17 18")
# nodes at the limits of coordinates, and a metre beside
LIMIT = 100_000_000
LIMITS = flat_feed(values(-LIMIT, LIMIT), values(-LIMIT, 1 - LIMIT, LIMIT), "3,2", "1 2 / 3 4 / 5 6")
CORNER = flat_feed(steps(LIMIT - 2, LIMIT, 3), steps(LIMIT - 3, LIMIT - 1, 3), "3,3", "1 2 3 / 4 5 6 / 7 8 9")


# 130 columns and 66 rows, ten metres from each other, of two parameters, times and levels: of several tiles each
BOTH = (1, 2)


def digits(name: int, t: int, z: int, y: int, x: int) -> str:
    """A sample of the grid of several tiles, which says where it stands."""
    return f"{name}{t}{z}{y:03}{x:03}"


def tiled_feed() -> str:
    """The feed of the grid of several tiles."""
    of_each = {
        name: ",".join(digits(number, t, z, y, x) for t in BOTH for z in BOTH for y in range(66) for x in range(130))
        for number, name in enumerate("ab", 1)
    }
    axes = f'"x":{steps(0, 1290, 130)},"y":{steps(0, 650, 66)},"z":{values(0, 10)},{TWO_TIMES}'
    return feed(collection("g", vertical="depth"), instance("g", "1", grid(axes, TZYX, "2,2,66,130", of_each, referencing=DEEP)), PUBLISH)


def between(first: int, last: int) -> str:
    """The axis of the columns or rows of the grid of several tiles from the first to the last."""
    return steps(10 * first, 10 * last, last - first + 1) if last - first > 1 else values(*range(10 * first, 10 * last + 1, 10))


def tiled(taken: dict[int, tuple[int, int]], names: str = "ab", times: tuple[int, ...] = BOTH, levels: tuple[int, ...] = BOTH) -> str:
    """A frame of the grid of several tiles: the first and the last taken column of each row that has one, and the times and levels."""
    columns = min(first for first, _ in taken.values()), max(last for _, last in taken.values())
    some = {
        name: ";".join(
            "/".join(
                " ".join(
                    digits("ab".index(name) + 1, t, z, y, x) if y in taken and taken[y][0] <= x <= taken[y][1] else "."
                    for x in range(columns[0], columns[1] + 1)
                )
                for y in range(min(taken), max(taken) + 1)
            )
            for t in times
            for z in levels
        )
        for name in names
    }
    instants = tuple((T0, T1)[t - 1] for t in times)
    return frame(between(*columns), between(min(taken), max(taken)), some, instants, values(*[10 * (z - 1) for z in levels]))
