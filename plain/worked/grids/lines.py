"""Corridors and trajectories on grids: which nodes they take, at which times and levels, and in which order."""

from plain.worked.grids.fields import FIELD, FIELD_SPELLINGS, FIVE, field, frame
from plain.worked.grids.texts import A, AT_T0, B, COMPOSITE, DEEP, FLAT, AskRow, T0, T1, bare_range, collected, covered, listed, range_along, steps, values
from plain.worked.grids.usual import DEEP_FEED, answered, refused

M0, M1 = 1_704_067_200, 1_704_070_800  # the two times as m
ONLY_A = "&parameter-name=a"
EAST = steps(0, 200, 3)
THREE = steps(10, 30, 3)


def corridor(line: str, width: int | str, more: str = "", dims: str = "") -> str:
    """The target of a corridor."""
    return f"/collections/g/corridor?coords=LINESTRING{dims}({line})&corridor-width={width}&width-units=m{more}"


def height(metres: int) -> str:
    """A height of a query text."""
    return f"&corridor-height={metres}&height-units=m"


def trajectory(line: str, more: str = "", dims: str = "") -> str:
    """The target of a trajectory."""
    return f"/collections/g/trajectory?coords=LINESTRING{dims}({line}){more}"


def composite_axes(steps_: list[tuple], names: str = "txy", z: str = "") -> str:
    """The axes of a Trajectory: its tuples, their names, and the level that they have in common."""
    written = ",".join(f"[{listed(step)}]" for step in steps_)
    composite = f'{{"coordinates":[{listed(names)}],"dataType":"tuple","values":[{written}]}}'
    return f'{{"composite":{composite}' + (f',"z":{z}}}' if z else "}")


def path(steps_: list[tuple], names: str = "txy", z: str = "", **samples: str) -> str:
    """A Trajectory of a reply: its axes, and the samples of each parameter."""
    axes = composite_axes(steps_, names, z)
    form = bare_range if len(steps_) == 1 else lambda some: range_along(COMPOSITE, str(len(steps_)), some)
    ranges = ",".join(f'"{name}":{form(some)}' for name, some in samples.items())
    parameters = ",".join({"a": A, "b": B}[name] for name in samples)
    return covered("Trajectory", axes, ranges, parameters, DEEP if z or "z" in names else FLAT)


def corridor_place_rows() -> list[AskRow]:
    """Segments of no length, on axes, across them and outside, whose ends and sides reach a node exactly, and not a metre less."""
    centre, only_missing = field(values(20), values(20), "33"), field(values(20), values(30), "-")
    cross, block = field(THREE, THREE, ". 23 . / 32 33 34 / . - ."), field(THREE, THREE, "22 23 24 / 32 33 34 / 42 - 44")
    row, ends = field(THREE, values(20), "32 33 34"), field(FIVE, THREE, ". 22 23 24 . / 31 32 33 34 35 / . 42 - 44 .")
    diagonal = field(FIVE, FIVE, "11 . . . . / . 22 . . . / . . 33 . . / . . . 44 . / . . . . 55")
    wider = field(FIVE, FIVE, "11 12 . . . / 21 22 23 . . / . 32 33 34 . / . . - 44 45 / . . . 54 55")
    crossed = field(FIVE, FIVE, "11 . . . 15 / . 22 . 24 25 / . . 33 . 35 / . 42 . 44 45 / 51 . . . 55")
    whole = field(FIVE, FIVE, "11 12 13 14 15 / 21 22 23 24 25 / 31 32 33 34 35 / 41 42 - 44 45 / 51 52 53 54 55")
    column, columns = field(values(0), FIVE, "11 / 21 / 31 / 41 / 51"), field(values(0, 10), FIVE, "11 12 / 21 22 / 31 32 / 41 42 / 51 52")
    cases: list[tuple[str, str, tuple[int, ...]]] = [
        (centre, "20 20,20 20", (0, 1, 19)),
        (cross, "20 20,20 20", (20, 28)),
        (block, "20 20,20 20", (29, 39)),
        (field(values(10, 20), values(20), "32 33"), "15 20,15 20", (10, 11)),
        (only_missing, "20 30,20 30", (0,)),
        (row, "10 20,30 20", (0, 19)),
        (row, "30 20,10 20,10 20", (0, 19)),
        (ends, "10 20,30 20", (20,)),
        (diagonal, "0 0,40 40", (0, 14)),
        (wider, "0 0,40 40", (15, 28)),
        (crossed, "0 0,40 40,40 0,0 40", (0, 14)),
        (column, "-10 0,-10 40", (20, 21, 39)),
        (columns, "5 -20,5 60", (10, 29)),
        (whole, "-100000000 -100000000,100000000 100000000", (400_000_000,)),
    ]
    found = [row for output, line, widths in cases for width in widths for row in answered(output, corridor(line, width), feed=FIELD)]
    none = [corridor("15 20,15 20", 9), corridor("-10 0,-10 40", 19), corridor("5 5,5 5", 14), corridor("41 41,900 900", 2)]
    found += refused(25, *none, feed=FIELD)
    for spelled in FIELD_SPELLINGS:
        found += answered(wider, corridor("0 0,40 40", 15), corridor("40 40,0 0", "15.0"), feed=spelled)
    return found


def corridor_time_rows() -> list[AskRow]:
    """Times of each segment's own: between its m, both included; and the times that are asked."""
    early, both = frame(EAST, values(0), {"a": "10 11 12"}), frame(EAST, values(0), {"a": "10 11 12;20 21 22"}, (T0, T1))
    apart = frame(EAST, values(0), {"a": "10 11 12;. 21 22"}, (T0, T1))
    first = frame(values(0), values(0), {"a": "10"})
    found = answered(early, corridor("0 0,200 0", 0, ONLY_A + AT_T0), corridor(f"0 0 {M0},200 0 {M1 - 1}", 0, ONLY_A, "M"))
    found += answered(both, corridor("0 0,200 0", 0, ONLY_A), corridor(f"0 0 {M0},200 0 {M1}", 0, ONLY_A, " m"))
    found += answered(apart, corridor(f"0 0 {M0},100 0 {M0},200 0 {M1}", 0, ONLY_A, "M"))
    # a segment takes a time, and no place has it
    found += answered(first, corridor(f"0 0 {M0},-500 0 {M0 + 1},-600 0 {M1}", 0, ONLY_A, "M"))
    found += answered(first, corridor(f"0 0 {M0},0 0 {M0}", 199, ONLY_A, "M"))
    found += refused(25, corridor(f"0 0 {M0 + 1},200 0 {M1 - 1}", 0, "", "M"), corridor(f"0 0 {M1 + 1},0 0 {M1 + 1}", 0, "", "M"))
    found += refused(25, corridor("0 0,0 0", 0, "&datetime=2024-01-01T00:00:01Z"))
    return found


def corridor_level_rows() -> list[AskRow]:
    """Levels that are asked, about a single level, and of each segment's own, with heights of 0 and odd ones."""
    whole = frame(values(0, 100), values(0), {"a": "1 2;3 -;5 6"}, z=steps(0, 20, 3))
    ten = frame(values(0, 100), values(0), {"a": "3 -"}, z=values(10))
    low = frame(values(0, 100), values(0), {"a": "1 2;3 -"}, z=values(0, 10))
    ends = frame(values(0, 100), values(0), {"a": "1 2;5 6"}, z=values(0, 20))
    apart = frame(values(0, 100), values(0), {"a": "1 .;. -"}, z=values(0, 10))
    line, asked = "0 0,100 0", AT_T0

    def about(level: int, *heights: int) -> list[str]:
        return [corridor(line, 0, f"{asked}&z={level}{height(metres)}") for metres in heights]

    def along(low_: int, high: int, *heights: int) -> list[str]:
        return [corridor(f"0 0 {low_},100 0 {high}", 0, asked + height(metres), "Z") for metres in heights]

    found = answered(whole, corridor(line, 0, asked), corridor(line, 0, asked + height(1)), *about(10, 20, 39), feed=DEEP_FEED)
    found += answered(ten, corridor(line, 0, asked + "&z=10"), corridor(line, 0, asked + "&z=1/19"), *about(10, 0, 19), feed=DEEP_FEED)
    found += answered(low, *about(5, 10, 11, 29), *along(0, 10, 0, 1, 19), *along(10, 0, 0), *along(1, 9, 2, 3), feed=DEEP_FEED)
    found += answered(ends, corridor(line, 0, asked + "&z=20,0"), feed=DEEP_FEED)
    found += answered(ten, *along(5, 8, 4, 5), *along(10, 10, 0, 19), feed=DEEP_FEED)
    found += answered(apart, corridor("0 0 0,50 0 1,50 0 9,100 0 10", 0, asked + height(0), "Z"), feed=DEEP_FEED)
    found += refused(25, *about(5, 0, 9), *along(5, 8, 0, 3), *along(21, 30, 1), corridor(line, 0, asked + "&z=7"), feed=DEEP_FEED)
    found += refused(17, corridor(line, 0, f"{asked}&z=0,20{height(2)}"), feed=DEEP_FEED)
    found += refused(24, corridor(line, 0, f"&z=0{height(2)}"))
    return found


def trajectory_place_rows() -> list[AskRow]:
    """Vertices on nodes, between them and outside; of neighbours at one node one stays, and a node that comes again stands again."""
    cases: list[tuple[list[tuple[int, int]], str, list[str]]] = [
        ([(0, 0), (40, 40)], "11,55", ["0 0,40 40", "-1 0,0 0,41 0,0 41,40 -1,40 40", "0 0,4 4,40 40,-3 9"]),
        ([(0, 0), (10, 20), (30, 20)], "11,32,34", ["5 5,15 25,35 20", "1 0,5 -1,14 16,26 25"]),
        ([(10, 10)], "22", ["6 6,15 15", "6 6,6 -6,15 15"]),
        ([(0, 0), (10, 0), (0, 0)], "11,12,11", ["0 0,4 4,5 5,0 0,10 0,0 0"]),
        ([(20, 30)], "null", ["20 30,20 30"]),
    ]
    found = []
    for nodes, some, lines in cases:
        output = path([(T0, x, y) for x, y in nodes], a=some)
        for feed in FIELD_SPELLINGS:
            found += answered(output, *[trajectory(line) for line in lines], feed=feed)
    return found + refused(25, trajectory("-1 0,0 -1"), trajectory("41 0,0 41"), trajectory("900 900,-900 -900"), feed=FIELD)


def trajectory_turn_rows() -> list[AskRow]:
    """A list for each time that is asked, and times of the vertices' own."""
    lists = [path([(t, 0, 0), (t, 200, 100)], a=some) for t, some in ((T0, "10,15"), (T1, "20,25"))]
    found = answered(lists[0], trajectory("0 0,200 100", ONLY_A + AT_T0), trajectory("0 0,200 100", f"{ONLY_A}&datetime=../2024-01-01T00:59:59Z"))
    found += answered(collected(*lists), trajectory("0 0,200 100", ONLY_A), trajectory("0 0,-9 0,200 100", f"{ONLY_A}&datetime=../.."))
    found += answered(path([(T0, 0, 0), (T0, 200, 100)], a="10,15", b="110,115"), trajectory("0 0,200 100", AT_T0))
    cases: list[tuple[list[tuple], str, str]] = [
        ([(T0, 0, 0), (T0, 100, 0), (T1, 200, 0)], "10,11,22", f"0 0 {M0},100 0 {M0 + 1800},200 0 {M0 + 1801}"),
        ([(T0, 100, 0), (T1, 200, 0)], "11,22", f"0 0 {M0 - 1},100 0 {M0},200 0 {M1},0 0 {M1 + 1}"),
        ([(T0, 0, 0), (T0, 100, 0), (T0, 0, 0)], "10,11,10", f"0 0 {M0},100 0 {M0},0 0 {M0}"),
        ([(T0, 0, 0), (T1, 0, 0)], "10,20", f"0 0 {M0},0 0 {M0 + 9},0 0 {M1}"),
    ]
    for tuples, some, line in cases:
        found += answered(path(tuples, a=some), trajectory(line, ONLY_A, "M"))
    outside = [trajectory(f"0 0 {M0 - 9},0 0 {M0 - 1}", "", "M"), trajectory(f"0 0 {M1 + 1},0 0 {M1 + 1}", "", "M")]
    return found + refused(25, *outside, trajectory("0 0,0 0", "&datetime=2024-01-01T00:00:01Z"))


def trajectory_level_rows() -> list[AskRow]:
    """A list for each level that is asked, and levels of the vertices' own."""
    listed = {
        (t, z): path([(t, 0, 0), (t, 100, 0)], z=values(z), a=some)
        for t, z, some in ((T0, 0, "1,2"), (T0, 10, "3,null"), (T0, 20, "5,6"), (T1, 0, "11,12"), (T1, 10, "13,14"))
    }
    line = "0 0,100 0"
    found = answered(collected(*[listed[T0, z] for z in (0, 10, 20)]), trajectory(line, AT_T0), feed=DEEP_FEED)
    found += answered(listed[T0, 10], trajectory(line, f"{AT_T0}&z=10"), trajectory(line, f"{AT_T0}&z=1/19"), feed=DEEP_FEED)
    found += answered(collected(*[listed[t, z] for t in (T0, T1) for z in (0, 10)]), trajectory(line, "&z=10,0"), feed=DEEP_FEED)
    deep: list[tuple[list[tuple], str, list[str]]] = [
        ([(T0, 0, 0, 0), (T0, 100, 0, 10)], "1,null", ["0 0 5,100 0 15", "0 0 0,1 0 4,99 0 6"]),
        ([(T0, 100, 0, 0)], "2", ["0 0 -1,100 0 0,0 0 21"]),
        ([(T0, 0, 0, 0), (T0, 0, 0, 20)], "1,5", ["0 0 0,0 0 20"]),
    ]
    for tuples, some, lines in deep:
        found += answered(path(tuples, "txyz", a=some), *[trajectory(each, AT_T0, " Z") for each in lines], feed=DEEP_FEED)
    both = path([(T0, 0, 0, 0), (T1, 100, 0, 20)], "txyz", a="1,16")
    found += answered(both, trajectory(f"0 0 0 {M0},100 0 20 {M1}", "", "ZM"), feed=DEEP_FEED)
    each = [path([(t, 0, 0, 0)], "txyz", a=some) for t, some in ((T0, "1"), (T1, "11"))]
    found += answered(collected(*each), trajectory("0 0 0,0 0 1", "", "Z"), feed=DEEP_FEED)
    none = [trajectory("0 0 -1,0 0 21", "", "Z"), trajectory(line, "&z=7"), trajectory(f"0 0 0 {M1 + 1},0 0 0 {M1 + 1}", "", "ZM")]
    return found + refused(25, *none, feed=DEEP_FEED)


def rows() -> list[AskRow]:
    """All of them."""
    found = corridor_place_rows() + corridor_time_rows() + corridor_level_rows()
    return found + trajectory_place_rows() + trajectory_turn_rows() + trajectory_level_rows()
