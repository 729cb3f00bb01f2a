"""Several points."""

from dataclasses import replace

from plain.worked.grids.texts import (
    A,
    AT_T0,
    COMPOSITE,
    DEEP,
    LEVEL,
    POSITION,
    AskRow,
    T0,
    T1,
    TIME,
    TZYX,
    bare_range,
    collected,
    covered,
    range_along,
    steps,
    tuples,
    values,
)
from plain.worked.grids.usual import DEEP_FEED, NODES, answered, deep, refused, series, several_of_one, several_points


def multipoint_rows() -> list[AskRow]:
    """MULTIPOINT over one time and over several, with and without levels."""
    at = AT_T0
    corners = several_points("[0,0],[200,100]", "10,15", "110,115", 2)
    crossed = several_points("[200,0],[0,100]", "12,13", "112,113", 2)
    all_nodes = several_points("[0,0],[100,0],[200,0],[0,100],[100,100],[200,100]", "10,11,12,13,null,15", "110,111,112,113,114,115", 6)
    every = "MULTIPOINT(200 100,100 100,0 100,200 0,100 0,0 0)"
    once = ["MULTIPOINT(0 0)", "MULTIPOINT((0 0),(0 0),50 50,(-1 0))", "multipoint(0+0,0.0%200,900+900)", "MULTIPOINT((201 0),(0 101),49 49)"]
    outside = ["MULTIPOINT(-1 0)", "MULTIPOINT((-1 0),(201 0),(0 -1),(0 101))", "MULTIPOINT(-1 -1,201 101)"]
    return [
        *answered(corners, POSITION + f"MULTIPOINT((200 100),(0 0),(0 0),(49 0),(-1 0)){at}", POSITION + f"MULTIPOINT(0 0,199 99){at}"),
        *answered(crossed, POSITION + f"MULTIPOINT(0 100,200 0){at}", POSITION + f"MULTIPOINT((200 0),(0 100),(200 0)){at}"),
        *answered(all_nodes, POSITION + every + at),
        *answered(several_of_one(), *[POSITION + each + at for each in once]),
        *answered(collected(series(0, 0)), *[POSITION + each for each in once]),
        *answered(collected(series(0, 0), series(200, 100)), POSITION + "MULTIPOINT((200 100),(0 0),(0 0),(900 900))"),
        *answered(collected(series(200, 0), series(0, 100)), POSITION + f"MULTIPOINT(0 100,200 0)&datetime={T0}/{T1}"),
        *answered(collected(*[series(*node) for node in NODES]), POSITION + every),
        *refused(25, *[POSITION + each + at for each in outside], *[POSITION + each for each in outside]),
        *refused(25, POSITION + "MULTIPOINT(0 0)&datetime=2024-01-01T00:30Z"),
    ]


def deep_multipoint_rows() -> list[AskRow]:
    """The same over the grid with levels."""
    both_nodes = "MULTIPOINT((100 0),(0 0),(100 0),(101 0))"
    first, both, all_levels = values(T0), values(T0, T1), steps(0, 20, 3)
    names = '"x","y","z"'
    middle = covered("MultiPoint", tuples(first, "[0,0,10],[100,0,10]", names), f'"a":{range_along(COMPOSITE, "2", "3,null")}', A, DEEP)
    one = covered("MultiPoint", tuples(first, "[100,0,20]", names), f'"a":{bare_range("6")}', A, DEEP)
    profiles = collected(*[
        deep("VerticalProfile", x, first, all_levels, range_along(LEVEL, "3", some)) for x, some in ((0, "1,3,5"), (100, "2,null,6"))
    ])  # fmt: skip
    grids = collected(*[
        deep("Grid", x, both, all_levels, range_along(TZYX, "2,3,1,1", some)) for x, some in ((0, "1,3,5,11,13,15"), (100, "2,null,6,12,14,16"))
    ])  # fmt: skip
    middles = collected(*[deep("PointSeries", x, both, values(10), range_along(TIME, "2", some)) for x, some in ((0, "3,13"), (100, "null,14"))])
    outer = collected(deep("VerticalProfile", 100, values(T1), values(0, 20), range_along(LEVEL, "2", "12,16")))
    found = [
        *answered(middle, f"{POSITION}{both_nodes}{AT_T0}&z=10", f"{POSITION}{both_nodes}{AT_T0}&z=5/15"),
        *answered(one, f"{POSITION}MULTIPOINT(100 0){AT_T0}&z=20", f"{POSITION}MULTIPOINT(51 0,-1 0,100 0){AT_T0}&z=20,21"),
        *answered(profiles, f"{POSITION}{both_nodes}{AT_T0}", f"{POSITION}{both_nodes}{AT_T0}&z=0/20"),
        *answered(grids, POSITION + both_nodes, POSITION + both_nodes + "&z=R3/0/10"),
        *answered(middles, POSITION + both_nodes + "&z=10"),
        *answered(outer, f"{POSITION}MULTIPOINT(100 0)&z=0,20&datetime={T1}"),
        *refused(25, POSITION + both_nodes + "&z=5", f"{POSITION}{both_nodes}{AT_T0}&z=1/9", POSITION + "MULTIPOINT(101 0)&z=10"),
        *refused(12, POSITION + "MULTIPOINT Z((0 0 10))"),
    ]
    return [replace(row, feed=DEEP_FEED) for row in found]


def rows() -> list[AskRow]:
    """All of them."""
    return multipoint_rows() + deep_multipoint_rows()
