"""Levels."""

from dataclasses import replace

from plain.worked.grids.texts import (
    A,
    AT_T0,
    DEEP,
    LEVEL,
    POSITION,
    PUBLISH,
    AskRow,
    T0,
    T1,
    TIME,
    TZYX,
    axes_of,
    bare_range,
    collection,
    covered,
    feed,
    grid,
    instance,
    range_along,
    steps,
    values,
)
from plain.worked.grids.usual import DEEP_FEED, USUAL, answered, deep, point, refused


def level_rows() -> list[AskRow]:
    """Levels, single and several, of one time and of several."""
    at, every = f"{POSITION}POINT(0 0){AT_T0}&z=", f"{POSITION}POINT(0 0)&z="
    first, both, all_levels = values(T0), values(T0, T1), steps(0, 20, 3)
    profile = deep("VerticalProfile", 0, first, all_levels, range_along(LEVEL, "3", "1,3,5"))
    whole = deep("Grid", 0, both, all_levels, range_along(TZYX, "2,3,1,1", "1,3,5,11,13,15"))
    lower = deep("VerticalProfile", 0, first, values(0, 10), range_along(LEVEL, "2", "1,3"))
    outer = deep("VerticalProfile", 0, first, values(0, 20), range_along(LEVEL, "2", "1,5"))
    middle, low, high = (deep("Point", 0, first, values(z), bare_range(some)) for z, some in ((10, "3"), (0, "1"), (20, "5")))
    middles = deep("PointSeries", 0, both, values(10), range_along(TIME, "2", "3,13"))
    uppers = deep("Grid", 0, both, values(10, 20), range_along(TZYX, "2,2,1,1", "3,5,13,15"))
    missing = deep("VerticalProfile", 100, first, all_levels, range_along(LEVEL, "3", "2,null,6"))
    last = deep("VerticalProfile", 0, values(T1), all_levels, range_along(LEVEL, "3", "11,13,15"))
    none = ["5", "-1", "21", "1/9", "11/19", "21/100000000", "5,15", "R2/5/10", "R1/100000000/1", "R3/1/1", "R2/-10/5"]
    bad = ["", "20/0", "100000001", "-100000001", "10.5", "1e1", "10,", ",10", "0/", "/10", "0/10/20", "../10", "r2/0/10", "+R2/0/10", "R/0/10", "R2/0"]
    bad += ["R0/0/10", "R2/0/0", "R2/0/-10", "R-1/0/10", "R2/100000000/1", "R100000001/0/1", "R3/0/50000001", "R2/0/10/20", "0,5/10", "x", "- 10", "1 0"]
    found = [
        *answered(profile, f"{POSITION}POINT(0 0){AT_T0}", f"{POSITION}POINT(0 0)&datetime=../{T0}"),
        *answered(profile, *[at + z for z in ("0/20", "0,10,20", "20,10,0", "R3/0/10", "R100000000/0/1", "-100000000/100000000", "10,0,20,5,0")]),
        *answered(last, f"{POSITION}POINT(0 0)&datetime={T1}"),
        *answered(whole, POSITION + "POINT(0 0)", *[every + z for z in ("0/20", "0,10,20", "R3/0/10", "R5/-10/10", "-5/25")]),
        *answered(lower, *[at + z for z in ("0/10", "0/19", "-1/10", "0,10", "10,0", "R2/0/10", "R3/-10/10", "5,10,0", "10,10,0")]),
        *answered(outer, *[at + z for z in ("0,20", "20,0", "R2/0/20", "0,5,20")]),
        *answered(middle, *[at + z for z in ("10", "10/10", "5/15", "10,10", "5,10", "R1/10/1", "R1/10/90000001", "R2/10/5", "+10", "%2B10", "10.0", "010.")]),
        *answered(middle, f"{POSITION}POINT Z(0 0 10){AT_T0}", f"{POSITION}POINTZ(0 0 10.0){AT_T0}", f"{POSITION}point z (50 0 10){AT_T0}"),
        *answered(low, at + "0", at + "-0", at + "0/9", at + "R5/-40/10", f"{POSITION}POINT Z(0 0 0){AT_T0}"),
        *answered(high, at + "20", at + "11/100000000", at + "R4/20/7", at + "R+2/%2B20/20.0", f"{POSITION}POINT Z(0 0 20){AT_T0}"),
        *answered(middles, every + "10", every + "10,5", every + "9/11", POSITION + "POINT Z(0 0 10)"),
        *answered(uppers, every + "10/20", every + "20,10", every + "R2/10/10", every + "1/30"),
        *answered(missing, f"{POSITION}POINT(100 0){AT_T0}", f"{POSITION}POINT(51 0){AT_T0}"),
        *answered(deep("Point", 100, first, values(10), bare_range("null")), f"{POSITION}POINT(100 0){AT_T0}&z=10"),
        *answered(deep("VerticalProfile", 100, first, values(0, 10), range_along(LEVEL, "2", "2,null")), f"{POSITION}POINT(100 0){AT_T0}&z=0/10"),
        *refused(25, *[at + z for z in none], *[every + z for z in none]),
        *refused(25, POSITION + "POINT Z(0 0 5)", POSITION + "POINT Z(0 0 -100000000)", POSITION + "POINT Z(-1 0 10)", POSITION + "POINT(101 0)&z=10"),
        *refused(15, *[every + z for z in bad]),
    ]
    found = [replace(row, feed=DEEP_FEED) for row in found]
    asked = ["0", "0/10", "0,10", "R2/0/10", "5", "-100000000/100000000"]
    found += refused(24, *[f"{POSITION}POINT(0 0)&z={z}" for z in asked], *[f"{POSITION}MULTIPOINT(0 0){AT_T0}&z={z}" for z in asked])
    return found


def vertical_rows() -> list[AskRow]:
    """Data of one level, and the vertical text."""
    one_level = f'"x":{values(0)},"y":{values(0)},"z":{values(7)},"t":{values(T0)}'
    other = DEEP.replace("depth", "height")
    of_one = grid(one_level, TZYX, "1,1,1,1", {"a": "3"}, A, other)
    unnamed = DEEP.replace('"id":"depth",', "")
    nameless = unnamed.replace('"id":"local",', "")

    def reply(referencing: str) -> str:
        return covered("Point", axes_of(0, 0, values(T0), values(7)), f'"a":{bare_range("3")}', A, referencing)

    asked = ["POINT(0 0)", "POINT(0 0)&z=7", "POINT(0 0)&z=0/7", "POINT(0 0)&z=7,8", "POINT Z(0 0 7)"]
    targets = [POSITION + each for each in asked]
    bare = [target.replace("/g/", "/grid/") for target in targets]
    flat = feed(collection("g", vertical="depth"), instance("g", "1", USUAL), PUBLISH)
    return [
        *answered(reply(DEEP), *targets, feed=feed(collection("g", vertical="depth"), instance("g", "1", of_one), PUBLISH)),
        *answered(reply(unnamed), *targets, feed=feed(collection("g"), instance("g", "1", of_one), PUBLISH)),
        *answered(reply(DEEP.replace("depth", "")), *targets, feed=feed(collection("g", vertical=""), instance("g", "1", of_one), PUBLISH)),
        *answered(reply(nameless), *targets, feed=feed(collection("g", crs=""), instance("g", "1", of_one.replace('"id":"local",', "")), PUBLISH)),
        *answered(reply(other), *bare, feed=feed(of_one)),
        *answered(reply(unnamed), *bare, feed=feed(of_one.replace('"id":"height",', ""))),
        *answered(reply(DEEP), *bare, feed=feed(collection("grid", vertical="depth"), of_one)),
        *answered(point(0, 0), f"{POSITION}POINT(0 0){AT_T0}", feed=flat),
        *refused(24, POSITION + "POINT(0 0)&z=7", feed=flat),
        *refused(25, POSITION + "POINT(0 0)&z=6", POSITION + "POINT Z(0 0 8)", feed=feed(collection("g"), instance("g", "1", of_one), PUBLISH)),
    ]


def uneven_level_rows() -> list[AskRow]:
    """Levels of unequal steps, given from the greatest down; what is selected of them may have equal steps."""
    axes = f'"x":{values(0)},"y":{values(0)},"z":{values(9, 5, 1, 0, -7)},"t":{values(T0)}'
    of_uneven = feed(collection("g", vertical="depth"), instance("g", "1", grid(axes, TZYX, "1,5,1,1", {"a": "5,4,null,2,1"}, A, DEEP)), PUBLISH)
    at, first = POSITION + "POINT(0 0)", values(T0)

    def profile(z: str, count: int, some: str) -> str:
        return deep("VerticalProfile", 0, first, z, range_along(LEVEL, str(count), some))

    return [
        *answered(profile(values(-7, 0, 1, 5, 9), 5, "1,2,null,4,5"), at, at + "&z=-7/9", at + "&z=R17/-7/1", at + "&z=9,5,1,0,-7", feed=of_uneven),
        *answered(profile(steps(1, 9, 3), 3, "null,4,5"), at + "&z=1/9", at + "&z=9,1,5", at + "&z=R3/1/4", feed=of_uneven),
        *answered(profile(steps(-7, 9, 3), 3, "1,null,5"), at + "&z=-7,1,9", at + "&z=R3/-7/8", at + "&z=R9/-15/8", feed=of_uneven),
        *answered(profile(values(0, 1, 5), 3, "2,null,4"), at + "&z=0/5", at + "&z=-6/8", at + "&z=5,0,1", feed=of_uneven),
        *answered(profile(values(0, 1), 2, "2,null"), at + "&z=0/1", at + "&z=R2/0/1", at + "&z=-6/4", feed=of_uneven),
        *answered(deep("Point", 0, first, values(-7), bare_range("1")), at + "&z=-7", at + "&z=-8/-1", POSITION + "POINT Z(0 0 -7)", feed=of_uneven),
        *refused(25, at + "&z=-8", at + "&z=-6/-1", at + "&z=6/8", at + "&z=R3/2/1&datetime=..%2F..", feed=of_uneven),
    ]


def rows() -> list[AskRow]:
    """All of them."""
    return level_rows() + vertical_rows() + uneven_level_rows()
