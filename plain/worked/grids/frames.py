"""What stands in the frames of radius, area and cube: times, parameters, levels and axes; frames of several tiles."""

from dataclasses import replace

from plain.worked.grids.fields import (
    BOTH,
    CORNER,
    LIMIT,
    LIMITS,
    STACK,
    STACK_ROWS,
    UNEVEN,
    disc,
    field,
    flat_feed,
    frame,
    square,
    tiled,
    tiled_feed,
)
from plain.worked.grids.texts import A, AREA, AT_T0, CUBE, PUBLISH, RADIUS, AskRow, T0, T1, TYX, collection, feed, grid, instance, steps, values
from plain.worked.grids.usual import DEEP_FEED, EAST, NORTH, TWO_TIMES, answered, refused

EITHER = (T0, T1)


def several_rows() -> list[AskRow]:
    """Several times and parameters, and the refusals that the data decide."""
    near = values(0, 100)
    corner = {"a": "10 11 / 13 . ; 20 21 / 23 .", "b": "110 111 / 113 . ; 120 121 / 123 ."}
    box = {"a": "11 12 / - 15 ; 21 22 / 24 25", "b": "111 112 / 114 115 ; 121 122 / 124 -"}
    whole = {"a": "10 11 12 / 13 - 15 ; 20 21 22 / 23 24 25", "b": "110 111 112 / 113 114 115 ; 120 121 122 / 123 124 -"}
    ends = f"{AREA}MULTIPOLYGON(((0 0,0 0,0 0,0 0)),((100 0,0 100,0 100,100 0)))"
    cases = [
        (near, corner, [*disc(0, 0, 100, 141), f"{AREA}POLYGON((0 0,100 0,0 100,0 0))", ends]),
        (values(100, 200), box, [*disc(150, 50, 71), f"{AREA}POLYGON((100 0,200 0,200 100,100 100,100 0))", CUBE + "100,0,200,100"]),
        (steps(0, 200, 3), whole, [*disc(100, 50, 112), f"{AREA}POLYGON((0 0,200 0,200 100,0 100,0 0))", CUBE + "0,0,200,100"]),
    ]
    every = ["&datetime=../..", f"&datetime={T0}/{T1}", f"&datetime=/{T1}", "&parameter-name=b,a", "&parameter-name=a,b,a", "&crs=local", "&f=JSON"]
    found = []
    for x, some, targets in cases:
        first, last = targets[0], targets[-1]
        found += answered(frame(x, near, some, EITHER), *targets, *[(first, last)[place % 2] + more for place, more in enumerate(every)])
        for name in "ab":
            early, late = some[name].split(";")
            found += answered(frame(x, near, {name: early}), f"{first}&parameter-name={name}{AT_T0}")
            found += answered(frame(x, near, {name: late}, (T1,)), f"{last}&parameter-name={name}&datetime=2024-01-01T00:00:01Z/..")
        only_b = frame(x, near, {"b": some["b"]}, EITHER)
        found += answered(only_b, f"{last}&parameter-name=b") + answered(frame(x, near, some, EITHER), last.replace("/g/", "/g/instances/1/"))
        found += refused(25, first + "&datetime=2024-01-01T00:30Z", last + "&datetime=../1999-01-01T00:00Z") + refused(22, last + "&parameter-name=a,c")
        found += refused(24, last + "&z=0", first + "&z=0/9&datetime=1999-01-01T00:00Z") + refused(23, first + "&crs=x&z=0") + refused(15, last + "&z=")
        found += refused(19, last.replace("/g/", "/bare/"), first.replace("/g/", "/g/instances/2/")) + refused(18, last.replace("/g/", "/G/"))
    return found + refused(24, *[f"{RADIUS}POINT Z({at})&within=9&within-units=m" for at in ("0 0 0", "50 50 0")])


def instance_rows() -> list[AskRow]:
    """The newest instance, which need not be the last one that was set, and one by its name; each has axes of its own."""
    older = grid(f'"x":{values(0, 5)},"y":{values(0)},"t":{values(T0)}', TYX, "1,1,2", {"a": "1,2"}, A)
    newer = grid(f'"x":{values(0, 3, 9)},"y":{values(0)},"t":{values(T0)}', TYX, "1,1,3", {"a": "3,4,5"}, A)
    two = feed(collection("g"), instance("g", "b", newer), instance("g", "a", older), PUBLISH)
    targets = [*disc(0, 0, 5), f"{AREA}POLYGON((-1 -1,5 -1,5 1,-1 1,-1 -1))", CUBE + "0,0,5,0"]
    at = [each.replace("/g/", "/g/instances/{}/") for each in targets]
    return [
        *answered(field(values(0, 3), values(0), "3 4"), *targets, *[each.format("b") for each in at], feed=two),
        *answered(field(values(0, 5), values(0), "1 2"), *[each.format("a") for each in at], feed=two),
        *refused(19, *[each.format("c") for each in at], feed=two),
    ]


def level_rows() -> list[AskRow]:
    """Levels: by `z`, by the Z of a point, and between those of a box."""
    x, y, low = steps(0, 20, 3), values(0, 10), values(0, 10)
    around = frame(x, y, {"a": "131 132 133 / . 135 . ; 231 232 233 / . 235 ."}, EITHER, values(5))
    one = frame(values(10), values(0), {"a": "132"}, (T0,), values(5))
    whole = frame(x, y, {"a": STACK_ROWS}, EITHER, values(-5, 0, 5, 20))
    three = frame(low, y, {"a": "111 112 / 114 . ; 121 122 / 124 . ; 131 132 / 134 ."}, (T0,), steps(-5, 5, 3))
    two = frame(low, values(0), {"a": "111 112 ; 121 122 ; 211 212 ; 221 222"}, EITHER, values(-5, 0))
    outer = frame(values(20), y, {"a": "113 / 116 ; 143 / 146"}, (T0,), values(-5, 20))
    top = frame(values(20), y, {"a": "243 / 246"}, (T1,), values(20))
    edge, side, ring = CUBE + "0,0,10,0", CUBE + "20,0,20,10", f"{AREA}POLYGON({square(0, 20)})"
    triangle = f"{AREA}POLYGON((0 0,10 0,0 10,0 0))"
    [low_disc], [far], [beside] = disc(0, 0, 10), disc(10, 5, 12), disc(25, 5, 8)
    at, end = f"{RADIUS}POINT Z(10 0 5)&within-units=m&within=", f"&datetime={T1}"
    ten = f"{RADIUS}POINT(10 0)&within-units=m&within=10"
    none = ["1", "-6", "21", "6/19", "1/4", "1,2", "R3/1/1", "R2/-10/3", f"21/{LIMIT}"]
    none_boxes = ["0,0,1,20,10,4", "0,0,6,20,10,19", f"0,0,21,20,10,{LIMIT}", f"0,0,{-LIMIT},20,10,-6", "1,1,0,9,9,0", "21,0,0,30,10,0"]
    found = [
        *answered(around, at + "10", at + "14", *[f"{ten}&z={z}" for z in ("5", "1/19", "5,6", "R9/1/4")]),
        *answered(around, f"{RADIUS}pointz(10 0 +5.0)&within-units=M&within=10"),
        *answered(one, at + "0" + AT_T0, at + f"9&datetime=../{T0}"),
        *answered(one, *[f"{CUBE}{box}{AT_T0}" for box in ("10,0,10,0&z=5", "10,0,5,10,0,5", "1,-9,1,19,9,19")]),
        *answered(whole, CUBE + "0,0,20,10", CUBE + "0,0,-5,20,10,20", CUBE + f"-1,-1,{-LIMIT},21,11,{LIMIT}", ring, ring + "&z=-5/20", far),
        *answered(whole, *[each + "&z=20,5,0,-5" for each in (CUBE + "0,0,20,10", ring, far)], ring + f"&z=R6/-5/5&datetime={T0}/{T1}"),
        *answered(three, *[triangle + AT_T0 + z for z in ("&z=-5/5", "&z=5,0,-5", "&z=R5/-5/5", "&z=-6/19")], low_disc + AT_T0 + "&z=R3/-5/5"),
        *answered(two, *[f"{CUBE}{box}" for box in ("0,0,-5,10,0,0", "0,0,-5,10,0,4", "0,0,-9,19,9,0")]),
        *answered(two, *[f"{edge}&z={z}" for z in ("-5/0", "0,-5", "R2/-5/5", "-7/1")]),
        *answered(outer, side + AT_T0 + "&z=20,-5", side + AT_T0 + "&z=R2/-5/25", beside + AT_T0 + "&z=-5,20"),
        *answered(top, side + end + "&z=20", CUBE + "20,0,20,20,10,20" + end, CUBE + "11,0,6,99,19,99" + end),
        *refused(25, *[(ten, edge, triangle)[place % 3] + f"&z={z}" for place, z in enumerate(none)], *[CUBE + box for box in none_boxes]),
        *refused(25, *[f"{RADIUS}POINT Z(10 0 {z})&within=10&within-units=m" for z in (4, 6, LIMIT, -LIMIT)], at.replace("10 0 5", "15 5 5") + "7"),
        *refused(17, at + "10&z=5", at + "10&z=-5/20", CUBE + "0,0,0,20,10,5&z=0", CUBE + "1,1,1,2,2,2&z=1"),
        *refused(13, CUBE + "0,0,5,20,10,0", CUBE + "20,0,0,0,0,5"),
        *refused(12, at.replace("POINT Z(10 0 5)", "POINT ZM(10 0 5 0)") + "1", AREA + "POLYGON Z((0 0 5,10 0 5,0 10 5,0 0 5))"),
    ]
    missing = frame(values(0, 100), values(0), {"a": "3 - ; 13 14"}, EITHER, values(10))
    deep = [*disc(50, 0, 50), f"{AREA}POLYGON((0 0,100 0,0 9,0 0))", CUBE + "0,0,100,0"]
    above = [CUBE + "0,0,1,100,0,19", f"{RADIUS}POINT Z(50 0 10)&within=0.05&within-units=km"]
    return [*[replace(row, feed=STACK) for row in found], *answered(missing, *[each + "&z=10" for each in deep], *above, feed=DEEP_FEED)]


def axis_rows() -> list[AskRow]:
    """Axes of unequal steps and of one node, and nodes of which none has a sample."""
    columns, rows = values(-9, -4, 1, 6, 8, 9), values(-3, -1, 0)
    uneven = [
        (field(steps(-9, 6, 4), values(-3, -1), "1 2 3 4 / 7 8 9 10"), [CUBE + "-9,-3,6,-1", CUBE + "-99,-99,7,-1"]),
        (field(steps(-4, 6, 3), values(0), "14 15 16"), [CUBE + "-4,0,6,0", CUBE + "-8,0,7,99", f"{AREA}POLYGON((-4 0,7 0,1 3,-4 0))"]),
        (field(values(6, 8, 9), rows, "4 5 6 / 10 11 12 / 16 17 18"), [CUBE + "6,-3,9,0", CUBE + "2,-9,99,9"]),
        (field(steps(-4, 6, 3), rows, ". 3 . / . 9 . / 14 15 16"), disc(1, 0, 5)),
        (field(values(6, 8), values(-1), "10 11"), [*disc(7, -1, 1), CUBE + "6,-1,8,-1"]),
        (field(values(6, 8, 9), values(-1, 0), "10 11 12 / 16 17 ."), disc(7, -1, 2)),
        (field(columns, rows, "1 2 3 4 5 6 / . . . 10 11 12 / . . . . . 18"), [f"{AREA}POLYGON((-9 -3,9 -3,9 0,-9 -3))"]),
        (field(columns, values(-1), "7 . . . . 12"), [f"{AREA}POLYGON((-9 -1,-9 -1,-9 -2,-9 -1),(9 -1,9 -1,10 -2,9 -1))"]),
    ]
    one = flat_feed(values(5), values(7), "1,1", "3")
    of_one = [*disc(5, 7, 0), *disc(8, 11, 5), f"{AREA}POLYGON((5 7,5 7,5 7,5 7))", CUBE + "5,7,5,7", CUBE + "0,0,9,9"]
    empty = feed(collection("g"), instance("g", "1", grid(f"{EAST},{NORTH},{TWO_TIMES}", TYX, "2,2,3", {"a": ",".join(["null"] * 12)}, A)), PUBLISH)
    nulls = frame(values(0, 100), values(0, 100), {"a": "- - / - . ; - - / - ."}, EITHER)
    return [
        *[row for some, targets in uneven for row in answered(some, *targets, feed=UNEVEN)],
        *refused(25, CUBE + "-3,-3,0,0", CUBE + "-10,-2,10,-2", *disc(-1, 0, 1), f"{AREA}POLYGON((-8 -3,-5 -3,-5 0,-8 -3))", feed=UNEVEN),
        *answered(field(values(5), values(7), "3"), *of_one, feed=one),
        *refused(25, *disc(5, 8, 0), *disc(8, 11, 4), f"{AREA}POLYGON((0 7,4 7,4 8,0 7))", CUBE + "6,7,9,7", CUBE + "5,0,5,6", feed=one),
        *answered(nulls, *disc(0, 0, 100), f"{AREA}POLYGON((0 0,100 0,0 100,0 0))", feed=empty),
        *answered(frame(values(200), values(100), {"a": "- ; -"}, EITHER), *disc(200, 100, 0), CUBE + "200,100,200,100", feed=empty),
        *refused(25, *disc(0, 1, 0), CUBE + "1,1,2,2", feed=empty),
    ]


def limit_rows() -> list[AskRow]:
    """Nodes at the limits of coordinates: what is decided by one metre, or by less, of 200,000,000."""
    far, both, low = 2 * LIMIT, values(-LIMIT, LIMIT), values(-LIMIT, 1 - LIMIT)
    ends, corner = values(-LIMIT, 1 - LIMIT, LIMIT), (-LIMIT, -LIMIT)
    discs = [
        (field(values(-LIMIT), low, "1 / 3"), disc(*corner, 1, far - 1)),
        (field(both, ends, "1 2 / 3 . / 5 ."), disc(*corner, far)),
        (field(both, ends, "1 2 / 3 4 / 5 ."), disc(*corner, far + 1, 282_842_712)),
        (field(both, ends, "1 2 / 3 4 / 5 6"), disc(*corner, 282_842_713, 400_000_000) + disc(0, 0, 141_421_357)),
        (field(both, ends, ". 2 / 3 4 / . 6"), disc(LIMIT, 1 - LIMIT, far)),
        (field(both, values(1 - LIMIT), "3 4"), disc(0, 0, 141_421_356)),
    ]
    # the line passes two of the nodes at ten nanometres and less
    line = f"{-LIMIT} {-LIMIT},{LIMIT} {LIMIT - 1}"
    above, below = (f"{AREA}POLYGON(({line},{x} {y},{-LIMIT} {-LIMIT}))" for x, y in ((-LIMIT, LIMIT), (LIMIT, -LIMIT)))
    columns, rows = steps(LIMIT - 2, LIMIT, 3), steps(LIMIT - 3, LIMIT - 1, 3)
    last = CUBE + f"{LIMIT},{LIMIT - 1},{LIMIT},{LIMIT}"
    return [
        *[row for some, targets in discs for row in answered(some, *targets, feed=LIMITS)],
        *refused(25, *disc(0, 0, 141_421_355), *disc(LIMIT, 0, LIMIT - 2), feed=LIMITS),
        *answered(field(columns, values(LIMIT - 2, LIMIT - 1), "4 . . / 7 8 9"), above, feed=CORNER),
        *answered(field(columns, rows, "1 2 3 / . 5 6 / . . 9"), below, feed=CORNER),
        *answered(field(values(LIMIT), values(LIMIT - 1), "9"), last, *disc(LIMIT, LIMIT, 1), feed=CORNER),
    ]


def tiled_rows() -> list[AskRow]:
    """Frames over several tiles, and in the last of them alone."""
    every, over, four = dict.fromkeys(range(66), (0, 129)), dict.fromkeys(range(62, 66), (60, 70)), dict.fromkeys((63, 64), (63, 64))
    around = {61: (63, 64), 62: (62, 65), 63: (61, 66), 64: (61, 66), 65: (62, 65)}
    cross, last = {63: (64, 64), 64: (63, 65), 65: (64, 64)}, {64: (128, 129), 65: (129, 129)}
    middle, first_of_last = dict.fromkeys(range(66), (127, 128)), dict.fromkeys(range(66), (128, 128))
    only_b, of_b = ("b", (2,), (2,)), f"&parameter-name=b&z=10&datetime={T1}"
    ends = f"{AREA}MULTIPOLYGON(((0 0,9 0,0 9,0 0)),((1290 650,1281 650,1290 641,1290 650)))"
    box, crossed = f"{AREA}POLYGON((600 620,700 620,700 660,600 660,600 620))", f"{AREA}POLYGON((630 630,640 640,630 640,640 630,630 630))"
    found = [
        *answered(tiled(over), CUBE + "600,620,700,650", CUBE + "591,611,709,1000", box),
        *answered(tiled(four), *disc(635, 635, 8, 15), CUBE + "630,630,640,640", crossed),
        *answered(tiled(around), *disc(635, 635, 26)) + answered(tiled(cross), *disc(640, 640, 10)),
        *answered(tiled(last), f"{AREA}POLYGON((1280 640,1300 640,1300 700,1280 640))"),
        *answered(tiled({64: (129, 129), 65: (128, 129)}), *disc(1290, 650, 10, 14)),
        *answered(tiled(every), CUBE + "0,0,1290,650"),
        *answered(tiled(every, *only_b), *[each + of_b for each in (CUBE + "0,0,1290,650", f"{AREA}POLYGON({square(-1, 1290)})", *disc(0, 0, 1445))]),
        *answered(tiled({0: (0, 0), 65: (129, 129)}, *only_b), ends + of_b),
        *answered(tiled({y: (y, y) for y in range(66)}, *only_b), f"{AREA}POLYGON((0 0,650 650,300 300,0 0)){of_b}"),
        *answered(tiled({64: (0, 129)}, "a", (1,)), f"{AREA}POLYGON((0 640,1290 640,0 640,0 640))&parameter-name=a{AT_T0}"),
        *answered(tiled(middle, "a", BOTH, (1,)), CUBE + "1261,0,1289,650&z=-9/9&parameter-name=a"),
        *answered(tiled(first_of_last, "a", (1,), (2,)), CUBE + f"1271,0,1,1289,999,10&parameter-name=a{AT_T0}"),
        *refused(25, *disc(635, 635, 7), CUBE + "631,631,639,639", CUBE + "1271,0,1279,650", CUBE + "1291,0,1300,650", *disc(1300, 660, 14)),
    ]
    tiles = tiled_feed()
    return [replace(row, feed=tiles) for row in found]


def rows() -> list[AskRow]:
    """All of them."""
    return several_rows() + instance_rows() + level_rows() + axis_rows() + limit_rows() + tiled_rows()
