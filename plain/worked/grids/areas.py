"""Discs, polygons and boxes on grids: which nodes radius, area and cube take."""

from dataclasses import replace

from plain.worked.grids.fields import FIELD, FIELD_ROWS, FIELD_SPELLINGS, FIVE, LIMIT, disc, field, square
from plain.worked.grids.texts import AREA, CUBE, RADIUS, AskRow, steps, values
from plain.worked.grids.usual import answered, refused

THREE = steps(10, 30, 3)  # the columns or rows 2 to 4 of the field
WHOLE = field(FIVE, FIVE, FIELD_ROWS)
CENTRE, ONLY_MISSING = field(values(20), values(20), "33"), field(values(20), values(30), "-")
CROSS = field(THREE, THREE, ". 23 . / 32 33 34 / . - .")
BLOCK = field(THREE, THREE, "22 23 24 / 32 33 34 / 42 - 44")
RIM = field(THREE, THREE, "22 23 24 / 32 . 34 / 42 - 44")
SQUARE = field(values(10, 20), values(10, 20), "22 23 / 32 33")
ROW, COLUMN = field(FIVE, values(20), "31 32 33 34 35"), field(values(20), FIVE, "13 / 23 / 33 / - / 53")
LEAST, GREATEST = field(values(0), values(0), "11"), field(values(40), values(40), "55")


def disc_rows() -> list[AskRow]:
    """Discs around a node, between nodes and outside; each reaches what is exactly so far off, and not what is a metre further."""
    near, low, right = values(0, 10), steps(0, 20, 3), values(20, 30)
    four, most = steps(0, 30, 4), LIMIT - 40
    discs = [
        ((20, 20), (0, 9), CENTRE),
        ((20, 20), (10, 14), CROSS),
        ((20, 20), (15, 19), BLOCK),
        ((20, 20), (20, 22), field(FIVE, FIVE, ". . 13 . . / . 22 23 24 . / 31 32 33 34 35 / . 42 - 44 . / . . 53 . .")),
        ((20, 20), (23, 28), field(FIVE, FIVE, ". 12 13 14 . / 21 22 23 24 25 / 31 32 33 34 35 / 41 42 - 44 45 / . 52 53 54 .")),
        ((20, 20), (29, 400_000_000), WHOLE),
        ((0, 0), (0, 9), LEAST),
        ((0, 0), (10, 14), field(near, near, "11 12 / 21 .")),
        ((0, 0), (15, 19), field(near, near, "11 12 / 21 22")),
        ((0, 0), (20, 22), field(low, low, "11 12 13 / 21 22 . / 31 . .")),
        ((0, 0), (29,), field(low, low, "11 12 13 / 21 22 23 / 31 32 33")),
        ((0, 0), (30, 31), field(four, four, "11 12 13 14 / 21 22 23 . / 31 32 33 . / 41 . . .")),
        ((15, 15), (8, 15), SQUARE),
        ((15, 15), (16, 21), field(four, four, ". 12 13 . / 21 22 23 24 / 31 32 33 34 / . 42 - .")),
        ((15, 20), (5, 11), field(values(10, 20), values(20), "32 33")),
        ((15, 20), (12,), field(values(10, 20), THREE, "22 23 / 32 33 / 42 -")),
        ((20, 15), (5, 11), field(values(20), values(10, 20), "23 / 33")),
        ((23, 24), (5, 6), CENTRE),
        ((23, 24), (7, 8), field(values(20), right, "33 / -")),
        ((23, 24), (9,), field(right, right, "33 34 / - .")),
        ((23, 24), (10,), field(right, right, "33 34 / - 44")),
        ((20, 30), (0, 9), ONLY_MISSING),
        ((22, 32), (3,), ONLY_MISSING),
        ((17, 34), (5,), ONLY_MISSING),
        ((20, 35), (5,), field(values(20), values(30, 40), "- / 53")),
        ((-10, 20), (10, 14), field(values(0), values(20), "31")),
        ((-10, 20), (15,), field(values(0), THREE, "21 / 31 / 41")),
        ((-3, -4), (5,), LEAST),
        ((50, 45), (12,), GREATEST),
        ((50, 50), (15,), GREATEST),
        ((20, 70), (30, 31), field(values(20), values(40), "53")),
        ((20, 70), (32,), field(THREE, values(40), "52 53 54")),
        ((LIMIT, 20), (most,), field(values(40), values(20), "35")),
        ((LIMIT, 20), (most + 1,), field(values(40), FIVE, "15 / 25 / 35 / 45 / 55")),
    ]
    none = [*disc(15, 15, 0, 7), *disc(15, 20, 4), *disc(23, 24, 0, 4), *disc(22, 32, 2), *disc(-10, 20, 9), *disc(-3, -4, 4), *disc(50, 45, 11)]
    none += [*disc(50, 50, 14), *disc(20, 70, 29), *disc(LIMIT, 20, most - 1), *disc(LIMIT, 19, most), *disc(41, 41, 0)]
    found = [row for centre, within, some in discs for row in answered(some, *disc(*centre, *within), feed=FIELD)]
    return found + refused(25, *none, feed=FIELD)


def distance_rows() -> list[AskRow]:
    """Distances in metres and in kilometres, and texts that are none; forms of the point."""
    ten = ["10&within-units=M", "0010.000&within-units=m", "10.&within-units=m", "0.01&within-units=km", "00.0100000000000000000000&within-units=KM"]
    ten += ["0.014&within-units=Km", "1%30&within-units=%6D"]
    none = ["0&within-units=km", "0.009&within-units=km", "0.&within-units=m", "9.0&within-units=m"]
    every = ["0.029&within-units=km", "010.&within-units=km", "400000&within-units=km", "400000.000&within-units=km"]
    bad = [f"{some}&within-units=m" for some in ("", "-1", "%2B10", " 10", "10 ", "10.5", "1e1", "10m", "10..", "400000001")]
    bad += [f"{some}&within-units=km" for some in ("0.0105", "400000.001", "99999999999999999999999", ".010", ".")]
    bad += [f"10&within-units={unit}" for unit in ("", "+m", "m+", "miles", "%E2%84%AAm")]
    forms = ["point(20+20)", "Point%20%0A(%2B20.0%20020)", "%50OINT(%0920.%0D20%20)%20"]
    bad_points = [f"POINT({LIMIT + 1} 0)", f"POINT(0 {-LIMIT - 1})", "POINT(0.5 0)", "POINT(0 0 0)", ""]
    others = ["POINT M(20 20 0)", "POINT ZM(20 20 0 0)", "MULTIPOINT(20 20)", "POLYGON((0 0,40 0,0 40,0 0))"]
    at, end = f"{RADIUS}POINT(20 20)&within=", "&within-units=m&within=10"
    found = [
        *answered(CROSS, *[at + each for each in ten], *[RADIUS + each + end for each in forms]),
        *answered(CENTRE, *[at + each for each in none]) + answered(WHOLE, *[at + each for each in every]),
        *refused(16, *[at + each for each in bad], at + "10.5&within-units=m&crs=x&z=0"),
        *refused(11, *[RADIUS + each + end for each in bad_points]) + refused(12, *[RADIUS + each + end for each in others]),
    ]
    return [replace(row, feed=FIELD) for row in found]


# rings, and the nodes that they take
UPPER = steps(20, 40, 3)
BLOCKS = ["(10 10,30 10,30 30,10 30,10 10)", "(10 10,10 30,30 30,30 10,10 10)", "(30 20,30 30,10 30,10 10,30 10,30 20)", square(9, 31)]
BLOCKS += ["(10 10,10 10,10 10,30 10,30 30,30 30,10 30,10 10)", "(15 10,20 10,25 10,30 10,30 30,12 30,10 30,10 10,15 10)", square(1, 39)]
BLOCKS += ["(10 10,35 10,30 10,30 30,10 30,10 10)", "(5 10,30 10,30 30,10 30,10 10,5 10)", "%20(+10.0+010%20,30 10,%0930 30,10 30,10 10+)%20"]
SHAPES = [
    *[(each, BLOCK) for each in BLOCKS],
    ("(0 0,40 0,0 40,0 0)", field(FIVE, FIVE, "11 12 13 14 15 / 21 22 23 24 . / 31 32 33 . . / 41 42 . . . / 51 . . . .")),
    ("(0 0,40 0,0 39,0 0)", field(FIVE, steps(0, 30, 4), "11 12 13 14 15 / 21 22 23 . . / 31 32 . . . / 41 . . . .")),
    # a vertex at the height of nodes: on the sides, above and below
    ("(20 5,35 20,20 35,5 20,20 5)", CROSS),
    ("(30 20,35 45,25 45,30 20)", field(values(30), UPPER, "34 / 44 / 54")),
    ("(35 -5,30 20,25 -5,35 -5)", field(values(30), steps(0, 20, 3), "14 / 24 / 34")),
    ("(-5 5,45 5,45 35,25 20,5 35,-5 35,-5 5)", field(FIVE, THREE, "21 22 23 24 25 / 31 32 33 34 35 / 41 42 . . 45")),
    ("(-5 35,-5 5,5 5,25 20,45 5,45 35,-5 35)", field(FIVE, THREE, "21 22 . . 25 / 31 32 33 34 35 / 41 42 - 44 45")),
    # horizontal edges at the height of nodes
    ("(0 0,40 0,40 20,20 20,20 40,0 40,0 0)", field(FIVE, FIVE, "11 12 13 14 15 / 21 22 23 24 25 / 31 32 33 34 35 / 41 42 - . . / 51 52 53 . .")),
    ("(5 -5,25 -5,25 20,35 20,35 45,5 45,5 -5)", field(THREE, FIVE, "12 13 . / 22 23 . / 32 33 34 / 42 - 44 / 52 53 54")),
    ("(5 -5,35 -5,35 20,25 20,25 45,5 45,5 -5)", field(THREE, FIVE, "12 13 14 / 22 23 24 / 32 33 34 / 42 - . / 52 53 .")),
    ("(20 20,40 20,40 40,20 40,20 20)", field(UPPER, UPPER, "33 34 35 / - 44 45 / 53 54 55")),
    # one node, one row, one column, and polygons wider than the grid
    *[(square(11, end), CENTRE) for end in (20, 29)],
    *[(square(*ends), LEAST) for ends in ((-1, 1), (-7, 0))],
    (square(40, LIMIT), GREATEST),
    ("(18 28,20 28,20 34,18 34,18 28)", ONLY_MISSING),
    *[(each, COLUMN) for each in ("(15 -5,25 -5,25 45,15 45,15 -5)", "(20 0,20 40,29 40,29 0,20 0)")],
    ("(-5 15,45 15,45 25,-5 25,-5 15)", ROW),
    ("(15 20,1000 10,1000 30,15 20)", field(UPPER, values(20), "33 34 35")),
    *[(each, WHOLE) for each in (square(0, 40), square(-LIMIT, LIMIT), f"(-5 -5,{LIMIT} -5,-5 {LIMIT},-5 -5)")],
    # edges that cross: the middle of a double loop is crossed twice
    ("(0 0,40 40,40 0,0 40,0 0)", field(FIVE, FIVE, "11 . . . 15 / 21 22 . 24 25 / 31 32 33 34 35 / 41 42 . 44 45 / 51 . . . 55")),
    ("(0 0,40 0,0 40,40 40,0 0)", field(FIVE, FIVE, "11 12 13 14 15 / . 22 23 24 . / . . 33 . . / . 42 - 44 . / 51 52 53 54 55")),
    ("(10 10,30 10,30 30,10 30,10 10,30 10,30 30,10 30,10 10)", RIM),
    ("(10 10,30 10,30 30,10 30,10 10,10 30,30 30,30 10,10 10)", RIM),
    ("(5 5,35 5,35 35,5 35,5 5,15 15,25 15,25 25,15 25,15 15,5 5)", RIM),
    ("(5 5,35 5,35 35,5 35,5 5,15 15,15 25,25 25,25 15,15 15,5 5)", RIM),
    # without area
    ("(20 20,20 20,20 20,20 20)", CENTRE),
    ("(20 30,20 30,20 30,20 30,20 30)", ONLY_MISSING),
    ("(0 20,40 20,0 20,0 20)", ROW),
    ("(20 25,20 45,20 -9,20 25)", COLUMN),
    ("(0 0,40 40,20 20,0 0)", field(FIVE, FIVE, "11 . . . . / . 22 . . . / . . 33 . . / . . . 44 . / . . . . 55")),
    ("(0 40,40 0,0 40,0 40)", field(FIVE, FIVE, ". . . . 15 / . . . 24 . / . . 33 . . / . 42 . . . / 51 . . . .")),
    ("(0 10,40 20,0 10,0 10)", field(FIVE, values(10, 20), "21 . . . . / . . . . 35")),
    ("(5 10,15 10,12 10,5 10)", field(values(10), values(10), "22")),
]
TAKE_NOTHING = [square(11, 19), square(-9, -1), square(41, 50), "(5 5,35 5,5 5,5 5)", "(5 5,5 5,5 5,5 5)", "(0 1,40 9,0 9,0 1)", "(1 0,9 0,5 0,1 0)"]
TAKE_NOTHING += ["(50 0,90 0,90 40,50 40,50 0)", "(0 -40,40 -40,40 -1,0 -1,0 -40)", "(20 21,29 25,20 29,11 25,20 21)"]
NO_GEOMETRIES = ["((0 0,40 0,0 0))", "((0 0,40 0,0 40,0 1))", "(0 0,40 0,0 40,0 0)", "((0 0,40 0,0 40,0 0)", "((0 0,40.5 0,0 40,0 0))"]
NO_GEOMETRIES += [f"((0 0,{LIMIT + 1} 0,0 40,0 0))", "((0 0,40 0,0 40,0 0),(1 1,2 1,1 2,1 3))"]
OTHER_GEOMETRIES = ["POLYGON Z((0 0 0,40 0 0,0 40 0,0 0 0))", "POLYGON M((0 0 0,40 0 0,0 40 0,0 0 0))", "POINT(20 20)", "LINESTRING(0 0,40 40,0 0)"]


def polygon_rows() -> list[AskRow]:
    """Polygons of one ring: nodes on edges and vertices, vertices beside nodes, edges that cross, and rings without area."""
    return [
        *[AskRow(FIELD, f"{AREA}POLYGON({ring})", some) for ring, some in SHAPES],
        *refused(25, *[f"{AREA}POLYGON({each})" for each in TAKE_NOTHING], feed=FIELD),
        *refused(11, *[f"{AREA}POLYGON{each}" for each in NO_GEOMETRIES], feed=FIELD) + refused(12, *[AREA + each for each in OTHER_GEOMETRIES], feed=FIELD),
    ]


# squares in each other; the sides of the first and the fourth are on nodes
OUTER, GAP, INNER, BORDER, TIP = square(0, 40), square(5, 35), square(9, 31), square(10, 30), square(15, 25)


def ring_rows() -> list[AskRow]:
    """Several rings: holes and their borders, what lies in them, and what touches or covers something else."""
    holed = field(FIVE, FIVE, FIELD_ROWS.replace("33", "."))
    outermost = field(FIVE, FIVE, "11 12 13 14 15 / 21 . . . 25 / 31 . . . 35 / 41 . . . 45 / 51 52 53 54 55")
    island = field(FIVE, FIVE, "11 12 13 14 15 / 21 . . . 25 / 31 . 33 . 35 / 41 . . . 45 / 51 52 53 54 55")
    shapes = [
        (holed, [f"{OUTER},{BORDER}", f"{OUTER},(10 10,10 30,30 30,30 10,10 10)", f"{BORDER},{OUTER}", f"{OUTER},{TIP}"]),
        (outermost, [f"{OUTER},{INNER}", f"{OUTER},{square(1, 39)}", f"{square(-5, 45)},{GAP}"]),
        (island, [f"{OUTER},{GAP},{TIP}", f"{square(20, 20)},{OUTER},{GAP}"]),
        (holed, [f"{OUTER},{INNER},{GAP},{TIP}", f"{TIP},{GAP},{INNER},{OUTER}"]),
        # a hole that touches the other ring at one point, and along an edge; rings that cross
        (field(FIVE, FIVE, FIELD_ROWS.replace("32", ".")), [f"{OUTER},(0 20,10 10,20 20,10 30,0 20)", f"{OUTER},(0 10,20 10,20 30,0 30,0 10)"]),
        (field(FIVE, FIVE, FIELD_ROWS.replace("23", ".")), [f"{OUTER},(15 0,25 0,25 15,15 15,15 0)"]),
        (
            field(FIVE, FIVE, "11 12 13 . 15 / 21 22 23 . 25 / 31 32 33 34 . / 41 42 - 44 . / 51 . . . 55"),
            ["(-5 -9,35 -9,35 49,-5 49,-5 -9),(25 -5,45 -5,45 15,25 15,25 -5),(5 35,45 35,45 45,5 45,5 35)"],
        ),
        # the same ring twice leaves its border, three times all
        (RIM, [f"{BORDER},{BORDER}", f"{BORDER},(30 30,30 10,10 10,10 30,30 30)", f"{BORDER},{TIP}"]),
        (BLOCK, [f"{BORDER},{BORDER},{BORDER}", f"{square(10, 20)},{BORDER},{square(10, 20)},{TIP}"]),
        # rings beside each other
        (WHOLE, ["(0 0,20 0,20 40,0 40,0 0),(20 0,40 0,40 40,20 40,20 0)"]),
        (field(steps(0, 20, 3), steps(0, 20, 3), "11 12 . / 21 22 23 / . 32 33"), [f"{square(10, 20)},{square(0, 10)}"]),
        (
            field(FIVE, FIVE, ". . . . 15 / . . . . . / . . . . . / . . . . . / 51 . . . ."),
            ["(39 -1,41 -1,41 1,39 -1),(-1 39,-1 41,1 41,1 40,-1 39)"],
        ),
    ]
    none = [f"{square(1, 9)},{square(2, 8)}", f"{TIP},{square(16, 24)}", f"{square(-1, 41)},{square(-2, 42)}"]
    most = ",".join(["0 0"] * 9996 + ["40 0", "40 40", "0 40", "0 0"])
    found = [row for some, rings in shapes for row in answered(some, *[f"{AREA}POLYGON({each})" for each in rings])]
    found += refused(25, *[f"{AREA}POLYGON({each})" for each in none])
    found += answered(WHOLE, f"{AREA}POLYGON(({most}))") + refused(11, f"{AREA}POLYGON((0 0,{most}))")
    return [replace(row, feed=FIELD) for row in found]


def several_polygon_rows() -> list[AskRow]:
    """MULTIPOLYGON: what one of the polygons takes is taken, also where others have a hole, or take it too."""
    holed = field(FIVE, FIVE, FIELD_ROWS.replace("33", "."))
    island = field(FIVE, FIVE, "11 12 13 14 15 / 21 . . . 25 / 31 . 33 . 35 / 41 . . . 45 / 51 52 53 54 55")
    corners = field(FIVE, FIVE, "11 . . . . / . . . . . / . . . . . / . . . . . / . . . . 55")
    shapes = [
        (island, [f"({OUTER},{GAP}),({TIP})", f"({square(20, 20)}),({OUTER},{GAP})"]),
        (holed, [f"({OUTER},{GAP}),({INNER},{TIP})", f"({OUTER},{BORDER})"]),
        (BLOCK, [f"({BORDER})", f"({BORDER}),({BORDER})", f"({BORDER},{BORDER}),({TIP})"]),
        (WHOLE, ["((0 0,20 0,20 40,0 40,0 0)),((20 0,40 0,40 40,20 40,20 0))", f"({OUTER}),({BORDER})", f"({OUTER},{BORDER}),({BORDER})"]),
        (field(steps(0, 20, 3), steps(0, 20, 3), "11 12 . / 21 22 23 / . 32 33"), [f"({square(0, 10)}),({square(10, 20)})"]),
        (corners, [f"({square(-1, 1)}),({square(39, 41)})", "((40 40,40 40,40 40,40 40)),((0 0,0 0,0 0,0 0))"]),
        (field(values(0), FIVE, "11 / . / . / . / 51"), ["((0 0,1 0,0 1,0 0)),((0 40,1 40,0 39,0 40))"]),
        (CENTRE, [f"+(+{square(11, 29)}+)+,+({square(1, 2)})", f"({square(1, 2)},{square(20, 20)}),({square(-9, -8)})"]),
    ]
    found = [row for some, polygons in shapes for row in answered(some, *[f"{AREA}MULTIPOLYGON({each})" for each in polygons])]
    found += refused(25, f"{AREA}MULTIPOLYGON(({square(1, 9)}),({square(41, 42)}))")
    found += refused(11, f"{AREA}MULTIPOLYGON({OUTER})", f"{AREA}MULTIPOLYGON(({OUTER},))")
    found += refused(12, f"{AREA}MULTIPOLYGON Z(((0 0 0,40 0 0,0 40 0,0 0 0)))")
    return [replace(row, feed=FIELD) for row in found]


def box_rows() -> list[AskRow]:
    """Boxes, whose sides all belong to them."""
    right = values(20, 30)
    boxes = [
        (BLOCK, ["10,10,30,30", "9,9,31,31", "1,1,39,39", "10,1,39,30", "+10,%2B10,30.0,030.", "10%2C10%2c30, 30 "]),
        (CENTRE, ["20,20,20,20", "11,11,29,29", "20,11,29,20", "11,20,20,29"]),
        (SQUARE, ["10,10,20,20", "10,10,29,29", "1,1,20,20"]),
        (field(right, right, "33 34 / - 44"), ["11,11,30,30", "20,20,39,39"]),
        (field(THREE, right, "32 33 34 / 42 - 44"), ["10,20,30,30", "10,11,30,39"]),
        (field(right, THREE, "23 24 / 33 34 / - 44"), ["20,10,30,30", "11,10,39,30"]),
        (ONLY_MISSING, ["20,30,20,30", "11,21,29,39"]),
        (field(values(10, 20), values(30), "42 -"), ["10,30,20,30"]),
        (COLUMN, ["20,0,20,40", f"11,{-LIMIT},29,{LIMIT}"]),
        (ROW, ["0,20,40,20", f"{-LIMIT},11,{LIMIT},29"]),
        (LEAST, ["0,0,0,0", "-5,-5,0,0", f"{-LIMIT},{-LIMIT},9,9", "-0,-0,0,0"]),
        (GREATEST, ["40,40,40,40", "31,31,40,40", f"40,40,{LIMIT},{LIMIT}"]),
        (field(values(40), values(0), "15"), ["40,-10,50,0", "31,0,40,9"]),
        (field(values(30, 40), values(0, 10), "14 15 / 24 25"), ["30,-10,50,10"]),
        (WHOLE, ["0,0,40,40", "-1,-1,41,41", f"{-LIMIT},{-LIMIT},{LIMIT},{LIMIT}"]),
    ]
    none = ["11,11,19,19", "21,0,29,40", "0,21,40,29", "41,0,50,40", "0,41,40,50", "-9,0,-1,40", "0,-9,40,-1", f"{LIMIT},{LIMIT},{LIMIT},{LIMIT}"]
    bad = ["", "0,0,40", "0,0,40,40,40", "0,0,0,40,40,40,40", "30,0,10,40", "0,30,40,10", "0,0,9,40,40,8", "1,0,0,40", "0,0,40,40.5"]
    bad += [f"{-LIMIT - 1},0,40,40", f"0,0,0,40,40,{LIMIT + 1}", ",0,40,40", "0 0 40 40", "0,0,40,40,", "40,0,0,40&z=x&crs=x"]
    found = [row for some, each in boxes for row in answered(some, *[CUBE + box for box in each])]
    found += refused(25, *[CUBE + each for each in none]) + refused(13, *[CUBE + each for each in bad])
    found += refused(24, CUBE + "0,0,0,40,40,40", CUBE + "41,41,0,50,50,0", CUBE + "11,11,19,19&z=0", CUBE + "0,0,40,40&z=-9/9")
    found += refused(17, CUBE + "0,0,0,40,40,40&z=0", CUBE + "11,11,0,19,19,0&z=0/1") + refused(15, CUBE + "0,0,0,40,40,40&z=1/0")
    return [replace(row, feed=FIELD) for row in found]


def spelled_rows() -> list[AskRow]:
    """The same grid, otherwise written, is answered as it is."""
    asked = [
        (CROSS, disc(20, 20, 10)),
        (ONLY_MISSING, disc(20, 30, 0)),
        (GREATEST, disc(50, 50, 15)),
        (field(values(20, 30), values(20, 30), "33 34 / - ."), disc(23, 24, 9)),
        (field(values(0, 10), steps(0, 20, 3), "11 12 / 21 22 / 31 ."), [f"{AREA}POLYGON((0 0,10 0,10 15,0 25,0 0))"]),
        (field(steps(20, 40, 3), values(30, 40), ". . 45 / 53 54 55"), [f"{AREA}POLYGON((20 40,40 30,40 40,20 40))"]),
        (RIM, [f"{AREA}POLYGON({BORDER},{TIP})"]),
        (field(values(30, 40), values(0, 10), "14 15 / 24 25"), [CUBE + "30,-10,50,10"]),
        (WHOLE, [CUBE + "0,0,40,40"]),
        (COLUMN, [CUBE + "20,0,20,40"]),
    ]
    none = [*disc(15, 15, 7), f"{AREA}POLYGON({square(11, 19)})", CUBE + "11,11,19,19"]
    found = []
    for each in FIELD_SPELLINGS[1:]:
        found += [row for some, targets in asked for row in answered(some, *targets, feed=each)] + refused(25, *none, feed=each)
    return found


def rows() -> list[AskRow]:
    """All of them."""
    found = disc_rows() + distance_rows() + polygon_rows() + ring_rows() + several_polygon_rows()
    return found + box_rows() + spelled_rows()
