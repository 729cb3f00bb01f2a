"""Stations without levels: which of them a query takes, and which of their times and parameters."""

import itertools

from plain.worked.grids.refusals import LINE, Parts, meet, target_of
from plain.worked.grids.texts import PUBLISH, collection, feed, instance
from plain.worked.grids.usual import POLYGON, USUAL
from plain.worked.runs import Row
from plain.worked.stations.texts import Site, all_of, answered, area, at, by_id, by_nearest, cube, location, refused, sites_line, within

# s9 and s10 are on one spot; s9 has a sample at each of the hours 0 to 2, s10 at two of them, s1 and far at one each
SITES = by_id(
    Site("s9", 0, 0, [0, 1, 2], {"a": [1, 2, 3], "b": [11, 12, 13]}),
    Site("far", -300, 400, [3], {"a": [6], "b": [16]}),
    Site("s10", 0, 0, [1, 2], {"a": [4, None], "b": [14, 15]}),
    Site("s1", 100, 0, [0], {"a": [5], "b": [None]}),
)
USUAL_SITES = feed(sites_line(), *[site.line() for site in SITES.values()], sites_line("bare"), collection("g"), instance("g", "1", USUAL), PUBLISH)

NONE: dict = {}
BOTH = {"s10": None, "s9": None}
THREE = {"s1": None, "s10": None, "s9": None}
FOUR = {"far": None, **THREE}
FAR, NEAR = {"far": None}, {"s1": None}


def taken(cases: list[tuple[dict, list[str]]], names: str = "", more: str = "") -> list[Row]:
    """Rows by the stations and times that are taken, and the targets that take them; where they are none, NoSamples."""
    found = []
    for some, targets in cases:
        asked = [target + more for target in targets]
        found += answered(all_of(SITES, some, names), *asked, feed=USUAL_SITES) if some else refused(25, *asked, feed=USUAL_SITES)
    return found


# the stations that are taken by discs, polygons and boxes
SQUARE = "-200 -200,200 -200,200 200,-200 200,-200 -200"
DISCS = [
    (BOTH, [within(0), within(99), within("0.099", unit="km"), within(99, "-0 .0")]),
    (THREE, [within(100), within(499), within("0.1", unit="KM"), within(100, "100 0"), within(50, "50 0"), within(62, "50 35")]),
    (FOUR, [within(500), within("0.500", unit="km"), within(400_000_000), within(400_000_000, "100000000 -100000000")]),
    (NEAR, [within(0, "100 0"), within(99, "100 0"), within(5, "103 4"), within(99, "199 0")]),
    (FAR, [within(1, "-300 399"), within(5, "-303 404"), within(0, "-300 400"), within(499, "-300 400")]),
    (NONE, [within(0, "-300 399"), within(4, "103 4"), within(49, "50 0"), within(61, "50 35"), within(4, "-303 404"), within(0, "1 0")]),
    (NONE, [within(9, "100000000 0"), within(99_999_899, "100000000 0")]),
    (NEAR, [within(99_999_900, "100000000 0"), within(99_999_999, "100000000 0")]),
]
POLYGONS = [
    (BOTH, ["POLYGON((-10 0,10 0,10 10,-10 10,-10 0))", "POLYGON((0 0,50 0,50 50,0 50,0 0))", "POLYGON((0 0,-5 9,-5 -9,0 0))"]),
    (BOTH, ["POLYGON((-1 -1,1 1,2 1,-1 -1))", "POLYGON((0 0,0 0,0 0,0 0))", "polygon ( ( -1 -1 , 1 -1 , 0 1 , -1 -1 ) )"]),
    (THREE, ["POLYGON((0 0,100 0,0 0,0 0))", "POLYGON((0 -100,200 100,0 100,0 -100))", f"POLYGON(({SQUARE}))"]),
    (THREE, [f"POLYGON(({SQUARE}),(0 0,100 0,100 100,0 100,0 0))", "POLYGON((0 0,50 -9,100 0,50 9,0 0))"]),
    (NEAR, [f"POLYGON(({SQUARE}),(-1 -1,1 -1,1 1,-1 1,-1 -1))", "POLYGON((100 0,101 0,101 1,100 0))", "POLYGON((100 -5,100 5,190 5,100 -5))"]),
    (NEAR, ["POLYGON((50 0,200 100,200 -100,50 0))", f"POLYGON(({SQUARE}),({SQUARE}),(99 -1,101 -1,100 1,99 -1))"]),
    (FAR, ["POLYGON((-300 400,-301 400,-301 401,-300 400))", "POLYGON((-600 0,0 800,-900 800,-600 0))"]),
    (FOUR, [f"MULTIPOLYGON((({SQUARE})),((-300 400,-300 400,-300 400,-300 400)))"]),
    ({**FAR, **NEAR}, ["MULTIPOLYGON(((-400 300,-200 300,-200 500,-400 500,-400 300)),((99 -1,101 -1,100 1,99 -1)))"]),
    (THREE, [f"MULTIPOLYGON((({SQUARE})),((-1 -1,1 -1,1 1,-1 1,-1 -1)))"]),
    (NONE, ["POLYGON((1 1,99 1,99 99,1 99,1 1))", "POLYGON((1 0,99 0,50 50,1 0))", "POLYGON((-600 0,0 799,0 798,-600 0))"]),
    (NONE, ["POLYGON((-50 0,-1 0,-1 1,-50 1,-50 0))", f"POLYGON(({SQUARE}),(-300 -300,300 -300,300 300,-300 300,-300 -300))"]),
]
BOXES = [
    (BOTH, ["0,0,0,0", "-100,-100,0,0", "0,0,99,99", "-1,0,1,0", "-9,0,0,9", "0,-9,9,0", "+0, 0 ,0.0,-0"]),
    (NEAR, ["100,0,200,100", "100,0,100,0", "1,0,100,0", "99,-1,101,1", "1,-7,100,0"]),
    (THREE, ["0,0,100,0", "0,-100,100,0", "-299,-400,300,400", "-300,-400,300,399"]),
    (FAR, ["-300,400,-300,400", "-100000000,1,100000000,100000000", "-100000000,-100000000,-1,100000000"]),
    (FOUR, ["-300,0,100,400", "-100000000,-100000000,100000000,100000000"]),
    (NONE, ["1,1,99,99", "1,0,99,0", "101,0,101,0", "-300,401,0,500", "-301,400,-301,400", "0,1,0,399"]),
]


def place_rows() -> list[Row]:
    """Discs, POLYGONS and BOXES, with stations on their borders, at their corners, and a metre off."""
    found = []
    ends = by_id(Site("low", -100_000_000, -100_000_000, [0], {"a": [1]}), Site("top", 100_000_000, 100_000_000, [0], {"a": [2]}))
    of_ends = feed(sites_line(), *[site.line() for site in ends.values()], PUBLISH)
    # the corners of the plane are between 282,842,712 and 282,842,713 metres from each other
    either, low = dict.fromkeys(ends), {"low": None}
    corner = "-100000000 -100000000"
    found += answered(all_of(ends, either), within(282_842_713, corner), cube("-100000000,-100000000,100000000,100000000"), feed=of_ends)
    found += answered(all_of(ends, either), area(f"POLYGON(({corner},100000000 100000000,0 1,{corner}))"), feed=of_ends)
    found += answered(all_of(ends, low), within(282_842_712, corner), cube("-100000000,-100000000,99999999,100000000"), feed=of_ends)
    found += answered(all_of(ends, low), area(f"POLYGON(({corner},99999999 100000000,0 100000000,{corner}))"), feed=of_ends)
    of_polygons = [(some, [area(each) for each in texts]) for some, texts in POLYGONS]
    return found + taken(DISCS) + taken(of_polygons) + taken([(some, [cube(each) for each in texts]) for some, texts in BOXES])


def time_rows() -> list[Row]:
    """Times: a station without a wanted sample is left out, and without any there is none."""
    whole = [within(500), cube("-300,0,100,400"), area("POLYGON((-300 0,-300 400,100 400,100 0,-300 0))")]
    times = {
        at(0): {"s1": [0], "s9": [0]},
        at(1): {"s10": [1], "s9": [1]},
        at(2): {"s10": [2], "s9": [2]},
        at(3): FAR,
        at(0, 1): {"s1": [0], "s10": [1], "s9": [0, 1]},
        at(0, 2): THREE,
        at(0, 3): FOUR,
        at(2, 3): {"far": [3], "s10": [2], "s9": [2]},
        "datetime=../2024-01-01T00:59:59Z": {"s1": [0], "s9": [0]},
        "datetime=2024-01-01T00:00:01Z/..": {"far": [3], "s10": None, "s9": [1, 2]},
        "datetime=2024-01-01T01:00Z/": {"far": [3], "s10": None, "s9": [1, 2]},
        "datetime=2024-01-01T02:00:01Z/..": FAR,
        "datetime=../..": FOUR,
        "datetime=/": FOUR,
        "datetime=2024-01-01T04:00:00%2B01:00": FAR,
        "datetime=2024-01-01T00:00:01Z/2024-01-01T00:59:59Z": NONE,
        "datetime=2024-01-01T03:00:01Z/..": NONE,
        "datetime=../2023-12-31T23:59:59Z": NONE,
        at(4): NONE,
    }
    found = [row for asked, some in times.items() for row in taken([(some, whole)], more=f"&{asked}")]
    found += taken([(NONE, [within(99, "100 0")])], more=f"&{at(1)}") + taken([({"s9": [0]}, [within(99)])], more=f"&{at(0)}")
    for names, asked in (("a", "a"), ("b", "b"), ("a", "a,a"), ("ab", "b,a"), ("ab", "a,b,a")):
        found += taken([(FOUR, whole)], names, f"&parameter-name={asked}")
        found += taken([({"s10": [2], "s9": [2]}, whole[:1])], names, f"&parameter-name={asked}&{at(2)}")
        found += answered(SITES["s1"].reply(names=names), location("s1", f"parameter-name={asked}"), feed=USUAL_SITES)
        found += answered(SITES["s9"].reply([1, 2], names), location("s9", f"{at(1, 2)}&parameter-name={asked}"), feed=USUAL_SITES)
    same = ["&crs=local", "&f=json", "&f=COVERAGEJSON", "&datetime=..%2F..&crs=local&f=application/prs.coverage%2Bjson"]
    return found + [row for more in same for row in taken([(FOUR, whole)], more=more)]


def location_rows() -> list[Row]:
    """One station, its times, and ids that aren't there."""
    found = []
    for id_, site in SITES.items():
        found += answered(site.reply(), location(id_), location(id_, "datetime=../.."), location(id_ + "/", "crs=local"), feed=USUAL_SITES)
        found += answered(site.reply(), location(id_.replace("s", "%73"), "f=Json"), feed=USUAL_SITES)
        for hour in range(-1, 5):
            target = location(id_, at(hour))
            found += answered(site.reply([hour]), target, feed=USUAL_SITES) if hour in site.times else refused(25, target, feed=USUAL_SITES)
    found += answered(SITES["s9"].reply([0, 1]), location("s9", at(0, 1)), location("s9", "datetime=../2024-01-01T01:59:59Z"), feed=USUAL_SITES)
    found += refused(20, *[location(id_) for id_ in ("s", "s11", "s100", "S1", "s1%20", "s1+", "fa", "farr", "%00", "s%31%30%30")], feed=USUAL_SITES)
    found += refused(20, location("s", "crs=x&z=0&parameter-name=zz"), location("s2", at(9)), feed=USUAL_SITES)
    found += refused(20, location("s9").replace("sites", "bare"), feed=USUAL_SITES)
    found += refused(6, location("%FF"), location("s9/x"), location("s1/0"), location("/s9"), feed=USUAL_SITES)
    return found


# Refusals

ANY_QUERY: list[tuple[int, Parts]] = [
    (7, {"colour": "red"}),
    (8, {"crs": "local", "crs ": "local"}),
    (9, {"f": "XML"}),
    (14, {"datetime": "2024-06-01"}),
    (15, {"z": "20/0"}),
    (18, {"collection": "none"}),
    (22, {"parameter-name": "a,zz"}),
    (23, {"crs": "x"}),
    (24, {"z": "0"}),
    (25, {"datetime": "1999-01-01T00:00:00Z"}),
]
NO_COORDS: tuple[int, Parts] = (10, {"coords": None})
ANY_PLACE: list[tuple[int, Parts]] = [*ANY_QUERY, (6, {"query": "items"}), (21, {"instance": "1"}), (25, {"collection": "bare"})]
NO_PLACE: list[tuple[int, Parts]] = [*ANY_PLACE, NO_COORDS]
WITH_Z: list[tuple[int, Parts]] = [(17, {"coords": "POINT Z(0 0 0)", "z": "0"}), (24, {"coords": "POINT Z(0 0 0)"})]
DISC = {"query": "radius", "coords": "POINT(0 0)", "within": "100", "within-units": "m"}
QUERIES: list[tuple[Parts, list[int], list[tuple[int, Parts]]]] = [  # a query, what it is refused with in any case, and what can refuse it besides
    (DISC, [], [*NO_PLACE, *WITH_Z, (10, {"within": None}), (11, {"coords": "POINT(0 0"}), (12, {"coords": "MULTIPOINT(0 0)"})]),
    (DISC, [], [*ANY_PLACE, (16, {"within": "1.5"}), (25, {"coords": "POINT(1 900)"})]),
    (
        {"query": "area", "coords": POLYGON},
        [],
        [*NO_PLACE, (11, {"coords": "POLYGON((0 0,1 0,1 1,0 1))"}), (12, {"coords": "POINT(0 0)"}), (25, {"coords": "POLYGON((1 1,2 1,1 2,1 1))"})],
    ),
    (
        {"query": "cube", "bbox": "0,0,100,100"},
        [],
        [
            *ANY_PLACE,
            (10, {"bbox": None}),
            (13, {"bbox": "2,0,1,1"}),
            (17, {"bbox": "0,0,0,1,1,1", "z": "0"}),
            (24, {"bbox": "0,0,0,1,1,1"}),
            (25, {"bbox": "1,1,2,2"}),
        ],
    ),
    (
        {"query": "locations/s9"},
        [],
        [*ANY_QUERY, (6, {"instance": "1"}), (7, {"coords": "POINT(0 0)"}), (20, {"query": "locations/s"}), (20, {"collection": "bare"})],
    ),
    (
        {"query": "trajectory", "coords": LINE},
        [21],
        [*NO_PLACE, (11, {"coords": "LINESTRING(0 0)"}), (12, {"coords": "POINT(0 0)"}), (24, {"coords": "LINESTRING Z(0 0 0,1 1 1)"})],
    ),
    (
        {"query": "position", "coords": "MULTIPOINT(0 0)"},
        [21],
        [*NO_PLACE, (11, {"coords": "MULTIPOINT(0.5 0)"}), (12, {"coords": "MULTIPOINT M((0 0 0))"})],
    ),
]


def refusal_rows() -> list[Row]:
    """Each refusal of each query, and each two of them that can be met at once."""
    found = []
    for base, always, causes in QUERIES:
        pairs = [list(pair) for pair in itertools.combinations(causes, 2) if meet(*pair)]
        for some in [[cause] for cause in causes] + pairs + [[]] * len(always):
            parts: Parts = {"collection": "sites", **base}
            for _, change in some:
                parts.update(change)
            found += refused(min([number for number, _ in some] + always), target_of(parts, len(some) == 2), feed=USUAL_SITES)
    return found


def other_query_rows() -> list[Row]:
    """Queries and pages that stations don't offer, or not from the first on; and those of stations asked of grids."""
    wide = "/collections/sites/corridor?coords=LINESTRING(0 0,100 0)&corridor-width="
    narrow, ending, disc = f"{wide}0&width-units=m", "/collections/sites/instances/1", within(0).split("?")[1]
    point = "/collections/sites/position?coords=POINT"
    corridors = [
        (answered(all_of(SITES, THREE), narrow, f"{wide}999&width-units=m", feed=USUAL_SITES)),
        (answered(all_of(SITES, {"s1": [0], "s9": [0]}), f"{narrow}&{at(0)}", feed=USUAL_SITES)),
        (answered(all_of(SITES, FOUR), f"{wide}1000&width-units=m", feed=USUAL_SITES)),
        (refused(24, f"{narrow}&z=0", feed=USUAL_SITES) + refused(25, f"{narrow}&{at(4)}", feed=USUAL_SITES)),
        (refused(22, f"{narrow}&parameter-name=c&crs=x", feed=USUAL_SITES) + refused(25, narrow.replace("0 0,100 0", "0 1,100 1"), feed=USUAL_SITES)),
    ]
    nearest = [
        (answered(SITES["s10"].reply(), f"{point}(0 0)", f"{point}(49 0)", f"{point}(-1 -1)", feed=USUAL_SITES)),
        (answered(SITES["s1"].reply(), f"{point}(50 0)", f"{point}(51 0)", f"{point}(100000000 0)", feed=USUAL_SITES)),
        (refused(25, f"{point}(51 0)&{at(1)}", feed=USUAL_SITES) + refused(24, f"{point} Z(0 0 1)", feed=USUAL_SITES)),
    ]
    found = [row for rows in corridors for row in rows]
    for rows in nearest:
        found += by_nearest([row for each in rows for row in refused(21, each.words[1], feed=USUAL_SITES)], rows)
    found += refused(21, f"{ending}/position?coords=POINT(0 0)", f"{ending}/trajectory?coords={LINE}", f"{ending}/radius?{disc}", feed=USUAL_SITES)
    found += refused(21, f"{ending}/cube?bbox=0,0,1,1&crs=x&z=0&parameter-name=c", f"{ending}/area?coords={POLYGON}", feed=USUAL_SITES)
    found += refused(21, f"{ending}/corridor?{narrow.split('?')[1]}", ending, f"{ending}/?f=json", feed=USUAL_SITES)
    found += refused(21, "/collections/sites/instances", "/collections/bare/instances/1", "/collections/bare/instances?f=json", feed=USUAL_SITES)
    found += refused(6, f"{ending}/locations/s9", f"{ending}/locations", f"{ending}/instances", "/collections/sites/items", feed=USUAL_SITES)
    found += refused(18, f"{ending}/radius?{disc}".replace("sites", "none"), location("s9").replace("sites", "none"), feed=USUAL_SITES)
    found += refused(21, "/collections/g/locations/s9", "/collections/g/locations/s", "/collections/g/locations", feed=USUAL_SITES)
    return found


def rows() -> list[Row]:
    """All of them."""
    return place_rows() + time_rows() + location_rows() + refusal_rows() + other_query_rows()
