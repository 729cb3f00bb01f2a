"""Stations with levels: the shape that each of them has in a reply, by how many of its times and levels are taken."""

from plain.worked.grids.texts import PUBLISH, Z, collected, feed
from plain.worked.runs import Row
from plain.worked.stations.texts import Site, answered, area, at, by_id, cube, location, refused, sites_line, within

# m1 has three levels at two times, m2 one at one time, m3 one at two times, and m4 three even ones at one time
MASTS = by_id(
    Site("m1", 0, 0, [0, 1], {"a": [1, 2, 3, 4, None, 6], "b": [11, 12, None, 14, 15, 16]}, (10, 20, 50)),
    Site("m4", 30, 0, [0], {"a": [10, None, 30], "b": [40, 50, 60]}, (0, 5, 10)),
    Site("m2", 10, 0, [1], {"a": [7], "b": [17]}, (20,)),
    Site("m3", 20, 0, [0, 1], {"a": [8, 9], "b": [18, None]}, (50,)),
)
MAST_SITES = feed(sites_line(vertical="depth"), *[site.line() for site in MASTS.values()], sites_line("bare"), PUBLISH)
Taken = dict[str, tuple[list[int], tuple[int, ...]]]  # stations with the times and levels that are taken of each

WHOLE: Taken = {"m1": ([0, 1], (10, 20, 50)), "m2": ([1], (20,)), "m3": ([0, 1], (50,)), "m4": ([0], (0, 5, 10))}
TWENTY: Taken = {"m1": ([0, 1], (20,)), "m2": ([1], (20,))}
LOW: Taken = {"m1": ([0, 1], (10, 20)), "m2": ([1], (20,)), "m4": ([0], (10,))}
TEN: Taken = {"m1": ([0, 1], (10,)), "m4": ([0], (10,))}
CASES: list[tuple[Taken, list[str]]] = [  # what is taken, and the query texts behind a cube of all that take it
    (WHOLE, ["", "datetime=../..", "z=0/50", "z=-100000000/100000000", "z=0,5,10,20,50", "z=R51/0/1"]),
    (TWENTY, ["z=20", "z= 20.0 ", "z=20/49", "z=11/20", "z=20,21", "z=R2/20/1", "z=R1/20/7", "z=20,20"]),
    (LOW, ["z=10/20", "z=6/49", "z=20,10", "z=R2/10/10", "z=10,20,11"]),
    (TEN, ["z=10", "z=R9/10/11", "z=6/19", "z=9/11"]),
    ({"m1": ([0, 1], (10, 50)), "m3": ([0, 1], (50,)), "m4": ([0], (10,))}, ["z=10,50", "z=R2/10/40", "z=50,10,30"]),
    ({"m4": ([0], (0, 5))}, ["z=0/9", "z=5,0", "z=-5/5", "z=R3/-5/5"]),
    ({"m4": ([0], (5,))}, ["z=5", f"z=5&{at(0)}", "z=1/9"]),
    ({"m1": ([0], (10, 20, 50)), "m3": ([0], (50,)), "m4": ([0], (0, 5, 10))}, [at(0), f"{at(0)}&z=0/50"]),
    ({"m1": ([1], (10, 20, 50)), "m2": ([1], (20,)), "m3": ([1], (50,))}, [at(1), "datetime=2024-01-01T00:00:01Z/.."]),
    ({"m1": ([1], (20,)), "m2": ([1], (20,))}, [f"{at(1)}&z=20", f"z=11/49&{at(1)}"]),
    ({"m1": ([0], (20,))}, [f"{at(0)}&z=20", f"{at(0)}&z=R2/20/9"]),
    ({"m1": ([0], (20, 50)), "m3": ([0], (50,))}, [f"{at(0)}&z=20,50", f"{at(0)}&z=11/50"]),
    ({}, ["z=30", "z=0&" + at(1), "z=R3/1/1", "z=51/60", "z=-1", f"z=5&{at(1)}", f"{at(2)}&z=20", at(2), "z=4,6,9"]),
]


def reply(taken: Taken, names: str = "") -> str:
    """The collection of what is taken."""
    return collected(*[MASTS[id_].reply(times, names, levels) for id_, (times, levels) in taken.items()])


def taken_rows(taken: Taken, *targets: str) -> list[Row]:
    """Rows of what is taken, or of NoSamples."""
    return answered(reply(taken), *targets, feed=MAST_SITES) if taken else refused(25, *targets, feed=MAST_SITES)


def disc(metres: int, point: str, tag: str = "POINT Z") -> str:
    """The target of a disc around a point with a level."""
    return within(metres, point).replace("POINT", tag)


def level_rows() -> list[Row]:
    """Each shape, by `z`, by the z of a point, and by a box of six numbers."""
    everywhere = [cube("0,0,30,0"), within(30), area("POLYGON((0 0,30 0,15 9,0 0))")]
    found = []
    for taken, asked in CASES:
        for place, more in enumerate(asked):
            found += taken_rows(taken, f"{everywhere[place % 3]}&{more}" if more else everywhere[0])
        for id_, (times, levels) in taken.items():
            found += answered(MASTS[id_].reply(times, "", levels), *[location(id_, more) for more in asked], feed=MAST_SITES)
        for id_ in [each for each in MASTS if each not in taken]:
            found += refused(25, *[location(id_, more) for more in asked], feed=MAST_SITES)
    first: Taken = {"m1": ([0, 1], (20,))}
    found += taken_rows(TWENTY, disc(30, "0 0 20"), disc(20, "20 0 20.0", "pointz"))
    found += taken_rows(first, disc(0, "0 0 20", "POINTZ"), cube("0,0,20,0,0,20"), cube("0,0,20,9,9,49"), cube("0,0,11,0,0,20"))
    found += taken_rows(TEN, disc(30, "0 0 10"), cube("0,0,10,30,0,10"), cube("-9,-9,6,30,9,19"))
    found += taken_rows({}, disc(30, "0 0 30"), cube("0,0,21,30,0,49"), cube("1,0,20,9,0,20"), cube("0,0,51,30,0,99"))
    found += taken_rows(WHOLE, cube("0,0,0,30,0,50"), cube("-1,-1,-1,31,1,51"), cube("0,0,30,0"), cube("0,0,0,30,0,50") + "&datetime=/")
    found += taken_rows(LOW, cube("0,0,10,30,0,20"), cube("0,0,6,30,0,49"), cube("0,0,30,0") + "&z=6/20")
    found += refused(17, cube("0,0,0,30,0,50") + "&z=20", f"{disc(0, '0 0 20')}&z=20", feed=MAST_SITES)
    found += refused(15, everywhere[0] + "&z=", location("m1", "z=20/10"), location("m1", "z=1,x"), location("m1", "z=R0/1/1"), feed=MAST_SITES)
    bare = "/collections/bare"
    found += refused(24, f"{bare}/cube?bbox=0,0,1,1&z=20", f"{bare}/cube?bbox=0,0,0,1,1,1", feed=MAST_SITES)
    found += refused(24, disc(0, "0 0 0").replace("sites", "bare"), feed=MAST_SITES)
    for names in "ab":
        found += answered(reply(TWENTY, names), f"{everywhere[1]}&z=20&parameter-name={names}", feed=MAST_SITES)
        found += answered(reply(WHOLE, names), f"{everywhere[2]}&parameter-name={names}", feed=MAST_SITES)
        found += answered(MASTS["m1"].reply([1], names), location("m1", f"{at(1)}&parameter-name={names}"), feed=MAST_SITES)
    return found


def reference_rows() -> list[Row]:
    """The references are the collection's: its CRS, and its vertical system, of which it needs none."""
    mast = MASTS["m1"]
    other = mast.coverage().replace('"depth"', '"height"').replace('"id":"local",', "")
    without = mast.coverage().replace(f"{Z},", "")
    found = answered(mast.reply(), location("m1"), feed=feed(sites_line(vertical="depth"), mast.line(coverage=other), PUBLISH))
    found += answered(mast.reply(), location("m1"), feed=feed(sites_line(vertical="depth"), mast.line(coverage=without), PUBLISH))
    untold = mast.reply().replace('"id":"depth",', "")
    found += answered(untold, location("m1"), feed=feed(sites_line(), mast.line(), PUBLISH))
    quoted = mast.reply().replace('"depth"', '"a\\"\\\\å"').replace('"local"', '"a\\u0001"')
    of_quoted = feed(sites_line(vertical='a"\\å', crs="a\x01"), mast.line(coverage=other), PUBLISH)
    found += answered(quoted, location("m1"), location("m1", "crs=a%01"), feed=of_quoted)
    flat = Site("s", 5, 6, [0], {"a": [1]})
    named = flat.coverage()[:-1] + ',"id":"x"}'
    found += answered(flat.reply(), location("s"), feed=feed(sites_line(), flat.line(coverage=named), PUBLISH))
    unreferenced = flat.coverage().replace('"id":"local",', "")
    found += answered(flat.reply(), location("s"), feed=feed(sites_line(vertical="depth"), flat.line(coverage=unreferenced), PUBLISH))
    nameless = flat.reply().replace('"id":"local",', "")
    of_nameless = feed(sites_line(crs=""), flat.line(coverage=unreferenced), PUBLISH)
    return found + answered(nameless, location("s"), location("s", "crs="), feed=of_nameless)


def form_rows() -> list[Row]:
    """A Grid without levels, axes that descend, ranges with their axes in another order, and one level of a Grid."""
    flat = Site("s", 5, 6, [0, 1, 2], {"a": [1, None, 3]})
    turned = Site("s", 5, 6, [2, 1, 0], {"a": [3, None, 1]}).coverage("Grid")
    single = Site("s", 5, 6, [0, 1], {"a": [1, 2]}, (7,))
    deep = Site("s", 5, 6, [0, 1], {"a": [1, 2, 3, 4]}, (7, 9))
    crossed = Site("s", 5, 6, [1, 0], {"a": [4, 2, 3, 1]}, (9, 7)).coverage()
    crossed = crossed.replace('["t","z","y","x"],"shape":[2,2,1,1]', '["y","z","x","t"],"shape":[1,2,1,2]')
    point = Site("s", 5, 6, [0], {"a": [1]}, (7,))
    alone = point.coverage().replace(',"axisNames":["t"],"shape":[1]', "")
    cases = [(site, site.coverage("Grid")) for site in (flat, single, point)] + [(flat, turned), (deep, crossed), (point, alone)]
    found = []
    for site, coverage in cases:
        of_site = feed(sites_line(vertical="depth"), site.line(coverage=coverage), PUBLISH)
        found += answered(site.reply(), location("s"), feed=of_site)
        found += answered(collected(site.reply([0])), f"{within(0, '5 6')}&{at(0)}", feed=of_site)
    return found


def rows() -> list[Row]:
    """All of them."""
    return level_rows() + reference_rows() + form_rows()
