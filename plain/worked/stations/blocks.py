"""Stations of several blocks of 256 values, asked whole and on each side of a block's border; and replies of many stations."""

from plain.worked.grids.texts import PUBLISH, collected, feed
from plain.worked.runs import Row
from plain.worked.stations.texts import Site, all_of, answered, area, at, by_id, cube, location, refused, sites_line, within

MOST = 5000  # coverages of a reply


def long_site(number: int, count: int, levels: tuple[int, ...] = ()) -> Site:
    """A station of so many times; its samples tell it, their places and their parameters apart."""
    values = [10_000 * number + place for place in range(count * max(1, len(levels)))]
    samples = {"a": values, "b": [None if each % 5 == 2 else -each for each in values]}
    return Site(f"w{number}", number, 0, list(range(count)), samples, levels)


LONG = by_id(*[long_site(number, count) for number, count in enumerate([1, 255, 256, 257, 1, 513, 512, 2])])
LONG_SITES = feed(sites_line(), *[site.line() for site in LONG.values()], PUBLISH)
# of 3 levels at 100 times, 2 at 200, 513 at one, 256 at two, 257 at two, and one at 300
DEEP = by_id(
    *[
        long_site(number, count, levels)
        for number, (count, levels) in enumerate(
            [(100, (0, 10, 20)), (200, (0, 7)), (1, tuple(range(513))), (2, tuple(range(256))), (2, tuple(range(-257, 0))), (300, (5,))]
        )
    ]
)
DEEP_SITES = feed(sites_line(vertical="depth"), *[site.line() for site in DEEP.values()], PUBLISH)


def long_rows() -> list[Row]:
    """Stations without levels."""
    found = answered(all_of(LONG, dict.fromkeys(LONG)), cube("0,0,7,0"), within(7), feed=LONG_SITES)
    found += answered(all_of(LONG, dict.fromkeys(LONG), "b"), cube("0,0,7,0") + "&parameter-name=b", feed=LONG_SITES)
    borders = [0, 1, 254, 255, 256, 257, 511, 512, 513]
    for id_, site in LONG.items():
        found += answered(site.reply(), location(id_), location(id_, "datetime=../.."), feed=LONG_SITES)
        found += answered(site.reply(names="b"), location(id_, "parameter-name=b"), feed=LONG_SITES)
        for hour in borders:
            for name in ("a", "b", "ab"):
                target = location(id_, f"{at(hour)}&parameter-name={','.join(name)}")
                found += answered(site.reply([hour], name), target, feed=LONG_SITES) if hour in site.times else refused(25, target, feed=LONG_SITES)
        for first, last in ((0, 255), (255, 256), (256, 511), (254, 257), (511, 512), (255, 512), (256, 256), (100, 200), (300, 400)):
            times = [hour for hour in site.times if first <= hour <= last]
            target = location(id_, at(first, last))
            found += answered(site.reply(times), target, feed=LONG_SITES) if times else refused(25, target, feed=LONG_SITES)
    for hour in borders[:-1]:
        some = {id_: [hour] for id_, site in LONG.items() if hour in site.times}
        found += answered(all_of(LONG, some), f"{within(7)}&{at(hour)}", f"{cube('0,0,7,0')}&{at(hour)}&parameter-name=a,b", feed=LONG_SITES)
    return found + refused(25, f"{within(7)}&{at(513)}", feed=LONG_SITES)


# what is asked of a station with levels, and the times and levels that are answered
DEEP_CASES: dict[str, list[tuple[str, list[int], tuple[int, ...]]]] = {
    "w0": [
        (at(85), [85], (0, 10, 20)),
        (at(85) + "&z=0", [85], (0,)),
        (at(85) + "&z=10", [85], (10,)),
        (at(85) + "&z=10/20", [85], (10, 20)),
        (at(84), [84], (0, 10, 20)),
        (at(84, 86) + "&z=0,10", [84, 85, 86], (0, 10)),
        (at(86, 99), list(range(86, 100)), (0, 10, 20)),
        (at(0, 84), list(range(85)), (0, 10, 20)),
        ("z=20", list(range(100)), (20,)),
    ],
    "w1": [
        (at(127), [127], (0, 7)),
        (at(128), [128], (0, 7)),
        (at(127, 128), [127, 128], (0, 7)),
        (at(127, 128) + "&z=7", [127, 128], (7,)),
        (at(127) + "&z=7", [127], (7,)),
        (at(128) + "&z=0", [128], (0,)),
        ("z=0/6", list(range(200)), (0,)),
    ],
    "w2": [
        ("z=255", [0], (255,)),
        ("z=256", [0], (256,)),
        ("z=255/256", [0], (255, 256)),
        ("z=512", [0], (512,)),
        ("z=0,512", [0], (0, 512)),
        ("z=R3/0/256", [0], (0, 256, 512)),
        ("z=256/511", [0], tuple(range(256, 512))),
    ],
    "w3": [
        (at(0), [0], tuple(range(256))),
        (at(1), [1], tuple(range(256))),
        ("z=255", [0, 1], (255,)),
        ("z=0", [0, 1], (0,)),
        (at(1) + "&z=0", [1], (0,)),
        (at(0) + "&z=255", [0], (255,)),
    ],
    "w4": [
        (at(0) + "&z=-1", [0], (-1,)),
        (at(0) + "&z=-2/-1", [0], (-2, -1)),
        (at(1) + "&z=-257/-256", [1], (-257, -256)),
        (at(1) + "&z=-3,-2,-1", [1], (-3, -2, -1)),
        ("z=-2", [0, 1], (-2,)),
        ("z=-1,-257", [0, 1], (-257, -1)),
    ],
    "w5": [(at(255), [255], (5,)), (at(256), [256], (5,)), (at(255, 256) + "&z=5", [255, 256], (5,)), ("z=5", list(range(300)), (5,))],
}


def deep_rows() -> list[Row]:
    """Stations with levels, whose blocks begin and end within a time."""
    found = answered(collected(*[site.reply() for site in DEEP.values()]), cube("0,0,5,0"), feed=DEEP_SITES)
    for id_, some in DEEP_CASES.items():
        site = DEEP[id_]
        found += answered(site.reply(), location(id_), feed=DEEP_SITES)
        found += answered(site.reply(names="b"), location(id_, "parameter-name=b"), feed=DEEP_SITES)
        for asked, times, levels in some:
            found += answered(site.reply(times, "", levels), location(id_, asked), feed=DEEP_SITES)
            found += answered(site.reply(times, "b", levels), location(id_, asked + "&parameter-name=b"), feed=DEEP_SITES)
            found += answered(collected(site.reply(times, "a", levels)), f"{within(0, f'{site.x} 0')}&{asked}&parameter-name=a", feed=DEEP_SITES)
    return found


def many_rows() -> list[Row]:
    """Replies of 5,000 coverages and of one more."""
    sites = [Site(f"n{number}", number, 0, [0] if number else [0, 1], {"a": [number] if number else [7, 8]}) for number in range(MOST + 1)]
    of_many = feed(sites_line(), *[site.line() for site in sites], PUBLISH)
    sites.sort(key=lambda site: site.id)  # their ids are ASCII
    first = collected(*[site.reply() for site in sites if site.x < MOST])
    later = collected(*[site.reply() for site in sites if site.x])
    whole = cube(f"0,0,{MOST},0")
    ends = ["&z=0", "&crs=x", "&parameter-name=b", "&datetime=1999-01-01T00:00Z"]
    found = answered(first, cube(f"0,0,{MOST - 1},0"), area(f"POLYGON((0 0,{MOST - 1} 0,0 9,0 0))"), feed=of_many)
    found += answered(later, within(MOST - 1, f"{MOST} 0"), feed=of_many) + answered(collected(sites[0].reply([1])), f"{whole}&{at(1)}", feed=of_many)
    found += refused(26, whole, within(MOST), area(f"POLYGON((0 0,{MOST} 0,0 9,0 0))"), f"{whole}&{at(0)}&parameter-name=a", feed=of_many)
    for number, more in zip((24, 23, 22, 25), ends):
        found += refused(number, whole + more, feed=of_many)
    return found + answered(sites[-1].reply(), location(sites[-1].id), feed=of_many)


def large_rows() -> list[Row]:
    """Replies of 2,000,000 values and of one more."""
    count = 2_000_000
    wide, small = Site("A", 0, 0, [0], {"a": [0] * count}, tuple(range(count))), Site("B", 1, 0, [0], {"a": [7]}, (5,))
    of_both = feed(sites_line(vertical="depth"), wide.line().replace(",".join(map(str, wide.levels)), "@"), small.line(), PUBLISH)
    of_both = of_both.replace('{"values":[@]}', f'{{"start":0,"stop":{count - 1},"num":{count}}}')
    found = answered(wide.reply(), location("A"), feed=of_both) + answered(collected(wide.reply()), cube("0,0,0,0"), feed=of_both)
    found += refused(26, cube("0,0,1,0"), within(1), feed=of_both) + answered(collected(small.reply()), cube("1,0,1,0"), feed=of_both)
    return found + answered(collected(wide.reply(levels=(5,)), small.reply()), cube("0,0,1,0") + "&z=5", feed=of_both)


def rows() -> list[Row]:
    """All of them."""
    return long_rows() + deep_rows() + many_rows()
