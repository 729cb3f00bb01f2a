"""Replies of 2,000,000 values and of 5,000 coverages, and of one more."""

from dataclasses import replace

from plain.worked.grids.lines import composite_axes, corridor, path, trajectory
from plain.worked.grids.texts import (
    A,
    AREA,
    AT_T0,
    COMPOSITE,
    CUBE,
    DEEP,
    LEVEL,
    POSITION,
    PUBLISH,
    RADIUS,
    AskRow,
    T0,
    T1,
    TIME,
    TYX,
    TZYX,
    axes_of,
    collected,
    collection,
    covered,
    feed,
    grid,
    instance,
    listed,
    range_along,
    steps,
    tuples,
    values,
)
from plain.worked.grids.usual import WIDE_COUNT, WIDE_FEED, answered, deep, refused, row_of_points


def many_times(count: int) -> list[str]:
    """So many minutes, of at most two days."""
    return [f"2024-06-0{1 + minute // 1440}T{minute // 60 % 24:02}:{minute % 60:02}:00Z" for minute in range(count)]


def many_parameters(count: int) -> str:
    """Parameters with ids of four digits."""
    return ",".join(f'"{number:04}":{{"observedProperty":{{"label":{{"en":"x"}}}},"type":"Parameter"}}' for number in range(count))


def many_ranges(count: int, values_: str, along: tuple[str, str]) -> str:
    """As many ranges, all of the same samples."""
    return ",".join(f'"{number:04}":{range_along(*along, values_)}' for number in range(count))


def line(last: int) -> str:
    """A target of a polygon without area, along the x axis."""
    return f"{AREA}POLYGON((0 0,{last} 0,0 0,0 0))"


def ends(last: int) -> str:
    """A target of two polygons, which take the nodes at the ends alone."""
    return f"{AREA}MULTIPOLYGON(((0 0,0 0,0 0,0 0)),(({last} 0,{last} 0,{last} 0,{last} 0)))"


def disc(x: int, within: int) -> str:
    """A target of a disc around a point of the x axis."""
    return f"{RADIUS}POINT({x} 0)&within={within}&within-units=m"


def rows() -> list[AskRow]:
    """Replies of 2,000,000 values and of 5,000 coverages, and of one more."""
    return many_parameter_rows() + many_node_rows() + many_level_rows() + many_coverage_rows() + long_frame_rows()


def many_parameter_rows() -> list[AskRow]:
    """1,000 parameters over 2,001 times, at one node and at two."""
    times, ids, all_parameters = many_times(2001), [f"{number:04}" for number in range(1000)], many_parameters(1000)
    one_node = f'"x":{values(0)},"y":{values(0)},"t":{values(*times)}'
    one = grid(one_node, TYX, "2001,1,1", dict.fromkeys(ids, ",".join("7" * 2001)), all_parameters)
    of_one = feed(collection("g"), instance("g", "1", one), PUBLISH)
    exact = covered("PointSeries", axes_of(0, 0, values(*times[:2000])), many_ranges(1000, ",".join("7" * 2000), (TIME, "2000")), all_parameters)
    fewer = covered("PointSeries", axes_of(0, 0, values(*times)), many_ranges(999, ",".join("7" * 2001), (TIME, "2001")), many_parameters(999))
    two_nodes = f'"x":{values(0, 5)},"y":{values(0)},"t":{values(*times[:1001])}'
    two = grid(two_nodes, TYX, "1001,1,2", dict.fromkeys(ids, ",".join("12" * 1001)), all_parameters)
    of_two = feed(collection("g"), instance("g", "1", two), PUBLISH)
    halves = [
        covered("PointSeries", axes_of(x, 0, values(*times[:1000])), many_ranges(1000, ",".join(each * 1000), (TIME, "1000")), all_parameters)
        for x, each in ((0, "1"), (5, "2"))
    ]
    both = "MULTIPOINT(5 0,0 0)"
    return [
        *refused(26, POSITION + "POINT(0 0)", POSITION + "MULTIPOINT(0 0)", POSITION + f"POINT(0 0)&datetime=../{times[2000]}", feed=of_one),
        *answered(exact, f"{POSITION}POINT(0 0)&datetime=../{times[1999]}", feed=of_one),
        *answered(collected(exact), f"{POSITION}MULTIPOINT(0 0,0 0)&datetime=../{times[1999]}", feed=of_one),
        *answered(fewer, f"{POSITION}POINT(0 0)&parameter-name={','.join(ids[:999])}", feed=of_one),
        *refused(22, f"{POSITION}POINT(0 0)&parameter-name={','.join(ids)},x", feed=of_one),
        *refused(23, POSITION + "POINT(0 0)&crs=x", feed=of_one) + refused(24, POSITION + "POINT(0 0)&z=0", feed=of_one),
        *refused(26, POSITION + both, feed=of_two),
        *answered(collected(*halves), f"{POSITION}{both}&datetime=../{times[999]}", feed=of_two),
    ]


def many_node_rows() -> list[AskRow]:
    """1,000 parameters at 2,001 nodes, over one time; nodes of a frame that aren't taken count too."""
    samples = dict.fromkeys([f"{number:04}" for number in range(1000)], ",".join("7" * 2001))
    wide = grid(f'"x":{steps(0, 2000, 2001)},"y":{values(0)},"t":{values(T0)}', TYX, "1,1,2001", samples, many_parameters(1000))
    of_wide = feed(collection("g"), instance("g", "1", wide), PUBLISH)
    axes = tuples(values(T0), ",".join(f"[{x},0]" for x in range(2000)))
    exact = covered("MultiPoint", axes, many_ranges(1000, ",".join("7" * 2000), (COMPOSITE, "2000")), many_parameters(1000))
    grid_axes = f'{{"t":{values(T0)},"x":{steps(0, 1999, 2000)},"y":{values(0)}}}'
    all_nodes, two_nodes = (
        covered("Grid", grid_axes, many_ranges(1000, some, (TYX, "1,1,2000")), many_parameters(1000))
        for some in (",".join("7" * 2000), f"7,{'null,' * 1998}7")
    )
    steps_ = [(T0, x, 0) for x in range(2000)]
    along = covered("Trajectory", composite_axes(steps_), many_ranges(1000, ",".join("7" * 2000), (COMPOSITE, "2000")), many_parameters(1000))
    vertices = ",".join(f"{x} 0" for x in range(2001))
    return [
        *answered(along, trajectory(vertices[: -len(",2000 0")]), feed=of_wide) + refused(26, trajectory(vertices), feed=of_wide),
        *answered(all_nodes, corridor("0 0,1999 0", 0), corridor("1998 0,1 0", 2), feed=of_wide),
        *refused(26, corridor("0 0,2000 0", 0), corridor("1 0,1999 0", 2), feed=of_wide),
        *answered(exact, POSITION + row_of_points(2000), feed=of_wide),
        *answered(all_nodes, CUBE + "0,0,1999,0", line(1999), disc(999, 1000), feed=of_wide) + answered(two_nodes, ends(1999), feed=of_wide),
        *refused(26, POSITION + row_of_points(2001), CUBE + "0,0,2000,0", line(2000), disc(1000, 1000), ends(2000), feed=of_wide),
    ]


def long_frame_rows() -> list[AskRow]:
    """2,000,001 nodes of one parameter, beside each other."""
    count = 2_000_001
    some = f"6,{'7,' * (count - 2)}8"
    long = grid(f'"x":{steps(0, count - 1, count)},"y":{values(0)},"t":{values(T0)}', TYX, f"1,1,{count}", {"a": some}, A)
    of_long = feed(collection("g"), instance("g", "1", long), PUBLISH)

    def reply(first: int, written: str) -> str:
        axes = f'{{"t":{values(T0)},"x":{steps(first, first + count - 2, count - 1)},"y":{values(0)}}}'
        return covered("Grid", axes, f'"a":{range_along(TYX, f"1,1,{count - 1}", written)}', A)

    return [
        *answered(reply(0, some[:-2]), CUBE + "0,0,1999999,0", line(1_999_999), disc(999_999, 1_000_000), feed=of_long),
        *answered(reply(1, some[2:]), CUBE + "1,-5,2000001,0", disc(1_000_001, 1_000_000), feed=of_long),
        *answered(reply(0, f"6,{'null,' * (count - 3)}7"), ends(1_999_999), feed=of_long),
        *refused(26, CUBE + "0,0,2000000,0", line(2_000_000), disc(1_000_000, 1_000_000), ends(2_000_000), feed=of_long),
    ]


def many_level_rows() -> list[AskRow]:
    """Three times of 666,667 levels, which are 2,000,001 values."""
    count, times = 666_667, many_times(3)
    axes = f'"x":{values(0)},"y":{values(0)},"z":{steps(0, count - 1, count)},"t":{values(*times)}'
    tall = grid(axes, TZYX, f"3,{count},1,1", {"a": ",".join(digit for digit in "123" for _ in range(count))}, A, DEEP)
    of_tall = feed(collection("g", vertical="depth"), instance("g", "1", tall), PUBLISH)
    some = ",".join(digit for digit in "123" for _ in range(count - 1))
    exact = deep("Grid", 0, values(*times), steps(0, count - 2, count - 1), range_along(TZYX, f"3,{count - 1},1,1", some))
    profile = deep("VerticalProfile", 0, values(times[1]), steps(0, count - 1, count), range_along(LEVEL, str(count), ",".join("2" * count)))
    lists = collected(*[path([(times[0], 0, 0)], z=values(z), a="1") for z in range(5000)])
    early = f"&datetime={times[0]}&z=0/"
    return [
        *answered(exact, corridor("0 0,0 0", 0, "&z=0/666665"), feed=of_tall),
        *refused(26, corridor("0 0,0 0", 0), corridor("0 0,0 0", 0, "&z=0/666666"), feed=of_tall),
        *answered(lists, trajectory("0 0,0 0", early + "4999"), feed=of_tall) + refused(26, trajectory("0 0,0 0", early + "5000"), feed=of_tall),
        *refused(26, POSITION + "POINT(0 0)", POSITION + "POINT(0 0)&datetime=../..", POSITION + "POINT(0 0)&z=0/666666", feed=of_tall),
        *answered(exact, POSITION + "POINT(0 0)&z=0/666665", POSITION + "POINT(0 0)&z=R666666/0/1", feed=of_tall),
        *answered(profile, f"{POSITION}POINT(0 0)&datetime={times[1]}", feed=of_tall),
    ]


def many_coverage_rows() -> list[AskRow]:
    """5,000 coverages of the wide grid, and one more; many nodes over one time are one coverage."""
    at = "/collections/wide/position?coords="

    def along(x: int) -> str:
        return covered("PointSeries", axes_of(x, 0, values(T0, T1)), f'"a":{range_along(TIME, "2", f"{x},{x + 1}")}', A)

    all_tuples = ",".join(f"[{x},0]" for x in range(WIDE_COUNT))
    one = covered("MultiPoint", tuples(values(T0), all_tuples), f'"a":{range_along(COMPOSITE, "5001", listed(range(WIDE_COUNT)))}', A)
    first = collected(*[along(x) for x in range(5000)])
    last = collected(*[along(x) for x in range(1, 5001)])
    last_points = ",".join(f"{x} 0" for x in range(5000, 0, -1))
    twice = f"{row_of_points(5000)[:-1]},{row_of_points(5000)[11:]}"
    found = [
        *answered(first, at + row_of_points(5000), at + twice),
        *answered(last, at + f"MULTIPOINT(-1 0,{last_points},5001 0)"),
        *answered(one, f"{at}{row_of_points(WIDE_COUNT)}{AT_T0}"),
        *refused(26, at + row_of_points(WIDE_COUNT), at + f"MULTIPOINT({last_points},0 0)&datetime=../.."),
    ]
    return [replace(row, feed=WIDE_FEED) for row in found]
