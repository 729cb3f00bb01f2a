"""Stations along corridors: by place, time and level of one and the same segment, and with gaps where these aren't taken together."""

from plain.worked.grids.texts import DEEP, axes_of, collected, values
from plain.worked.runs import Row
from plain.worked.stations.levels import LOW, MASTS, MAST_SITES, TWENTY, WHOLE, Taken, taken_rows
from plain.worked.stations.texts import answered, axis, covered_site, moment

M0, M1 = 1_704_067_200, 1_704_070_800  # the first two hours as m
NEAR_50: Taken = {**WHOLE, "m4": ([0], (10,))}


def corridor(line: str, width: int, more: str = "", dims: str = "") -> str:
    """The target of a corridor."""
    return f"/collections/sites/corridor?coords=LINESTRING{dims}({line})&corridor-width={width}&width-units=m{more}"


def height(metres: int) -> str:
    """A height of a query text."""
    return f"&corridor-height={metres}&height-units=m"


def with_gaps(id_: str, times: list[int], levels: tuple[int, ...], samples: dict[str, list]) -> str:
    """A coverage whose samples are told."""
    site = MASTS[id_]
    axes = axes_of(site.x, site.y, values(*map(moment, times)), axis(levels))
    return covered_site(id_, axes, len(times), len(levels), samples, DEEP)


def rows() -> list[Row]:
    """All of them."""
    all_, some = "0 0,30 0", {"m1": WHOLE["m1"], "m2": WHOLE["m2"]}
    found = taken_rows(WHOLE, corridor(all_, 0), corridor("30 0,0 0", 0, height(5)), corridor("15 9,15 9", 36), corridor(f"0 0 {M0},30 0 {M1}", 0, "", "M"))
    found += taken_rows(some, corridor("0 0,15 0", 0), corridor("0 0,15 0", 9), corridor("15 0,10 0,0 0", 9))
    found += taken_rows({**some, "m3": WHOLE["m3"]}, corridor("0 0,15 0", 10), corridor("15 0,0 0", 11))
    found += taken_rows({}, corridor("0 5,30 5", 9), corridor("-1 0,-9 0", 1), corridor("15 9,15 9", 20))
    # levels, between those of stations too
    found += taken_rows(TWENTY, corridor(all_, 0, "&z=20"), *[corridor(all_, 0, f"&z={z}{height(h)}") for z, h in ((20, 0), (20, 19), (30, 20))])
    found += taken_rows(LOW, corridor(all_, 0, f"&z=20{height(20)}"), corridor(all_, 0, f"&z=15{height(10)}"), corridor(all_, 0, f"&z=15{height(11)}"))
    found += taken_rows(NEAR_50, corridor(all_, 0, f"&z=30{height(40)}"), corridor("0 0 15,30 0 45", 0, height(10), "Z"))
    found += taken_rows(TWENTY, corridor("0 0 15,30 0 45", 0, height(0), "Z"), corridor("0 0 45,30 0 15", 0, height(9), "Z"))
    found += taken_rows({}, corridor(all_, 0, f"&z=30{height(19)}"), corridor("0 0 30,30 0 35", 0, height(19), "Z"), corridor(all_, 0, "&z=30"))
    # times of segments
    apart: Taken = {"m1": ([0], WHOLE["m1"][1]), "m2": WHOLE["m2"], "m3": ([1], (50,))}
    found += taken_rows(apart, corridor(f"0 0 {M0},5 0 {M0},5 0 {M1},30 0 {M1}", 0, "", "M"))
    found += taken_rows({}, corridor(f"0 0 {M0 + 1},30 0 {M1 - 1}", 9, "", "M"), corridor(f"30 0 {M1},30 0 {M1}", 0, "", "M"))
    # of two segments one takes a time and a level, the other two others
    line = f"0 0 10 {M0},0 0 11 {M0 + 1},0 0 49 {M1 - 1},0 0 50 {M1}"
    gaps = with_gaps("m1", [0, 1], (10, 50), {"a": [1, None, None, 6], "b": [11, None, None, 16]})
    found += answered(collected(gaps), corridor(line, 0, height(0), "ZM"), corridor(line, 19, height(1), "ZM"), feed=MAST_SITES)
    return found
