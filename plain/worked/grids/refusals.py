"""Refusals, alone and two at once.

A target has parts: those of its path, and the pairs of its query by their names. A cause is a number and the parts that bring it about; None
leaves a part out. Two causes of different numbers that have no part in common are met at once, and the lower number is answered.
"""

import itertools

from plain.worked.grids.texts import AT_T0, POSITION, AskRow, T0
from plain.worked.grids.usual import DEEP_FEED, GRID, POLYGON, WIDE_COUNT, WIDE_FEED, refused, row_of_points

PATH_PARTS = ("collection", "instance", "query")
Parts = dict[str, str | None]
ANY_QUERY: list[tuple[int, Parts]] = [
    (7, {"colour": "red"}),
    (7, {"Coords": "POINT(0 0)"}),
    (8, {"crs": "local", "crs ": "local"}),
    (8, {"f": "json", "f ": "json"}),
    (9, {"f": "XML"}),
    (14, {"datetime": "2024-06-01"}),
    (15, {"z": "20/0"}),
    (18, {"collection": "none"}),
    (19, {"collection": "bare"}),
    (22, {"parameter-name": "a,zz"}),
    (23, {"crs": "x"}),
    (24, {"z": "0"}),
    (25, {"datetime": "1999-01-01T00:00:00Z"}),
]
ANY_GRID_QUERY: list[tuple[int, Parts]] = [*ANY_QUERY, (6, {"query": "items"}), (19, {"instance": "9"})]
NO_COORDS: tuple[int, Parts] = (10, {"coords": None})
LINE = "LINESTRING(0 0,200 100)"
QUERIES: list[tuple[Parts, list[int], list[tuple[int, Parts]]]] = [  # a query, what always refuses it, and what can refuse it besides
    (
        {"query": "position", "coords": "POINT(0 0)"},
        [],
        [
            *ANY_GRID_QUERY,
            NO_COORDS,
            (11, {"coords": "POINT(0.5 0)"}),
            (12, {"coords": "LINESTRING(0 0,1 1)"}),
            (12, {"coords": "MULTIPOINT Z((0 0 0))"}),
            (12, {"coords": "POINT M(0 0 0)"}),
            (17, {"coords": "POINT Z(0 0 0)", "z": "0"}),
            (24, {"coords": "POINT Z(0 0 0)"}),
            (25, {"coords": "POINT(-1 0)"}),
            (26, {"collection": "wide", "coords": row_of_points(WIDE_COUNT)}),
        ],
    ),
    (
        {"query": "area", "coords": POLYGON},
        [],
        [
            *ANY_GRID_QUERY,
            NO_COORDS,
            (11, {"coords": "POLYGON((0 0,1 0,1 1,0 1))"}),
            (12, {"coords": "POINT(0 0)"}),
            (12, {"coords": "POLYGON Z((0 0 0,1 0 0,1 1 0,0 0 0))"}),
            (25, {"coords": "POLYGON((1 1,2 1,1 2,1 1))"}),
        ],
    ),
    (
        {"query": "radius", "coords": "POINT(0 0)", "within": "100", "within-units": "m"},
        [],
        [
            *ANY_GRID_QUERY,
            NO_COORDS,
            (10, {"within": None}),
            (10, {"within-units": None}),
            (11, {"coords": "POINT(0 0"}),
            (12, {"coords": "MULTIPOINT(0 0)"}),
            (16, {"within": "1.0001", "within-units": "km"}),
            (16, {"within": "400000001"}),
            (16, {"within-units": "miles"}),
            (17, {"coords": "POINT Z(0 0 0)", "z": "0"}),
            (24, {"coords": "POINT Z(0 0 0)"}),
            (25, {"coords": "POINT(-101 0)"}),
        ],
    ),
    (
        {"query": "cube", "bbox": "0,0,100,100"},
        [],
        [
            *ANY_GRID_QUERY,
            (10, {"bbox": None}),
            (13, {"bbox": "200,0,100,100"}),
            (13, {"bbox": "0,0,100"}),
            (17, {"bbox": "0,0,0,1,1,1", "z": "0"}),
            (24, {"bbox": "0,0,0,1,1,1"}),
            (25, {"bbox": "1,1,2,2"}),
        ],
    ),
    (
        {"query": "trajectory", "coords": LINE},
        [],
        [
            *ANY_GRID_QUERY,
            NO_COORDS,
            (11, {"coords": "LINESTRING M(0 0 5,1 1 4)"}),
            (12, {"coords": POLYGON}),
            (17, {"coords": "LINESTRING M(0 0 4,1 1 5)", "datetime": T0}),
            (17, {"coords": "LINESTRING Z(0 0 4,1 1 5)", "z": "0"}),
            (24, {"coords": "LINESTRING Z(0 0 4,1 1 5)"}),
            (25, {"coords": "LINESTRING(-1 0,-2 0)"}),
        ],
    ),
    (
        {"query": "corridor", "coords": LINE, "corridor-width": "100", "width-units": "m"},
        [],
        [
            *ANY_GRID_QUERY,
            NO_COORDS,
            (10, {"corridor-width": None}),
            (10, {"width-units": None}),
            (10, {"corridor-height": "10", "height-units": None}),
            (10, {"corridor-height": None, "height-units": "m"}),
            (10, {"coords": "LINESTRING Z(0 0 4,1 1 5)", "corridor-height": None, "height-units": None}),
            (11, {"coords": "LINESTRING(0 0)"}),
            (12, {"coords": "POINT(0 0)"}),
            (16, {"corridor-width": "1.5"}),
            (16, {"corridor-height": "10", "height-units": "ft"}),
            (17, {"corridor-height": "10", "height-units": "m", "z": "0/20"}),
            (17, {"coords": "LINESTRING Z(0 0 4,1 1 5)", "corridor-height": "10", "height-units": "m", "z": "0"}),
            (24, {"coords": "LINESTRING Z(0 0 4,1 1 5)", "corridor-height": "10", "height-units": "m"}),
            (25, {"coords": "LINESTRING(-1000 0,-2000 0)"}),
        ],
    ),
    ({"query": "locations/A"}, [21], [*ANY_QUERY, (7, {"coords": "POINT(0 0)"})]),
]


def target_of(parts: Parts, turned: bool) -> str:
    """The target with these parts, its pairs the other way round where it is turned. A name that stands twice has a space in its key."""
    within = f"/instances/{parts['instance']}" if parts.get("instance") else ""
    path = f"/collections/{parts['collection']}{within}/{parts['query']}"
    pairs = [f"{name.strip()}={value}" for name, value in parts.items() if name not in PATH_PARTS and value is not None]
    return f"{path}?{'&'.join(reversed(pairs) if turned else pairs)}"


def meet(one: tuple[int, Parts], other: tuple[int, Parts]) -> bool:
    """Whether two causes can be met at once: they are of two refusals, and have no part in common."""
    return one[0] != other[0] and not one[1].keys() & other[1].keys()


def query_refusals() -> list[AskRow]:
    """Each refusal of each query, and each two of them that can be met at once."""
    found = []
    for base, always, causes in QUERIES:
        singles = [[cause] for cause in causes] + [[]] * len(always)
        pairs = [list(pair) for pair in itertools.combinations(causes, 2) if meet(*pair)]
        for some in singles + pairs:
            parts: Parts = {"collection": "g", **base}
            for _, change in some:
                parts.update(change)
            number = min([number for number, _ in some] + always)
            of_wide = any(number == 26 for number, _ in some)
            found.append(AskRow(WIDE_FEED if of_wide else GRID, target_of(parts, len(some) == 2), refusal=number))
    return found


def shared_refusals() -> list[AskRow]:
    """Two refusals of one and the same part."""
    return [
        *refused(7, "/collections/g/position?colour=red&colour=red", "/collections/g/position?colour=red", "/collections/g/position?=x"),
        *refused(7, POSITION + "POINT(0 0)&bbox=0,0,1,1", POSITION + "POINT(0 0)&within=1", POSITION + "POINT(0 0)&f%20=json"),
        *refused(8, POSITION + "POINT(0.5 0)&coords=x", POSITION + "POINT(0 0)&f=XML&f=XML", POSITION + "POINT(0 0)&crs=x&crs=y"),
        *refused(8, POSITION + "POINT(0 0)&coo%72ds=POINT(0 0)", POSITION + "POINT(0 0)&z=20/0&z=0"),
        *refused(12, POSITION + f"POINT M(0 0 0){AT_T0}", POSITION + "MULTIPOINT Z((0 0 0))&z=0", POSITION + "POINT ZM(0 0 0 0)&z=0"),
        *refused(15, POSITION + "POINT Z(0 0 0)&z=20/0", POSITION + "POINT Z(-1 0 0)&z="),
        *refused(17, POSITION + "POINT Z(-1 0 0)&z=0", POSITION + "POINT Z(0 0 0)&z=0/1", POSITION + "POINTZ(0 0 10)&z=10"),
        *refused(17, POSITION + "POINT Z(0 0 0)&z=0", POSITION + "POINT Z(0 0 10)&z=10", feed=DEEP_FEED),
        *refused(24, POSITION + "POINT Z(-1 0 0)", POSITION + "POINT(-1 0)&z=0", POSITION + "MULTIPOINT(-1 0)&z=0/1"),
        *refused(19, "/collections/bare/locations/A", "/collections/bare/position?coords=POINT(0 0)&z=0&crs=x&parameter-name=zz"),
        *refused(18, "/collections/none/locations/A", "/collections/none/instances/1/position?coords=POINT(0 0)"),
    ]


def page_refusals() -> list[AskRow]:
    """Refusals of the pages that describe."""
    pages = ["/", "/conformance", "/collections", "/collections/g", "/collections/g/instances", "/collections/g/instances/1"]
    pages += ["/collections/g/locations", "/collections/none", "/collections/none/instances", "/collections/none/locations"]
    pages += ["/collections/g/instances/9", "/collections/none/instances/1", "/collections/bare/instances/1"]
    found = []
    for path in pages:
        found += refused(7, f"{path}?coords=POINT(0 0)", f"{path}?datetime={T0}", f"{path}?f=json&F=json", f"{path}?x=1&x=1&f=x", f"{path}?&=")
        found += refused(8, f"{path}?f=json&f=json", f"{path}?f=x&f=json")
        found += refused(9, f"{path}?f=CoverageJSON", f"{path}?f=", f"{path}?f", f"{path}?f=application/prs.coverage%2Bjson", f"{path}?f=json+")
    found += refused(18, *[path + "?f=json" for path in pages if "none" in path])
    found += refused(18, *[path for path in pages if "none" in path], "/collections/G", "/collections/g%20", "/collections/g%00", "/collections/%zz")
    found += refused(19, "/collections/g/instances/9", "/collections/g/instances/01", "/collections/bare/instances/1?f=json")
    found += refused(21, "/collections/g/locations", "/collections/bare/locations", "/collections/g/locations/?f=APPLICATION/Json")
    return found


def rows() -> list[AskRow]:
    """All of them."""
    return query_refusals() + shared_refusals() + page_refusals()
