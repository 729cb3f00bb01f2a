"""Spellings of paths, of formats, and of points."""

from plain.worked.grids.texts import AT_T0, POSITION, AskRow
from plain.worked.grids.usual import POLYGON, answered, point, refused, several_of_one


def path_rows() -> list[AskRow]:
    """Paths that are no page, and other spellings of pages."""
    at = f"?coords=POINT(0 0){AT_T0}"
    none = ["", "collections", "?", "//", "/x", "/Collections", "/collections//", "/collections//position", "/collections/g/position//", "/."]
    none += ["/collections/g/items", "/collections/g/Position", "/collections/g/instances/1/instances", "/collections/g/instances/1/locations"]
    none += ["/collections/g/instances/1/locations/A", "/collections/g/instances/1/position/x", "/collections/g/position/x", "/conformance/x"]
    none += ["/collections/%FF", "/collections/g%FF/position", "/collections%2Fg/position", "/collections/g/instances//position", "/%2F"]
    none += ["/collections/g/locations/A/x", "/collections/g/locations/%FF", "http://a/conformance"]
    same = ["/collections/g/position/", "/collections/%67/position", "/c%6Fllections/g/%70osition/", "/collections/g/instances/1/position/"]
    same += ["/collections/g/instances/%31/position"]
    return [
        *refused(6, *none),
        *refused(6, *[f"{path}?coords=x&f=x&colour=red" for path in none if "?" not in path]),
        *answered(point(0, 0), *[path + at for path in same], f"/collections/g/position?&&coords=POINT(0 0){AT_T0}&"),
        *answered(point(0, 0), "/collections/g/position?c%6Fords=POINT%280+0%29&datetime=2024-01-01T00%3A00%3A00Z"),
        *answered('{"conformsTo":[]}', "/conformance", "/conformance/", "/conformance?", "/conformance?f=json", "/conformance?f=Application/JSON"),
        *refused(7, "/conformance??", "/?f=json?f=json&g"),
        *refused(9, "/conformance?f=json?", "/conformance?f=application%2Fjson+"),
    ]


def format_rows() -> list[AskRow]:
    """What `f` may be in a query."""
    asked = f"{POSITION}POINT(0 0){AT_T0}&f="
    good = ["json", "JSON", "CoverageJSON", "coveragejson", "application/prs.coverage%2Bjson", "APPLICATION/prs.coverage%2bJSON"]
    bad = ["", "application/prs.coverage+json", "application/json", "xml", "json%20", "geojson"]
    return answered(point(0, 0), *[asked + each for each in good]) + refused(9, *[asked + each for each in bad])


def geometry_rows() -> list[AskRow]:
    """Spellings of a point, and what is none."""
    good = ["point(0 0)", "POINT%20(0%200)", "+PoInT%09(+0%0A%0D+0+)+", "POINT(-0 .0)", "POINT(0.00 000)", "POINT(%2B0 0.)", "POINT(+0 0)"]
    bad = ["", "POINT", "POINT EMPTY", "POINT()", "POINT(0)", "POINT(0 0 0)", "POINT(0,0)", "POINT((0 0))", "POINT(0 0))", "POINT(0 0", "POINT(1e3 0)"]
    bad += ["POINT(- 0 0)", "POINT Z(0 0)", "POINT ZZ(0 0 0)", "POINT X(0 0)", "SRID=1;POINT(0 0)", "POINT(0 0)x", "POINT(0x0 0)", "POINT(. 0)"]
    bad += ["POINT(100000001 0)", "POINT(0 -100000001)", "POINT Z(0 0 100000001)", "POINT M(0 0 253402300800)", "POINT(99999999999999999999 0)"]
    bad += ["MULTIPOINT()", "MULTIPOINT(0 0,)", "MULTIPOINT((0 0)(0 0))", "MULTIPOINT(((0 0)))", "MULTIPOINT EMPTY", "%FF", "POINT%C2%A0(0 0)"]
    bad += [f"MULTIPOINT({','.join(['0 0'] * 10_001)})", "LINESTRING M(0 0 5,1 1 4)", "POLYGON((0 0,1 0,0 0))"]
    other = ["LINESTRING(0 0,1 1)", POLYGON, f"MULTIPOLYGON({POLYGON[7:]})", "POINT M(0 0 253402300799)", "POINT ZM(0 0 0 0)", "MULTIPOINT Z(0 0 0)"]
    return [
        *answered(point(0, 0), *[f"{POSITION}{each}{AT_T0}" for each in good]),
        *answered(several_of_one(), f"{POSITION}MULTIPOINT({','.join(['0 0'] * 10_000)}){AT_T0}"),
        *refused(11, *[POSITION + each for each in bad]),
        *refused(12, *[POSITION + each for each in other]),
        *refused(25, POSITION + "POINT(100000000 0)", POSITION + "POINT(0 -100000000)"),
    ]


def rows() -> list[AskRow]:
    """All of them."""
    return path_rows() + format_rows() + geometry_rows()
