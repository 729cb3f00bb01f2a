"""Parameters and reference systems."""

from plain.worked.grids.texts import (
    A,
    AT_T0,
    B,
    COMPOSITE,
    FLAT,
    POSITION,
    PUBLISH,
    AskRow,
    T0,
    T1,
    TIME,
    TYX,
    axes_of,
    bare_range,
    collection,
    covered,
    feed,
    grid,
    instance,
    range_along,
    tuples,
    values,
)
from plain.worked.grids.usual import alone, answered, point, refused


def parameter_rows() -> list[AskRow]:
    """Parameters by their names, in any order, and ids that need escapes."""
    asked = f"{POSITION}POINT(0 0){AT_T0}&parameter-name="
    axes = axes_of(0, 0, values(T0))
    only_b = covered("Point", axes, f'"b":{bare_range("110")}', B)
    several = covered("PointSeries", axes_of(200, 100, values(T0, T1)), f'"b":{range_along(TIME, "2", "115,null")}', B)
    pair = covered("MultiPoint", tuples(values(T0), "[0,0],[200,0]"), f'"b":{range_along(COMPOSITE, "2", "110,112")}', B)
    unknown = ["", "zz", "a,zz", "zz,a", "a,", ",a", "A", " a", "a+", "a,,b", "a;b", "a,b,a,c", "%00", "%FF", "a%2Czz"]
    # as read, and as written: an id with a quote and a backslash, one of capitals, one beyond ASCII, a unit that is an object
    odd_read = (
        '"å":{"type":"Parameter","unit":{"symbol":{"value":"m²","type":"x"}},"observedProperty":{"label":{"sv":"Å","de":"Ä"}}},'
        '"B":{"type":"Parameter","observedProperty":{"label":{"fr":"x","en":"tab\\tline\\n\\u0001\\u007f\\/"},"id":"x"}},'
        '"q\\"\\\\":{"type":"Parameter","unit":{"label":{"en":"metre"}},"observedProperty":{"label":{"en":"\\u00e5"}}},'
        '"dropped":{"type":"Parameter","observedProperty":{"label":{"en":"has no range"}}}'
    )
    first = '"B":{"observedProperty":{"label":{"en":"tab\\tline\\n\\u0001\x7f/"}},"type":"Parameter"}'
    second = '"q\\"\\\\":{"observedProperty":{"label":{"en":"å"}},"type":"Parameter","unit":{"symbol":"metre"}}'
    third = '"å":{"observedProperty":{"label":{"de":"Ä"}},"type":"Parameter","unit":{"symbol":"m²"}}'
    odd = grid(f'"x":{values(0)},"y":{values(0)},"t":{values(T0)}', TYX, "1,1,1", {"å": "3", 'q"\\': "2", "B": "1"}, odd_read)
    of_odd = feed(collection("g"), instance("g", "1", odd), PUBLISH)
    ranges = [f'"B":{bare_range("1")}', f'"q\\"\\\\":{bare_range("2")}', f'"å":{bare_range("3")}']
    outer = covered("Point", axes, f"{ranges[0]},{ranges[2]}", f"{first},{third}")
    return [
        *answered(point(0, 0), *[asked + each for each in ("a,b", "b,a", "b,a,b", "a,a,b", "a%2Cb", "%61,b")]),
        *answered(alone(0, 0, "10"), *[asked + each for each in ("a", "a,a", "%61")]),
        *answered(only_b, *[asked + each for each in ("b", "b,b,b")]),
        *answered(several, POSITION + "POINT(200 100)&parameter-name=b"),
        *answered(pair, f"{POSITION}MULTIPOINT(200 0,0 0){AT_T0}&parameter-name=b"),
        *refused(22, *[asked + each for each in unknown]),
        *refused(22, asked + "dropped", asked + "b", asked + "a", asked + 'q"', feed=of_odd),
        *answered(covered("Point", axes, ",".join(ranges), f"{first},{second},{third}"), POSITION + "POINT(0 0)", asked + 'å,q"\\,B', feed=of_odd),
        *answered(outer, asked + "%C3%A5,B", asked + "B,å,B", feed=of_odd),
        *answered(covered("Point", axes, ranges[1], second), asked + "q%22%5C", asked + 'q"\\', feed=of_odd),
    ]


def reference_rows() -> list[AskRow]:
    """`crs`, which is compared byte by byte; one that is empty, and one with a quote."""
    one_node = f'"x":{values(0)},"y":{values(0)},"t":{values(T0)}'
    at = f"{POSITION}POINT(0 0)&crs="
    one = grid(one_node, TYX, "1,1,1", {"a": "3"}, A, FLAT.replace('"id":"local",', ""))
    axes, ranges = axes_of(0, 0, values(T0)), f'"a":{bare_range("3")}'
    empty = covered("Point", axes, ranges, A, FLAT.replace('"id":"local",', ""))
    quoted = covered("Point", axes, ranges, A, FLAT.replace("local", 'a\\" +/å'))
    of_empty = feed(collection("g", crs=""), instance("g", "1", one), PUBLISH)
    of_quoted = feed(collection("g", crs='a" +/å'), instance("g", "1", one), PUBLISH)
    replacement = feed(collection("g", crs="\ufffd"), instance("g", "1", one), PUBLISH)
    return [
        *answered(point(0, 0), f"{POSITION}POINT(0 0){AT_T0}&crs=local", f"{POSITION}POINT(0 0){AT_T0}&crs=l%6Fcal"),
        *refused(23, *[at + each for each in ("", "x", "Local", "local ", "local+", "+local", "local,local", "loca", "locall")]),
        *answered(empty, at, at.removesuffix("="), POSITION + "POINT(0 0)", feed=of_empty),
        *refused(23, at + "local", at + "+", feed=of_empty),
        *answered(quoted, at + 'a" %2B/å', at + "a%22+%2B%2F%C3%A5", POSITION + "POINT(0 0)", feed=of_quoted),
        *refused(23, at + 'a" +/å', at + 'a\\" %2B/å', at + "a%22+%2B%2F%C3", at, feed=of_quoted),
        *answered(covered("Point", axes, ranges, A, FLAT.replace("local", "\ufffd")), at + "%FF", at + "%EF%BF%BD", feed=replacement),
        *refused(23, at + "%FF%FF", at + "x", feed=replacement),
    ]


def rows() -> list[AskRow]:
    """All of them."""
    return parameter_rows() + reference_rows()
