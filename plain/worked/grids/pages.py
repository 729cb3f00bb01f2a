"""Pages that describe, and ids that need escapes."""

from plain.worked.grids.places import TURNED_ALL
from plain.worked.grids.texts import A, B, PUBLISH, AskRow, T0, T1, TYX, collection, feed, grid, instance, values
from plain.worked.grids.usual import DEEP_FEED, DEEP_GRID, POLYGON, USUAL, alone, answered, refused

LANDING = '{"links":[{"href":"/collections","rel":"data"},{"href":"/conformance","rel":"conformance"}],"title":"EDR"}'
NEWEST = grid(f'"x":{values(-5)},"y":{values(5, 10)},"t":{values(T1)}', TYX, "1,2,1", {"a": "7,8"}, A)
PAGES = feed(collection("g", 'The "grid"', vertical="depth"), instance("g", "9", NEWEST), instance("g", "10", DEEP_GRID), PUBLISH)
COLLECTION_PAGE = (
    '{"crs":["local"],"data_queries":{"area":{"link":{"href":"/collections/g/area","rel":"data"}},'
    '"corridor":{"link":{"href":"/collections/g/corridor","rel":"data"}},"cube":{"link":{"href":"/collections/g/cube","rel":"data"}},'
    '"instances":{"link":{"href":"/collections/g/instances","rel":"data"}},"position":{"link":{"href":"/collections/g/position","rel":"data"}},'
    '"radius":{"link":{"href":"/collections/g/radius","rel":"data"}},"trajectory":{"link":{"href":"/collections/g/trajectory","rel":"data"}}},'
    '"extent":{"spatial":{"bbox":[[-5,5,-5,10]],"crs":"local"},"temporal":{"interval":[["2024-01-01T01:00:00Z","2024-01-01T01:00:00Z"]]}},'
    '"id":"g","links":[],"output_formats":["CoverageJSON"],'
    '"parameter_names":{"a":{"observedProperty":{"label":{"en":"Air"}},"type":"Parameter","unit":{"symbol":"Cel"}}},"title":"The \\"grid\\""}'
)
NEWEST_PAGE = (
    '{"crs":["local"],"data_queries":{"area":{"link":{"href":"/collections/g/instances/9/area","rel":"data"}},'
    '"corridor":{"link":{"href":"/collections/g/instances/9/corridor","rel":"data"}},'
    '"cube":{"link":{"href":"/collections/g/instances/9/cube","rel":"data"}},'
    '"position":{"link":{"href":"/collections/g/instances/9/position","rel":"data"}},'
    '"radius":{"link":{"href":"/collections/g/instances/9/radius","rel":"data"}},'
    '"trajectory":{"link":{"href":"/collections/g/instances/9/trajectory","rel":"data"}}},'
    '"extent":{"spatial":{"bbox":[[-5,5,-5,10]],"crs":"local"},"temporal":{"interval":[["2024-01-01T01:00:00Z","2024-01-01T01:00:00Z"]]}},'
    '"id":"9","links":[],"output_formats":["CoverageJSON"],'
    '"parameter_names":{"a":{"observedProperty":{"label":{"en":"Air"}},"type":"Parameter","unit":{"symbol":"Cel"}}},"title":"The \\"grid\\""}'
)
DEEP_EXTENT = (
    '"extent":{"spatial":{"bbox":[[0,0,100,0]],"crs":"local"},"temporal":{"interval":[["2024-01-01T00:00:00Z","2024-01-01T01:00:00Z"]]},'
    '"vertical":{"interval":[[0,20]]}}'
)
NEWEST_EXTENT = NEWEST_PAGE[NEWEST_PAGE.index('"extent"') : NEWEST_PAGE.index(',"id"')]
OLDER_PAGE = NEWEST_PAGE.replace("/instances/9/", "/instances/10/").replace('"id":"9"', '"id":"10"').replace(NEWEST_EXTENT, DEEP_EXTENT)
EMPTY_COLLECTIONS, EMPTY_INSTANCES = '{"collections":[],"links":[]}', '{"instances":[],"links":[]}'


def page(path: str, id_: str, title: str = '"Title"', extent: str = "", parameters: str = "", crs: str = '"local"') -> str:
    """A page of a collection, or of an instance, whose path is given as in links and all else as JSON."""
    names = ["area", "corridor", "cube", "position", "radius", "trajectory"]
    if "/instances/" not in path:
        names.insert(3, "instances")
    links = ",".join(f'"{name}":{{"link":{{"href":"{path}/{name}","rel":"data"}}}}' for name in names)
    rest = f'"id":{id_},"links":[],"output_formats":["CoverageJSON"],"parameter_names":{{{parameters}}},"title":{title}'
    return f'{{"crs":[{crs}],"data_queries":{{{links}}},' + (f"{extent}," if extent else "") + f"{rest}}}"


def description_rows() -> list[AskRow]:
    """The pages of one feed, of an empty collection, and of no collection."""
    bare = feed(collection("bare"), PUBLISH)
    bare_page = page("/collections/bare", '"bare"')
    untold = feed(collection("bare", "", "", ""), PUBLISH)
    none = feed(PUBLISH)
    at = "/position?coords=POINT(0 0)"
    usual_extent = DEEP_EXTENT[: DEEP_EXTENT.index(',"vertical"')].replace("[0,0,100,0]", "[0,0,200,100]") + "}"
    usual_page = page("/collections/g", '"g"', '"Grid"', usual_extent, f"{A},{B}")
    of_bare = page("/collections/grid", '"grid"', '"grid"', usual_extent, f"{A},{B}")
    unnamed = [of_bare.replace('"local"', '""'), of_bare.replace("/grid/", "/grid/instances/1/").replace('"id":"grid"', '"id":"1"').replace('"local"', '""')]
    unnamed[1] = unnamed[1].replace('"instances":{"link":{"href":"/collections/grid/instances/1/instances","rel":"data"}},', "")
    return [
        *answered(usual_page, "/collections/g") + answered(f'{{"collections":[{bare_page},{usual_page}],"links":[]}}', "/collections"),
        *answered(usual_page, "/collections/g", feed=feed(collection("g", "Grid"), instance("g", "1", TURNED_ALL), PUBLISH)),
        *answered(page("/collections/g", '"g"', '"Deep"', DEEP_EXTENT, A), "/collections/g", feed=DEEP_FEED),
        *answered(of_bare, "/collections/grid", feed=feed(USUAL)),
        *answered(unnamed[0], "/collections/grid", feed=feed(USUAL.replace('"id":"local",', ""))),
        *answered(unnamed[1], "/collections/grid/instances/1", feed=feed(USUAL.replace('"id":"local",', ""))),
        *answered(LANDING, "/", "/?", "/?f=json", "/?f=APPLICATION%2FJSON", feed=PAGES),
        *answered('{"conformsTo":[]}', "/conformance", feed=PAGES),
        *answered(f'{{"collections":[{COLLECTION_PAGE}],"links":[]}}', "/collections", "/collections/?f=Json", feed=PAGES),
        *answered(COLLECTION_PAGE, "/collections/g", "/collections/g/", "/collections/g?f=application/json", feed=PAGES),
        *answered(f'{{"instances":[{OLDER_PAGE},{NEWEST_PAGE}],"links":[]}}', "/collections/g/instances", "/collections/g/instances/", feed=PAGES),
        *answered(NEWEST_PAGE, "/collections/g/instances/9", "/collections/g/instances/%39/", feed=PAGES),
        *answered(OLDER_PAGE, "/collections/g/instances/10", feed=PAGES),
        *refused(21, "/collections/g/locations", "/collections/g/locations/9", feed=PAGES),
        *refused(19, "/collections/g/instances/1", "/collections/g/instances/1" + at, feed=PAGES),
        *answered(LANDING, "/", feed=none) + answered(EMPTY_COLLECTIONS, "/collections", feed=none) + refused(18, "/collections/g" + at, feed=none),
        *answered(bare_page, "/collections/bare", feed=bare) + answered(EMPTY_INSTANCES, "/collections/bare/instances", feed=bare),
        *answered(f'{{"collections":[{bare_page}],"links":[]}}', "/collections", feed=bare),
        *refused(19, "/collections/bare" + at, "/collections/bare/instances/1", "/collections/bare/instances/1" + at, feed=bare),
        *refused(19, "/collections/bare/locations/A", "/collections/bare/area?coords=" + POLYGON, feed=bare),
        *refused(21, "/collections/bare/locations", feed=bare) + refused(18, "/collections/Bare" + at, feed=bare),
        *answered(page("/collections/bare", '"bare"', '""', crs='""'), "/collections/bare", feed=untold),
    ]


# ids: as JSON, and in links
IDS = {
    "a b": ('"a b"', "a%20b"),
    "a/b": ('"a/b"', "a%2Fb"),
    "å": ('"å"', "%C3%A5"),
    'q"t': ('"q\\"t"', "q%22t"),
    "q\\t": ('"q\\\\t"', "q%5Ct"),
    "a+b": ('"a+b"', "a%2Bb"),
    "50%": ('"50%"', "50%25"),
    "%41": ('"%41"', "%2541"),
    "x?y#z": ('"x?y#z"', "x%3Fy%23z"),
    "!'()*": ('"!\'()*"', "%21%27%28%29%2A"),
    "~-._": ('"~-._"', "~-._"),
    "..": ('".."', ".."),
    "A09z": ('"A09z"', "A09z"),
    "😀": ('"😀"', "%F0%9F%98%80"),
    "\u2028": ('"\u2028"', "%E2%80%A8"),
    " ": ('" "', "%20"),
    "n" * 128: (f'"{"n" * 128}"', "n" * 128),
}
IDS_IN_ORDER = [" ", "!'()*", "%41", "..", "50%", "A09z", "a b", "a+b", "a/b", "n" * 128, 'q"t', "q\\t", "x?y#z", "~-._", "å", "\u2028", "😀"]


def id_rows() -> list[AskRow]:
    """Ids of collections and instances that need escapes."""
    three = grid(f'"x":{values(0)},"y":{values(0)},"t":{values(T0)}', TYX, "1,1,1", {"a": "3"}, A)
    extent = '"extent":{"spatial":{"bbox":[[0,0,0,0]],"crs":"local"},"temporal":{"interval":[["2024-01-01T00:00:00Z","2024-01-01T00:00:00Z"]]}}'
    all_ids = feed(*[collection(id_) for id_ in reversed(IDS)], PUBLISH)
    listed_pages = ",".join(page(f"/collections/{IDS[id_][1]}", IDS[id_][0]) for id_ in IDS_IN_ORDER)
    found = answered(f'{{"collections":[{listed_pages}],"links":[]}}', "/collections", feed=all_ids)
    for id_, (as_json, link) in IDS.items():
        of_id = feed(collection(id_), instance(id_, id_, three), PUBLISH)
        path = f"/collections/{link}"
        of_instance = page(f"{path}/instances/{link}", as_json, '"Title"', extent, A)
        found += answered(page(path, as_json, '"Title"', extent, A), path, f"{path}/?f=json", feed=of_id)
        found += answered(of_instance, f"{path}/instances/{link}", feed=of_id)
        found += answered(f'{{"instances":[{of_instance}],"links":[]}}', f"{path}/instances", feed=of_id)
        found += answered(alone(0, 0, "3"), f"{path}/position?coords=POINT(0 0)", f"{path}/instances/{link}/position?coords=POINT(0 0)", feed=of_id)
        found += refused(21, f"{path}/locations", f"{path}/locations/{link}", feed=of_id) + refused(18, f"{path}x", feed=of_id)
    plus = feed(collection("a b"), collection("a+b"), collection("50%"), PUBLISH)
    found += answered(page("/collections/a%2Bb", '"a+b"'), "/collections/a+b", "/collections/a%2Bb", "/collections/a%2bb", feed=plus)
    found += answered(page("/collections/a%20b", '"a b"'), "/collections/a b", "/collections/a%20b", feed=plus)
    found += answered(page("/collections/50%25", '"50%"'), "/collections/50%", "/collections/50%25", feed=plus)
    found += refused(18, "/collections/a%252Bb", "/collections/50%2525", feed=plus)
    found += refused(6, "/collections/a/b", "/collections/a/b/position?coords=POINT(0 0)", feed=all_ids)
    title = feed(collection("g", "\b\t\n\f\r\x01\x1f\x7f\"\\/å\u2028"), PUBLISH)
    told = page("/collections/g", '"g"', '"\\b\\t\\n\\f\\r\\u0001\\u001f\x7f\\"\\\\/å\u2028"')
    return found + answered(told, "/collections/g", feed=title)


def rows() -> list[AskRow]:
    """All of them."""
    return description_rows() + id_rows()
