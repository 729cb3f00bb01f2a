"""Pages that describe stations; labels and ids of any text; feeds of several editions."""

from dataclasses import replace

from plain.worked.grids.pages import IDS, IDS_IN_ORDER
from plain.worked.grids.pages import page as grid_page
from plain.worked.grids.texts import A, B, PUBLISH, collected, collection, feed, instance
from plain.worked.grids.usual import USUAL
from plain.worked.runs import Row
from plain.worked.stations.feeds import DROP
from plain.worked.stations.levels import MAST_SITES
from plain.worked.stations.places import USUAL_SITES
from plain.worked.stations.texts import Site, answered, at, by_nearest, cube, drop_line, location, moment, refused, sites_line, within

LOCATIONS = "/collections/sites/locations"
NO_FEATURES = '{"features":[],"type":"FeatureCollection"}'


def extent(box: str, first: int, last: int, levels: str = "", crs: str = '"local"') -> str:
    """An extent: its box, its times as hours, and its levels where it has some."""
    vertical = f',"vertical":{{"interval":[[{levels}]]}}' if levels else ""
    return f'"extent":{{"spatial":{{"bbox":[[{box}]],"crs":{crs}}},"temporal":{{"interval":[["{moment(first)}","{moment(last)}"]]}}{vertical}}}'


def page(path: str, id_: str, told: str = "", parameters: str = "", title: str = '"Title"', crs: str = '"local"', is_near: bool = False) -> str:
    """The page of a collection of stations, whose path is given as in links and all else as JSON."""
    names = ["area", "corridor", "cube", "locations", *["position"] * is_near, "radius"]
    links = ",".join(f'"{name}":{{"link":{{"href":"{path}/{name}","rel":"data"}}}}' for name in names)
    rest = f'"id":{id_},"links":[],"output_formats":["CoverageJSON"],"parameter_names":{{{parameters}}},"title":{title}'
    return f'{{"crs":[{crs}],"data_queries":{{{links}}},' + (f"{told}," if told else "") + f"{rest}}}"


def paged(id_: str, more: list[str], *targets: str, feed: str) -> list[Row]:
    """Rows of the page of a collection, which lists the query of the nearest station later."""
    pages = [page(f"/collections/{id_}", f'"{id_}"', *more, is_near=is_near) for is_near in (False, True)]
    return by_nearest(*[answered(each, *targets, feed=feed) for each in pages])


def feature(x: int, y: int, id_: str, label: str) -> str:
    """A station of a page, its id and label given as JSON."""
    return f'{{"geometry":{{"coordinates":[{x},{y}],"type":"Point"}},"id":{id_},"properties":{{"label":{label}}},"type":"Feature"}}'


def features(*some: str) -> str:
    """The page of stations."""
    return f'{{"features":[{",".join(some)}],"type":"FeatureCollection"}}'


def description_rows() -> list[Row]:
    """Collections of stations, with levels and without, beside a grid; and their stations."""
    usual, deep = extent("-300,0,100,400", 0, 3), extent("0,0,30,0", 0, 1, "0,50")
    both = f"{A},{B}"
    grid = grid_page("/collections/g", '"g"', '"Title"', extent("0,0,200,100", 0, 1), both)
    usual_places = (("far", -300, 400), ("s1", 100, 0), ("s10", 0, 0), ("s9", 0, 0))
    usual_features = features(*[feature(x, y, f'"{id_}"', '"Label"') for id_, x, y in usual_places])
    mast_features = features(*[feature(10 * place, 0, f'"m{place + 1}"', '"Label"') for place in range(4)])
    found = paged("sites", [usual, both], "/collections/sites", "/collections/sites/?f=json", feed=USUAL_SITES)
    found += paged("bare", [], "/collections/bare", feed=USUAL_SITES) + paged("sites", [deep, both], "/collections/sites", feed=MAST_SITES)
    found += answered(grid, "/collections/g", feed=USUAL_SITES)
    found += answered(usual_features, *[LOCATIONS + more for more in ("", "/", "?f=JSON", "/?f=application/json")], feed=USUAL_SITES)
    found += answered(mast_features, LOCATIONS, feed=MAST_SITES) + answered(NO_FEATURES, "/collections/bare/locations", feed=USUAL_SITES)
    all_pages = []
    for is_near in (False, True):
        bare = page("/collections/bare", '"bare"', is_near=is_near)
        sites = page("/collections/sites", '"sites"', usual, both, is_near=is_near)
        all_pages.append(f'{{"collections":[{bare},{grid},{sites}],"links":[]}}')
    found += by_nearest(*[answered(each, "/collections", feed=USUAL_SITES) for each in all_pages])
    titled = feed(sites_line(title='The "sites"\\\n', crs='a"b', vertical="x"), PUBLISH)
    found += paged("sites", ["", "", '"The \\"sites\\"\\\\\\n"', '"a\\"b"'], "/collections/sites", feed=titled)
    wide = [Site("p", 100_000_000, -100_000_000, [5], {"a": [1]}), Site("q", -100_000_000, 0, [2, 7], {"a": [1, 2]})]
    wide.append(Site("r", 0, 7, [-1], {"a": [None]}))
    told = extent("-100000000,-100000000,100000000,7", -1, 7)
    found += paged("sites", [told, A], "/collections/sites", feed=feed(sites_line(), *[site.line() for site in wide], PUBLISH))
    found += refused(7, "/collections/sites/locations?coords=POINT(0 0)", "/collections/sites?z=0", feed=USUAL_SITES)
    found += refused(9, LOCATIONS + "?f=CoverageJSON", feed=USUAL_SITES) + refused(8, LOCATIONS + "?f=json&f=json", feed=USUAL_SITES)
    return found + refused(18, "/collections/none/locations", "/collections/Sites/locations", "/collections/site", feed=USUAL_SITES)


# labels, as they are written
LABELS = {
    "": '""',
    '"': '"\\""',
    "\\": '"\\\\"',
    "/": '"/"',
    "\b\t\n\f\r": '"\\b\\t\\n\\f\\r"',
    "\0\x01\x0b\x1b\x1f": '"\\u0000\\u0001\\u000b\\u001b\\u001f"',
    "\x7f\x80\x9f": '"\x7f\x80\x9f"',
    "å\u07ff": '"å\u07ff"',
    "\u0800\u2028\ufeff\uffff": '"\u0800\u2028\ufeff\uffff"',
    "\U00010000😀\U0010ffff": '"\U00010000😀\U0010ffff"',
    'a\\"b\\n': '"a\\\\\\"b\\\\n"',
    "a,b <&> ' ": '"a,b <&> \' "',
    "l" * 5000: f'"{"l" * 5000}"',
}


def label_rows() -> list[Row]:
    """Labels of any text, which stand as they are or behind escapes in a feed, and ids beside them."""
    some = [Site(chr(ord("a") + place), place, -place, [0], {"a": [1]}, label=label) for place, label in enumerate(LABELS)]
    lines = [site.line() for site in some]
    escaped = [_escaped(line) for line in lines]
    told = features(*[feature(site.x, site.y, f'"{site.id}"', LABELS[site.label]) for site in some])
    found = answered(told, LOCATIONS, feed=feed(sites_line(), *lines, PUBLISH))
    found += answered(told, LOCATIONS, feed=feed(sites_line(), *escaped, PUBLISH))
    return found + answered(some[1].reply(), location("b"), feed=feed(sites_line(), *reversed(lines), PUBLISH))


def _escaped(line: str) -> str:
    """A line of JSON with escapes in place of all that isn't ASCII."""
    units = line.encode("utf-16-be")
    numbers = [units[at] * 256 + units[at + 1] for at in range(0, len(units), 2)]
    return "".join(chr(each) if each < 0x80 else f"\\u{each:04X}" for each in numbers)


def id_rows() -> list[Row]:
    """Ids of stations and collections that need escapes, or that begin one another."""
    some = {id_: Site(id_, place, 0, [0], {"a": [place]}, label=id_) for place, id_ in enumerate(IDS)}
    all_ids = feed(sites_line(), *[site.line() for site in some.values()], PUBLISH)
    told = features(*[feature(some[id_].x, 0, IDS[id_][0], IDS[id_][0]) for id_ in IDS_IN_ORDER])
    found = answered(told, LOCATIONS, feed=all_ids)
    found += answered(collected(*[some[id_].reply() for id_ in IDS_IN_ORDER]), cube("0,0,99,0"), feed=all_ids)
    for id_, (as_json, link) in IDS.items():
        found += answered(some[id_].reply(), location(link), location(link + "/", at(0)), feed=all_ids)
        found += answered(some[id_].reply(), location("".join(f"%{byte:02x}" for byte in id_.encode("utf-8"))), feed=all_ids)
        found += refused(20, location(link + "x"), location("x" + link), location(link + "%00"), feed=all_ids)
        of_id = feed(sites_line(id_), some[id_].line(id_), PUBLISH)
        found += answered(some[id_].reply(), f"/collections/{link}/locations/{link}", feed=of_id)
        box = f"{some[id_].x},0,{some[id_].x},0"
        pages = [page(f"/collections/{link}", as_json, extent(box, 0, 0), A, is_near=near) for near in (False, True)]
        found += by_nearest(*[answered(each, f"/collections/{link}", feed=of_id) for each in pages])
    found += answered(some["a+b"].reply(), location("a+b"), feed=all_ids) + answered(some["a b"].reply(), location("a b"), feed=all_ids)
    found += answered(some["50%"].reply(), location("50%"), feed=all_ids) + refused(20, location("a%252Bb"), location("%41"), feed=all_ids)
    found += refused(6, location("a/b"), location("%F0%9F%98"), feed=all_ids)
    as_set = ["ab", "a", "abc", "aé", "e", "é", "aa", "A", "b", "10", "9", "1"]
    prefixes = {id_: Site(id_, 0, place, [0], {"a": [place]}) for place, id_ in enumerate(as_set)}
    of_prefixes = feed(sites_line(), *[site.line() for site in prefixes.values()], PUBLISH)
    order = ["1", "10", "9", "A", "a", "aa", "ab", "abc", "aé", "b", "e", "é"]
    found += answered(collected(*[prefixes[id_].reply() for id_ in order]), within(11), feed=of_prefixes)
    found += answered(features(*[feature(0, prefixes[id_].y, f'"{id_}"', '"Label"') for id_ in order]), LOCATIONS, feed=of_prefixes)
    for id_, site in prefixes.items():
        found += answered(site.reply(), location(id_.replace("é", "%C3%A9")), feed=of_prefixes)
    return found + refused(20, *[location(id_) for id_ in ("abcd", "B", "0", "100", "%C3%A9%C3%A9", "e%CC%81", "a%C3%A8")], feed=of_prefixes)


def edition_rows() -> list[Row]:
    """Stations replaced and dropped, the last one too, and what isn't published."""
    one, two = Site("A", 0, 0, [0], {"a": [1]}, label="One"), Site("B", 5, 0, [1], {"a": [2]}, label="Two")
    moved = replace(one, x=3, times=[0, 1], samples={"a": [8, 9]}, label="Moved")
    other = Site("C", 1, 1, [0], {"b": [3]}, (4,))
    renamed = replace(other, id="A")
    start = feed(sites_line(vertical="depth"), one.line(), two.line(), PUBLISH)
    empty = start + feed(drop_line("A"), drop_line("B"))
    cases: list[tuple[str, list[Site], str, str]] = [  # a feed, its stations at last, what is told of them, and their parameters
        (start, [one, two], extent("0,0,5,0", 0, 1), A),
        (start + feed(moved.line(), PUBLISH), [moved, two], extent("3,0,5,0", 0, 1), A),
        (start + feed(moved.line()), [one, two], extent("0,0,5,0", 0, 1), A),
        (start + feed(moved.line(), one.line(), PUBLISH), [one, two], extent("0,0,5,0", 0, 1), A),
        (start + feed(drop_line("A"), PUBLISH), [two], extent("5,0,5,0", 1, 1), A),
        (start + feed(drop_line("B"), PUBLISH), [one], extent("0,0,0,0", 0, 0), A),
        (start + feed(drop_line("A")), [one, two], extent("0,0,5,0", 0, 1), A),
        (empty + feed(PUBLISH), [], "", ""),
        (empty + feed(other.line(), PUBLISH), [other], extent("1,1,1,1", 0, 0, "4,4"), B),
        (empty + feed(PUBLISH, two.line(), PUBLISH), [two], extent("5,0,5,0", 1, 1), A),
        (start + feed(DROP, sites_line(vertical="depth"), other.line(), PUBLISH), [other], extent("1,1,1,1", 0, 0, "4,4"), B),
        (feed(sites_line(vertical="depth"), one.line(), renamed.line(), PUBLISH), [renamed], extent("1,1,1,1", 0, 0, "4,4"), B),
    ]
    found = []
    for of_sites, sites, told, parameters in cases:
        whole = cube("0,0,9,9")
        found += answered(collected(*[site.reply() for site in sites]), whole, feed=of_sites) if sites else refused(25, whole, feed=of_sites)
        found += paged("sites", [told, parameters], "/collections/sites", feed=of_sites)
        told = features(*[feature(site.x, site.y, f'"{site.id}"', f'"{site.label}"') for site in sites])
        found += answered(told, LOCATIONS, feed=of_sites)
        ids = {site.id: site for site in sites}
        for id_ in "ABC":
            found += answered(ids[id_].reply(), location(id_), feed=of_sites) if id_ in ids else refused(20, location(id_), feed=of_sites)
    gone = start + feed(DROP, PUBLISH)
    found += refused(18, location("A"), "/collections/sites", LOCATIONS, cube("0,0,9,9"), feed=gone)
    turned = start + feed(DROP, collection("sites"), instance("sites", "A", USUAL), PUBLISH)
    return found + refused(21, location("A"), LOCATIONS, feed=turned)


def rows() -> list[Row]:
    """All of them."""
    return description_rows() + label_rows() + id_rows() + edition_rows()
