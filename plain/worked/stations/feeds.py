"""Feeds of stations that are checked: each fault of a line, each two that can meet, and what is told of feeds without one."""

import itertools
from dataclasses import dataclass, replace

from plain.worked.grids.texts import A, B, FLAT, PUBLISH, T0, collection, feed, instance, text
from plain.worked.grids.usual import USUAL
from plain.worked.runs import Row
from plain.worked.stations.levels import MAST_SITES
from plain.worked.stations.places import USUAL_SITES
from plain.worked.stations.texts import Site, drop_line, location, sites_line

DROP = '{"drop":{"collection":"sites"}}'


def at_fault(name: str, line: int, inner: str, of_line: str) -> list[Row]:
    """Rows of a feed at fault: what `check` says, and which fault of a coverage or a change it is."""
    told = f"{name}({line})" + (f" {inner}" if inner else "")
    return [Row(("check",), of_line, 2, "", f"feed: {name} line {line}\n"), Row(("feed",), of_line, 0, told)]


def checked(editions: int, *summary: str, feed: str) -> list[Row]:
    """Rows of a feed without fault: how many editions it has, and the line of each."""
    lines = "".join(f"edition {number}: {line}\n" for number, line in enumerate(summary, 1))
    found = [Row(("check",), feed, 0, f"ok: {editions} editions\n")]
    return found + ([Row(("check", "--summary"), feed, 0, lines)] if summary else [])


# A line that sets a station, by its parts


@dataclass(frozen=True)
class Parts:
    """The parts of a line that sets a station of one time, of which each can be at fault."""

    collection: str = "sites"
    id: str = '"B"'
    label: str = '"B"'
    domain: str = "Grid"
    x: str = "0"
    y: str = "0"
    t: str = f'"{T0}"'
    z: str = ""
    crs: str = "local"
    parameters: str = f"{A},{B}"
    names: str = "ab"
    form: str = "integer"

    def line(self) -> str:
        """The line."""
        axes = {name: getattr(self, name).split(",") for name in "tzyx" if getattr(self, name)}
        count = 1
        for values in axes.values():
            count *= len(values)
        along, shape = ",".join(f'"{name}"' for name in axes), ",".join(str(len(values)) for values in axes.values())
        form = f'"type":"NdArray","dataType":"{self.form}","axisNames":[{along}],"shape":[{shape}],"values":[{",".join(["1"] * count)}]'
        all_axes = ",".join(f'"{name}":{{"values":[{",".join(values)}]}}' for name, values in axes.items())
        domain = f'{{"type":"Domain","domainType":"{self.domain}","axes":{{{all_axes}}},"referencing":{FLAT.replace("local", self.crs)}}}'
        ranges = ",".join(f'"{name}":{{{form}}}' for name in self.names)
        coverage = f'{{"type":"Coverage","domain":{domain},"parameters":{{{self.parameters}}},"ranges":{{{ranges}}}}}'
        return f'{{"station":{{"collection":{text(self.collection)},"id":{self.id},"label":{self.label},"coverage":{coverage}}}}}'


Cause = tuple[int, str, str, dict[str, str]]  # its place in the order, the fault of the line, the inner one, and the parts that bring it about
CAUSES: list[Cause] = [
    (1, "NotFeedLine", "", {"label": "1"}),
    (1, "NotFeedLine", "", {"id": '""'}),
    (2, "Cov", "UnsupportedRange(float)", {"form": "float"}),
    (3, "Change", "UnknownCollection", {"collection": "none"}),
    (4, "Change", "WrongKind", {"collection": "g"}),
    (4, "Change", "WrongKind", {"domain": "Point"}),
    (4, "Change", "WrongKind", {"x": "0,1"}),
    (4, "Change", "WrongKind", {"y": "-1,0"}),
    (5, "Change", "NoTimes", {"t": ""}),
    (6, "Change", "CrsDiffers", {"crs": "Local"}),
    (7, "Change", "ParametersDiffer(a)", {"names": "b"}),
    (7, "Change", "ParametersDiffer(b)", {"parameters": f'{A},{B.replace("Regen", "regen")}'}),
    (8, "Change", "LevelsDiffer", {"z": "5"}),
]
DEEP_CAUSES: list[Cause] = [*[cause for cause in CAUSES if "z" not in cause[3]], (8, "Change", "LevelsDiffer", {"z": ""})]
FLAT_START = feed(sites_line(), collection("g"), Parts(id='"A"').line())
DEEP_START = FLAT_START.replace(Parts(id='"A"').line(), Parts(id='"A"', z="0,7").line())


def pair_rows() -> list[Row]:
    """Each fault of a line that sets a station, and each two; beside a station without levels, and beside one with some."""
    found = []
    for start, base, causes in ((FLAT_START, Parts(), CAUSES), (DEEP_START, Parts(z="5"), DEEP_CAUSES)):
        found += checked(1, feed=start + feed(base.line(), PUBLISH))
        for some in [(cause,) for cause in causes] + list(itertools.combinations(causes, 2)):
            changes = [cause[3] for cause in some]
            kinds = {name: value for change in changes for name, value in change.items()}
            if sum(map(len, changes)) != len(kinds) or (kinds.get("domain") == "Point" and ("x" in kinds or "y" in kinds)):
                continue  # they are of one part, or of a Point with several places, which is a fault of the coverage
            _, name, inner, _ = min(some, key=lambda cause: cause[:1] + (cause[2] if cause[0] == 7 else "",))
            found += at_fault(name, 4, inner, start + feed(replace(base, **kinds).line(), PUBLISH))
    return found


# Forms


def form_rows() -> list[Row]:
    """Lines about stations that have none of the forms."""
    usual, site = Parts().line(), Site("A", 0, 0, [0], {"a": [1]})
    lines = [
        sites_line().replace('"station"', '"stations"'), sites_line().replace('"station"', '"Station"'), sites_line().replace('"station"', "1"),
        sites_line().replace('"kind":"station",', ""), sites_line().replace('"title"', '"name"'), sites_line().replace('"local"', "null"),
        sites_line(vertical="x").replace('"x"', "null"), sites_line().replace('"crs"', '"label":"x","crs"'), sites_line(""), sites_line("a,b"),
        sites_line("a\x1f"), sites_line("a\x7f"), sites_line("å" * 64 + "a"), sites_line().replace('"sites"', "5"),
        usual.replace('"label":"B",', ""), usual.replace('"label":"B"', '"label":null'), usual.replace('"label":"B"', '"label":["B"]'),
        usual.replace('"label":"B"', '"label":"B","instance":"1"'), usual.replace('"id"', '"station"'), usual.replace('"id":"B"', '"id":7'),
        site.line("a,b"), site.line(""), replace(site, id="").line(), replace(site, id="a,b").line(), replace(site, id="a\n").line(),
        replace(site, id="\x7f").line(), replace(site, id="n" * 129).line(), usual.replace('"coverage"', '"Coverage"'), usual[:-1] + ',"publish":{}}',
        '{"station":[]}', '{"station":{}}', '{"stations":{}}', f"[{usual}]", drop_line(""), drop_line("a,b"), drop_line("A").replace('"A"', "1"),
        drop_line("A").replace('"station"', '"id"'), '{"drop":{"station":"A"}}', drop_line("A").replace('"A"', '"A","instance":"1"'),
        drop_line("A").replace('"A"', '"A","label":""'), drop_line("A", ""), drop_line("A").replace('"A"', "null"),
    ]  # fmt: skip
    found = [row for line in lines for row in at_fault("NotFeedLine", 2, "", feed(sites_line("first"), line))]
    coverage = Parts().line().index('{"type":"Coverage"')
    trees = {"1": "WrongType(Coverages)", "null": "WrongType(Coverages)", "{}": "Missing(Kind)", '{"type":"CoverageCollection"}': "WrongType(Kind)"}
    for tree, inner in trees.items():
        found += at_fault("Cov", 3, inner, feed(sites_line(), "", f"{usual[:coverage]}{tree}}}}}"))
    found += at_fault("Cov", 2, "Missing(T)", feed(sites_line(), replace(Parts(), domain="PointSeries", t="").line()))
    found += at_fault("Cov", 2, "WrongCount(X, 1, 2)", feed(sites_line(), replace(Parts(), domain="PointSeries", x="0,1").line()))
    found += at_fault("Cov", 2, "WrongCount(Z, 1, 2)", feed(sites_line(), replace(Parts(), domain="PointSeries", z="0,1").line()))
    found += at_fault("Cov", 1, "Missing(Domain)", feed(usual[:-1] + ',"type":"Coverage"}'))
    found += at_fault("NotFeedLine", 2, "", feed(sites_line(), sites_line().replace('"station"', '"stations"')))
    found += at_fault("NotJson", 1, "", feed(usual.replace('"label":"B"', '"label":"\\ud800"')))
    return found + at_fault("NotJson", 2, "", feed(sites_line(), usual[:-1]))


# Changes


def refused_changes() -> dict[str, list[list[str]]]:
    """The lines up to a change that is refused, by its fault."""
    a, b = Site("A", 0, 0, [0], {"a": [1]}), Site("B", 0, 0, [0], {"a": [1]})
    both, deep, deeper = replace(b, samples={"a": [1], "b": [2]}), replace(b, levels=(5,)), replace(b, samples={"a": [1, 2]}, levels=(5, 6))
    single = b.coverage("Grid").replace("[1,1,1]", "[1]")
    profile = single.replace('"Grid"', '"VerticalProfile"').replace('"t":{', '"z":{"values":[1]},"t":{').replace('["t","y","x"]', '["z"]')
    pair, tuples = '"x":{"values":[0]},"y":{"values":[0]}', '"composite":{"dataType":"tuple","coordinates":["x","y"],"values":[[0,0]]}'
    many = single.replace('"Grid"', '"MultiPoint"').replace('["t","y","x"]', '["composite"]').replace(pair, tuples)
    path = many.replace('"MultiPoint"', '"Trajectory"').replace(f',"t":{{"values":["{T0}"]}}', "")
    path = path.replace('["x","y"],"values":[[0,0]]', f'["t","x","y"],"values":[["{T0}",0,0]]')
    timeless = single.replace(f',"t":{{"values":["{T0}"]}}', "").replace('["t","y","x"]', '["x"]')
    sites, with_a, with_both = [sites_line()], [sites_line(), a.line()], [sites_line(), a.line(), b.line()]

    def unlike(some: str) -> str:
        return b.line().replace(A, some)

    return {
        "SameCollection": [
            [*sites, sites_line()], [collection("sites"), sites_line()], [*sites, collection("sites")], [*with_a, sites_line(title="x")],
        ],
        "UnknownCollection": [
            [a.line()], [drop_line("A")], [DROP], [*sites, drop_line("A", "site")], [*sites, a.line("Sites")], [*with_a, DROP, a.line()],
            [*with_a, DROP, DROP], [*with_a, DROP, drop_line("A")],
        ],
        "WrongKind": [
            [collection("sites"), a.line()], [collection("sites"), drop_line("A")], [*sites, instance("sites", "A", USUAL)],
            [*sites, instance("sites", "A", a.coverage())], [*with_a, instance("sites", "A", a.coverage("Grid"))],
            [*with_a, '{"drop":{"collection":"sites","instance":"A"}}'], [*sites, '{"drop":{"collection":"sites","instance":"A"}}'],
            [collection("sites"), instance("sites", "A", USUAL), drop_line("A")], [*sites, b.line(coverage=USUAL)],
            [*sites, b.line(coverage=profile)], [*sites, b.line(coverage=many)], [*sites, b.line(coverage=path)],
            [*sites, b.line(coverage=profile.replace('"VerticalProfile"', '"Point"'))],
            [sites_line("grid"), USUAL], [sites_line("grid"), a.line("grid"), a.coverage()], [sites_line("grid"), USUAL.replace("local", "x")],
            [sites_line("grid"), timeless], [*sites, instance("sites", "A", timeless)], [*with_a, instance("sites", "B", both.coverage("Grid"))],
            [*with_a, instance("sites", "B", USUAL.replace("local", "x"))], [*with_a, DROP, collection("sites"), drop_line("A")],
        ],
        "UnknownStation": [
            [*sites, drop_line("A")], [*with_a, drop_line("B")], [*with_a, drop_line("a")], [*with_a, drop_line("A\u00a0")],
            [*with_both, drop_line("AB")], [*with_a, drop_line("A"), drop_line("A")], [*with_a, DROP, *sites, drop_line("A")],
        ],
        "CrsDiffers": [[sites_line(crs="x"), a.line()], [sites_line(crs=""), a.line()], [*with_a, a.line().replace('"local"', '"local "')]],
        "ParametersDiffer(a)": [
            [*with_a, unlike(A.replace("Air", "air"))], [*with_a, unlike(A.replace('"en"', '"fr"'))], [*with_a, unlike(A.replace("Cel", "K"))],
            [*with_a, unlike(A.replace(',"unit":{"symbol":"Cel"}', ""))], [*with_a, b.line().replace('"a":{', '"b":{')],
            [*with_both, unlike(A.replace("Air", "air")).replace('"id":"B"', '"id":"A"')], [*with_a, a.line(), unlike(A.replace("Air", ""))],
            [*with_a, both.line().replace("Air", "air").replace("Regen", "regen")],
        ],
        "ParametersDiffer(b)": [[*with_a, both.line()], [*sites, both.line(), a.line()], [*with_a, replace(both, levels=(5,)).line()]],
        "ParametersDiffer(A)": [[*with_a, b.line().replace('"a":{', '"A":{')]],
        "LevelsDiffer": [
            [*with_a, deep.line()], [*with_a, deeper.line()], [*sites, deep.line(), a.line()], [*sites, deeper.line(), a.line()],
            [*with_both, replace(deep, id="A").line()], [*with_a, a.line(), deep.line()], [*with_both, drop_line("A"), replace(deep, id="C").line()],
        ],
        "NoTimes": [[*sites, replace(Parts(), t="").line()], [*sites, replace(Parts(), t="", z="0,5").line()]],
    }  # fmt: skip


def change_rows() -> list[Row]:
    """Changes that are refused, by what stands before them, and which of them is told."""
    a, deep = Site("A", 0, 0, [0], {"a": [1]}), Site("B", 0, 0, [0], {"a": [1]}, levels=(5,))
    with_a = [sites_line(), a.line()]
    found = []
    for inner, some in refused_changes().items():
        for lines in some:
            found += at_fault("Change", len(lines), inner, feed(*lines, PUBLISH))
            found += at_fault("Change", len(lines) + 1, inner, feed(PUBLISH, *lines, "{"))
    of_first = feed(*with_a, drop_line("B"), deep.line(), "{")
    found += at_fault("Change", 3, "UnknownStation", of_first) + at_fault("Change", 3, "LevelsDiffer", feed(*with_a, deep.line(), drop_line("B")))
    return found + [Row(("ask", target), of_first, 2, "", "feed: Change line 3\n") for target in (location("A"), location("A", "z=x"), "/x", "")]


def taken_rows() -> list[Row]:
    """Changes that aren't refused, and what is told of the editions."""
    a, b = Site("A", 0, 0, [0, 1], {"a": [1, None]}), Site("B", 0, 0, [0], {"a": [5]})
    other, deep = Site("A", 9, 9, [0], {"b": [7]}), Site("A", 0, 0, [0, 1], {"a": [1, 2, 3, None]}, (5, 6))
    single, start = Site("B", 0, 0, [2], {"a": [-9]}, (70,)), [sites_line(), a.line()]

    def told(*numbers: int) -> str:
        return "collections {}, instances {}, stations {}, samples {}, present {}, sum {}".format(*numbers)

    one = told(1, 0, 1, 2, 1, 1)
    return [
        *checked(1, told(3, 1, 4, 38, 34, 1583), feed=USUAL_SITES),
        *checked(1, told(2, 0, 4, 24, 20, 333), feed=MAST_SITES),
        *checked(1, told(1, 0, 0, 0, 0, 0), feed=feed(sites_line(), PUBLISH)),
        *checked(2, one, told(1, 0, 2, 3, 2, 6), feed=feed(*start, PUBLISH, b.line(), PUBLISH)),
        *checked(2, one, told(1, 0, 1, 1, 1, 7), feed=feed(*start, PUBLISH, other.line(), PUBLISH)),
        *checked(2, one, told(1, 0, 1, 4, 3, 6), feed=feed(*start, PUBLISH, deep.line(), PUBLISH)),
        *checked(1, told(1, 0, 2, 5, 4, -3), feed=feed(sites_line(), deep.line(), single.line(), PUBLISH)),
        *checked(1, told(1, 0, 2, 5, 4, -3), feed=feed(sites_line(), single.line(), deep.line(), PUBLISH)),
        *checked(3, one, told(1, 0, 0, 0, 0, 0), told(1, 0, 1, 1, 1, 7), feed=feed(*start, PUBLISH, drop_line("A"), PUBLISH, other.line(), PUBLISH)),
        *checked(1, told(1, 0, 1, 1, 1, 7), feed=feed(*start, drop_line("A"), other.line(), PUBLISH)),
        *checked(2, one, told(0, 0, 0, 0, 0, 0), feed=feed(*start, PUBLISH, DROP, PUBLISH)),
        *checked(1, told(2, 0, 2, 4, 2, 2), feed=feed(*start, sites_line("a"), a.line("a"), PUBLISH, drop_line("A"))),
        *checked(1, told(1, 0, 2, 4, 2, 2), feed=feed(*start, replace(a, id="a").line(), PUBLISH)),
        *checked(1, one, feed=feed(*start, a.line(), a.line(), PUBLISH)),
        *checked(1, told(1, 0, 1, 1, 1, 5), feed=feed(sites_line(), b.line().replace('"local"', '""'), PUBLISH)),
        *checked(1, told(1, 0, 1, 1, 1, 5), feed=feed(sites_line(crs=""), b.line().replace('"id":"local",', ""), PUBLISH)),
        *checked(2, one, one, feed=feed(*start, PUBLISH, PUBLISH)),
        *checked(1, one, feed=feed(*start, PUBLISH, sites_line("x"), DROP)),
        *checked(1, told(1, 0, 2, 3, 2, 6), feed=feed(*start, b.line().replace(A, f"{B},{A}"), PUBLISH)),
        *checked(1, told(1, 0, 2, 3, 2, 6), feed=feed(*start, b.line().replace('"en":"Air"', '"de":"Luft","en":"Air","fr":"Air"'), PUBLISH)),
    ]


def large_rows() -> list[Row]:
    """A station of 4,000,000 values, and of two more, which is told before what its parameters and levels are."""
    site = Site("B", 0, 0, [0, 1], {"a": [0] * 4}, (0, 1))

    def wide(levels: int) -> str:
        axis = f'"z":{{"start":0,"stop":{levels - 1},"num":{levels}}}'
        line = site.line().replace('"z":{"values":[0,1]}', axis).replace("[2,2,1,1]", f"[2,{levels},1,1]")
        return line.replace("[0,0,0,0]", f"[{','.join(['0'] * (2 * levels))}]")

    most, inner = 2_000_000, "TooManyNodes(4000002)"
    flat, other = Site("A", 0, 0, [0], {"a": [1]}), Site("A", 0, 0, [0], {"b": [1]}, (0,))
    summary = "collections 1, instances 0, stations 1, samples 4000000, present 4000000, sum 0"
    found = checked(1, summary, feed=feed(sites_line(), wide(most), PUBLISH))
    for first, fault in ((flat, inner), (other, inner), (None, inner)):
        lines = [sites_line(), *[each.line() for each in [first] if each], wide(most + 1)]
        found += at_fault("Change", len(lines), fault, feed(*lines))
    found += at_fault("Change", 2, "CrsDiffers", feed(sites_line(crs="x"), wide(most + 1)))
    length = 16_777_216 - len(replace(flat, label="").line())
    found += checked(1, feed=feed(sites_line(), replace(flat, label="l" * length).line(), PUBLISH))
    return found + at_fault("LineTooLong", 2, "", feed(sites_line(), replace(flat, label="l" * (length + 1)).line(), PUBLISH))


def rows() -> list[Row]:
    """All of them."""
    return pair_rows() + form_rows() + change_rows() + taken_rows()
