"""Targets that are asked of an edition: its own ids, values and parameters, and what breaks one of the rules."""

from plain.comparison.inputs import shapes
from plain.comparison.inputs.draws import Draw
from plain.comparison.inputs.query_maker import ALL_QUERIES, DESCRIPTIONS, GRID_QUERIES, HEIGHT, Maker
from plain.profile.feeds.collections import Collections

_WITH_COORDS = ("position", "position", "radius", "area", "trajectory", "corridor")
_UNKNOWN_IDS = ("none", "Grid", "gri", "grid ", "%67rid", "0", "\0", "1 ", "..")


def target_of_edition(draw: Draw, edition: Collections) -> bytes:
    """A target: one that is answered, mostly, or one that breaks one rule or two, or nearly so."""
    maker = Maker(draw, edition)
    for _ in range(draw.pick(0, 0, 0, 0, 1, 1, 2)):
        draw.choice(_DAMAGES)(maker)
    return maker.text()


# Damages: each breaks one rule, or nearly so. They stand in the order of the refusals.


def _no_page(maker: Maker) -> None:
    path = list(maker.path())
    way = maker.draw.randrange(4)
    if way == 0 and path:
        path[-1] = maker.draw.pick(b"items", b"Position", b"positions", b"queries", b"")
    elif way == 1:
        path.insert(maker.draw.randint(0, len(path)), maker.draw.pick(b"", b"\xff", b"instances"))
    elif way == 2 and path:
        path.pop()
    else:
        path.append(maker.draw.pick(b"position", b"items", b"1"))
    maker.front = path


def _unknown_parameter(maker: Maker) -> None:
    name = maker.draw.pick(b"colour", b"Coords", b"", b"limit", b"within", b"bbox", b"corridor-height", b"z", b"datetime ")
    maker.pairs.append((name, maker.draw.pick(b"", b"1")))


def _repeated(maker: Maker) -> None:
    name, value = maker.draw.choice(maker.pairs or [(b"f", b"json")])
    maker.pairs.append((name, maker.draw.pick(value, b"")))


def _bad_format(maker: Maker) -> None:
    maker.set(b"f", maker.draw.pick(b"XML", b"", b"json ", b"GeoJSON", b"application/json", b"CoverageJSON", b"application/prs.coverage json"))


def _missing(maker: Maker) -> None:
    if maker.pairs:
        maker.drop(maker.draw.choice(maker.pairs)[0])
    if maker.page == "corridor" and maker.draw.chance(0.5):
        maker.drop(maker.draw.choice(HEIGHT))


def _bad_coords(maker: Maker) -> None:
    maker.become(*_WITH_COORDS)
    bad = (b"POINT(0.5 0)", b"POINT(0 100000001)", b"POINT(0)", b"POINT EMPTY", b"", b"\xff", b"POINT(0 0", b"LINESTRING(0 0)", b"POINT(0,0)")
    more = (b"POLYGON((0 0,1 0,1 1,0 1))", b"LINESTRING M(0 0 5,1 1 4)", b"MULTIPOINT()", b"POINT Z(0 0)", b"POINT(1e0 0)")
    maker.set(b"coords", maker.draw.choice(bad + more))


def _wrong_geometry(maker: Maker) -> None:
    maker.become(*_WITH_COORDS)
    forms = (b"LINESTRING(0 0,1 1)", b"POLYGON((0 0,1 0,1 1,0 0))", b"MULTIPOINT Z(0 0 0)", b"POINT M(0 0 0)", b"POINT ZM(0 0 0 0)")
    more = (b"MULTIPOINT(0 0)", b"POINT Z(0 0 0)", b"POINT(0 0)", b"POLYGON Z((0 0 0,1 0 0,1 1 0,0 0 0))", b"LINESTRING Z(0 0 0,1 1 1)")
    maker.set(b"coords", maker.draw.choice(forms + more))


def _bad_box(maker: Maker) -> None:
    maker.become("cube")
    maker.set(b"bbox", maker.draw.pick(b"", b"1,0,0,0", b"0,0,0", b"0,0,1,1,1", b"0,0,0.5,1", b"0,0,100000001,0", b"0,0,1,0,0,0", b"0,0,0,0"))


def _bad_datetime(maker: Maker) -> None:
    maker.become_query()
    time = maker.draw.pick(b"", b"2024-12-31", b"2023-02-29T00:00:00Z", b"10000-01-01T00:00:00Z", b"2024-01-02T00:00Z/2024-01-01T00:00Z")
    maker.set(b"datetime", maker.draw.pick(time, time, b"...", b"../../..", b"2024-01-01T00:00:00.5Z", b"2024-01-01T24:00Z", b"now"))


def _bad_level(maker: Maker) -> None:
    maker.become_query()
    maker.set(b"z", maker.draw.pick(b"", b"1/0", b"0.5", b"r1/0/1", b"R0/0/1", b"R2/100000000/1", b"1,", b"0/1/2", b"100000001", b"R1/0"))


def _bad_distance(maker: Maker) -> None:
    maker.become("radius", "corridor")
    names = {"radius": (b"within", b"within-units"), "corridor": (b"corridor-width", b"width-units")}.get(maker.page, HEIGHT)
    name = maker.draw.choice(names)
    maker.set(name, maker.draw.pick(b"", b"mi", b"1.0001", b"-1", b"400000001", b".5", b"cm", b"1e2", b"5."))


def _conflict(maker: Maker) -> None:
    """Levels or times besides those of the geometry."""
    maker.become_query()
    pool = maker.pool()
    if maker.draw.chance(0.5):
        maker.set(b"z", maker.levels(pool))
    else:
        maker.set(b"datetime", maker.times(pool))
    if maker.page == "position" and maker.draw.chance(0.7):
        maker.set(b"coords", shapes.point(maker.draw, pool, True))


def _unknown_collection(maker: Maker) -> None:
    path = list(maker.path())
    if len(path) > 1:
        path[1] = maker.draw.choice(_UNKNOWN_IDS).encode()
        maker.front = path


def _unknown_instance(maker: Maker) -> None:
    maker.become(*GRID_QUERIES, "instance")
    maker.instance = maker.draw.choice(_UNKNOWN_IDS)


def _unknown_location(maker: Maker) -> None:
    maker.become("location")
    maker.location = maker.draw.choice(_UNKNOWN_IDS)


def _not_offered(maker: Maker) -> None:
    """Any other page or query."""
    maker.become(maker.draw.choice(ALL_QUERIES + DESCRIPTIONS))


def _unknown_name(maker: Maker) -> None:
    maker.become_query()
    names = maker.parameters().split(b",")
    names.insert(maker.draw.randint(0, len(names)), maker.draw.pick(b"", b"none", b"Temp", names[0] + b" ", names[0][:-1], b"\xff"))
    maker.set(b"parameter-name", b",".join(names))


def _bad_crs(maker: Maker) -> None:
    maker.become_query()
    maker.set(b"crs", maker.draw.pick(b"", b"x", maker.crs() + b" ", maker.crs().upper(), maker.crs()[:-1], b"local", b"\xff"))


def _levels_there_or_not(maker: Maker) -> None:
    """Levels, also where there are none."""
    maker.become_query()
    pool = maker.pool()
    if maker.page == "position" and maker.draw.chance(0.5):
        maker.set(b"coords", shapes.point(maker.draw, pool, True))
        maker.drop(b"z")
    elif maker.page == "cube" and maker.draw.chance(0.5):
        maker.set(b"bbox", shapes.box(maker.draw, pool, True))
        maker.drop(b"z")
    else:
        maker.set(b"z", maker.one_level(pool))


def _nothing_there(maker: Maker) -> None:
    """A place, a time or a level that isn't there."""
    maker.become_query()
    pool, draw = maker.pool(), maker.draw
    way = draw.randrange(3)
    if way == 0 and maker.page == "position":
        x = draw.pick(pool.xs[0] - 1, pool.xs[-1] + 1, pool.xs[0], pool.xs[-1])
        y = draw.pick(pool.ys[0] - 1, pool.ys[-1] + 1, pool.ys[0], pool.ys[-1])
        maker.set(b"coords", draw.pick(f"POINT({x} {y})", f"MULTIPOINT({x} {y},{x + 1} {y})").encode())
    elif way == 1:
        time = draw.choice(pool.times) + draw.pick(-1, 1)
        side = maker.instant(time)
        maker.set(b"datetime", draw.pick(side, side + b"/" + side, side + b"/..", b"../" + side))
    elif pool.levels:
        maker.set(b"z", maker.number(draw.choice(pool.levels) + draw.pick(-1, 1)))


_DAMAGES = [_no_page, _unknown_parameter, _repeated, _bad_format, _missing, _bad_coords, _wrong_geometry, _bad_box, _bad_datetime]
_DAMAGES += [_bad_level, _bad_distance, _conflict, _unknown_collection, _unknown_instance, _unknown_location, _not_offered]
_DAMAGES += [_unknown_name, _bad_crs, _levels_there_or_not, _nothing_there, _nothing_there]
