"""Targets: ones that are read, and ones that break some of the rules."""

from plain.comparison.inputs.draws import Draw
from plain.comparison.inputs.geometries import geometry_text, many_positions_text
from plain.comparison.inputs.target_maker import HEIGHT, IDS, Maker
from plain.comparison.inputs.target_values import bad_box, bad_distance, bad_text, box_numbers, box_text, distance, geometry_of, several_levels, some_levels, some_times
from plain.comparison.inputs.texts import levels_text, times_text
from plain.profile.levels import read_levels
from plain.profile.targets.read import GEOMETRIES, REQUIRED
from plain.profile.targets.values import read_geometry
from plain.profile.times import read_times

_BAD_FORMATS = (b"", b"XML", b"json ", b" json", b"application/prs.coverage json", b"application/geo+json", b"GeoJSON", b"jso", b"j\xc5\xbfon")
_BAD_FORMATS += (b"application/json", b"CoverageJSON", b"application/prs.coverage+json", b"json\0", b"text/html")

_BAD_PARTS = (b"\xff", b"a\xc3", b"\xc0\x80", b"\xed\xa0\x80", b"\xf4\x90\x80\x80", b"\x80")

_ALL_FORMS = [(tag, dims) for tag in ("POINT", "MULTIPOINT", "LINESTRING", "POLYGON", "MULTIPOLYGON") for dims in ("", "Z", "M", "ZM")]


def target_text(draw: Draw) -> bytes:
    """A target, or nearly one."""
    maker = Maker(draw)
    for _ in range(draw.pick(0, 0, 0, 0, 0, 1, 1, 1, 2, 3, 4)):
        draw.choice(_DAMAGES)(maker)
    return maker.text()


# Damages: each breaks one of the rules, or nearly so


def _unknown_name(maker: Maker) -> None:
    name = maker.draw.pick(b"colour", b"Coords", b"coords ", b"", b"F", b"limit", b"\xff", b"parameter_name", b"datetime\0", b"Z")
    known = maker.draw.pick(b"coords", b"within", b"bbox", b"corridor-height", b"datetime", b"z", b"crs", b"resolution-x")
    maker.pairs.insert(maker.draw.randint(0, len(maker.pairs)), (maker.draw.pick(name, known), maker.draw.pick(b"", b"0", b"red")))


def _name_twice(maker: Maker) -> None:
    if not maker.pairs:
        maker.pairs = [(b"f", b"json")]
    name, value = maker.draw.choice(maker.pairs)
    maker.pairs.insert(maker.draw.randint(0, len(maker.pairs)), (name, maker.draw.pick(value, value, b"", b"x")))


def _format(maker: Maker) -> None:
    maker.set(b"f", maker.draw.choice(_BAD_FORMATS))


def _missing(maker: Maker) -> None:
    required = [name.encode() for name in REQUIRED.get(maker.page, ())]
    if maker.page == "corridor":
        required += HEIGHT * 2
    if required:
        maker.drop(maker.draw.choice(required))


def _height_missing(maker: Maker) -> None:
    """A line, mostly with z, and neither a height nor its unit, or one of them."""
    _become(maker, "corridor")
    maker.set(b"coords", geometry_of(maker.draw, [("LINESTRING", maker.draw.pick("Z", "ZM", "", "M"))]))
    maker.drop(*maker.draw.pick(HEIGHT, HEIGHT, HEIGHT[:1], HEIGHT[1:]))


def _coords(maker: Maker) -> None:
    if maker.page in GEOMETRIES and maker.draw.chance(0.02):
        maker.set(b"coords", many_positions_text(maker.draw))
    elif maker.page in GEOMETRIES:
        maker.set(b"coords", bad_text(maker.draw, geometry_text, read_geometry))


def _geometry(maker: Maker) -> None:
    if maker.page in GEOMETRIES:
        maker.set(b"coords", geometry_of(maker.draw, _ALL_FORMS))


def _box_damage(maker: Maker) -> None:
    _become(maker, "cube")
    maker.set(b"bbox", bad_box(maker.draw))


def _datetime(maker: Maker) -> None:
    if maker.is_query():
        maker.set(b"datetime", bad_text(maker.draw, times_text, read_times))


def _level(maker: Maker) -> None:
    if maker.is_query():
        maker.set(b"z", bad_text(maker.draw, levels_text, read_levels))


def _distance_damage(maker: Maker) -> None:
    if maker.page not in ("radius", "corridor"):
        _become(maker, maker.draw.pick("radius", "corridor"))
    names = (b"within", b"within-units")
    if maker.page == "corridor":
        names = maker.draw.pick((b"corridor-width", b"width-units"), HEIGHT)
    maker.set_distance(*names, bad_distance(maker.draw))


def _become(maker: Maker, page: str) -> None:
    """Makes it another query, where it isn't that one."""
    if maker.page != page:
        maker.page = page
        maker.path = maker.new_path()
        maker.pairs = []
        maker.add_pairs()


def _m_and_datetime(maker: Maker) -> None:
    if maker.page not in ("trajectory", "corridor"):
        _become(maker, maker.draw.pick("trajectory", "corridor"))
    maker.set(b"coords", geometry_of(maker.draw, [("LINESTRING", maker.draw.pick("M", "ZM"))]))
    if maker.page == "corridor":
        maker.set_distance(*HEIGHT, distance(maker.draw))
    maker.set(b"datetime", some_times(maker.draw))


def _z_and_z(maker: Maker) -> None:
    if maker.page not in ("position", "radius", "trajectory", "corridor"):
        _become(maker, maker.draw.pick("position", "radius", "trajectory", "corridor"))
    forms = [form for form in GEOMETRIES[maker.page] if "Z" in form[1]]
    maker.set(b"coords", geometry_of(maker.draw, forms))
    if maker.page == "corridor":
        maker.set_distance(*HEIGHT, distance(maker.draw))
    maker.set(b"z", some_levels(maker.draw))


def _six_and_z(maker: Maker) -> None:
    _become(maker, "cube")
    maker.set(b"bbox", box_text(maker.draw, box_numbers(maker.draw, maker.draw.pick(6, 6, 4))))
    maker.set(b"z", some_levels(maker.draw))


def _height_and_levels(maker: Maker) -> None:
    _become(maker, "corridor")
    maker.set(b"coords", geometry_of(maker.draw, [("LINESTRING", maker.draw.pick("", "M"))]))
    maker.set_distance(*HEIGHT, distance(maker.draw))
    maker.set(b"z", several_levels(maker.draw))


def _path(maker: Maker) -> None:
    draw, path = maker.draw, maker.path
    place = draw.randint(0, len(path))
    way = draw.randrange(9)
    if way == 0:
        path.insert(place, b"")
    elif way == 1:
        path.insert(place, draw.pick(b"items", b"a", b"instances", b"locations", b"position", b"collections", b".."))
    elif way == 2 and path:
        at = draw.randrange(len(path))
        path[at] = draw.pick(path[at].upper(), path[at].capitalize(), path[at] + b" ", path[at][:-1], path[at] + b"s")
    elif way == 3 and path:
        del path[draw.randrange(len(path))]
    elif way == 4 and path:
        path[draw.randrange(len(path))] = draw.choice(_BAD_PARTS)
    elif way == 5:
        maker.trailing = draw.pick(b"//", b"/%2F", b"/.", b"/%00", b"/ ")
    elif way == 6:
        maker.front = draw.pick(b"", b"//", b"x/", b"http://localhost/", b"%2F", b" /", b"/%", b"?/")
    elif way == 7 and path:
        path[-1] = draw.pick(b"items", b"Position", b"positions", b"instances", b"locations", b"location", b"")
    elif path:
        path[draw.randrange(len(path))] = draw.choice(IDS)


def _mark(maker: Maker) -> None:
    maker.marks.append(maker.draw.pick(b"%", b"%%", b"%4", b"%zz", b"%FF", b"%ff", b"\xff", b"\xc3", b"?", b"&", b"/", b"=", b"+", b"%0", b"%2", b"#"))


def _bytes(maker: Maker) -> None:
    maker.byte_damages += 1


_DAMAGES = [_unknown_name, _name_twice, _format, _missing, _height_missing, _coords, _geometry, _geometry, _box_damage, _datetime, _level]
_DAMAGES += [_distance_damage, _distance_damage, _m_and_datetime, _z_and_z, _six_and_z, _height_and_levels, _path, _path, _mark, _bytes]
