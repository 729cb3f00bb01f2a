"""What a target is made of, and how it is written."""

from plain.comparison.inputs.draws import Draw, damaged_bytes
from plain.comparison.inputs.target_values import box, distance, geometry_of, parameter_names, single_level, some_levels, some_times
from plain.profile.targets.read import GEOMETRIES, REQUIRED
from plain.profile.targets.values import read_geometry

_MARKS = b"&=?/%+ .(),#;0123456789abcdefABCDEFkmMZzTR:-\xff\xc3\xa9\0"

IDS = [id_.encode() for id_ in ("grid", "grid", "a", "1", "2024-01-01T00:00:00Z", "a b", "a/b", "a+b", "é", "日本", "%", "100%", "%41")]
IDS += [id_.encode() for id_ in ("a?b", "a&b=c", "#", "..", ".", "position", "instances", "locations", "collections", ",", "a,b", " ")]
IDS += [b"\0", b"\x7f", b"a\x1fb", b"\n", b"x" * 128, b"x" * 129, "é".encode() * 65, "\ufffd".encode(), "\U0010ffff".encode(), b"(a); -", "\ufeff".encode()]

_DESCRIPTIONS = ("landing", "conformance", "collections", "collection", "instances", "instance", "locations")
_QUERIES = tuple(REQUIRED)

_QUERY_FORMATS = (b"CoverageJSON", b"json", b"application/prs.coverage+json")
_DESCRIPTION_FORMATS = (b"json", b"application/json")

HEIGHT = (b"corridor-height", b"height-units")


class Maker:
    """Makes one target: its page, the decoded parts of its path and the decoded pairs of its query text."""

    def __init__(self, draw: Draw):
        self.draw = draw
        self.page = draw.choice(_DESCRIPTIONS) if draw.chance(0.25) else draw.choice(_QUERIES)
        self.path = self.new_path()
        self.pairs: list[tuple[bytes, bytes]] = []
        self.optional_part = draw.pick(0, 0.2, 0.5, 0.9)
        self.add_pairs()
        draw.shuffle(self.pairs)
        self.many_escapes = draw.pick(0, 0, 0, 0, 0.1, 0.5, 1)
        self.marks: list[bytes] = []  # put raw into the text
        self.byte_damages = 0
        self.trailing = b"/" if draw.chance(0.12) else b""
        self.front = b"/"

    # what is asked

    def new_path(self) -> list[bytes]:
        id_, other = self.draw.choice(IDS), self.draw.choice(IDS)
        match self.page:
            case "landing":
                return []
            case "conformance" | "collections":
                return [self.page.encode()]
            case "collection":
                return [b"collections", id_]
            case "instances" | "locations":
                return [b"collections", id_, self.page.encode()]
            case "instance":
                return [b"collections", id_, b"instances", other]
            case "location":
                return [b"collections", id_, b"locations", other]
        instance = [b"instances", other] if self.draw.chance(0.3) else []
        return [b"collections", id_, *instance, self.page.encode()]

    def is_query(self) -> bool:
        return self.page in _QUERIES

    def wants(self) -> bool:
        """Whether an optional parameter is to be there."""
        return self.draw.chance(self.optional_part)

    def add_pairs(self) -> None:
        if not self.is_query():
            if self.draw.chance(0.3):
                self.set(b"f", self.format())
            return
        if self.page in GEOMETRIES:
            self.set(b"coords", geometry_of(self.draw, GEOMETRIES[self.page]))
        if self.page == "cube":
            self.set(b"bbox", box(self.draw))
        if self.page == "radius":
            self.set_distance(b"within", b"within-units", distance(self.draw))
        if self.page == "corridor":
            self.set_distance(b"corridor-width", b"width-units", distance(self.draw))
        self.add_optional_pairs()

    def add_optional_pairs(self) -> None:
        geometry = read_geometry(self.value(b"coords") or b"")
        dims = geometry.dims if geometry else ""
        has_height = self.page == "corridor" and ("Z" in dims or self.wants())
        if has_height:
            self.set_distance(*HEIGHT, distance(self.draw))
        if "M" not in dims and self.wants():
            self.set(b"datetime", some_times(self.draw))
        if "Z" not in dims and not self.has_six() and self.wants():
            self.set(b"z", single_level(self.draw) if has_height else some_levels(self.draw))
        if self.wants():
            self.set(b"parameter-name", parameter_names(self.draw))
        if self.wants():
            self.set(b"crs", self.draw.pick(b"local", b"", b"http://www.opengis.net/def/crs/EPSG/0/32633", "é;(".encode(), b"\xff", b"a b+c", b"a?b=c&d"))
        if self.wants():
            self.set(b"f", self.format())

    def format(self) -> bytes:
        text = self.draw.choice(_QUERY_FORMATS if self.is_query() else _DESCRIPTION_FORMATS)
        way = self.draw.randrange(4)
        if way < 2:
            return text
        return text.upper() if way == 2 else bytes(self.draw.choice(bytes([byte]).upper() + bytes([byte]).lower()) for byte in text)

    def has_six(self) -> bool:
        return (self.value(b"bbox") or b"").count(b",") == 5

    def value(self, name: bytes) -> bytes | None:
        return next((value for other, value in self.pairs if other == name), None)

    def set(self, name: bytes, value: bytes) -> None:
        """Sets a parameter, in the place of one that is there."""
        names = [other for other, _ in self.pairs]
        if name in names:
            self.pairs[names.index(name)] = (name, value)
        else:
            self.pairs.insert(self.draw.randint(0, len(self.pairs)), (name, value))

    def set_distance(self, name: bytes, unit_name: bytes, distance: tuple[bytes, bytes]) -> None:
        self.set(name, distance[0])
        self.set(unit_name, distance[1])

    def drop(self, *names: bytes) -> None:
        self.pairs = [pair for pair in self.pairs if pair[0] not in names]

    # how it is written

    def text(self) -> bytes:
        text = self.front + b"/".join(self.escaped(part, b"/?%") for part in self.path)
        if self.path:
            text += self.trailing
        pieces = [self.pair_text(name, value) for name, value in self.pairs]
        if self.draw.chance(0.05):
            pieces.insert(self.draw.randint(0, len(pieces)), b"")
        if pieces or self.draw.chance(0.2):
            text += b"?" + b"&".join(pieces)
        for mark in self.marks:
            at = self.draw.randint(0, len(text))
            text = text[:at] + mark + text[at:]
        for _ in range(self.byte_damages):
            text = damaged_bytes(self.draw, text, _MARKS)
        return text

    def pair_text(self, name: bytes, value: bytes) -> bytes:
        if not value and self.draw.chance(0.3):
            return self.form_escaped(name, b"&=%+")
        return self.form_escaped(name, b"&=%+") + b"=" + self.form_escaped(value, b"&%+")

    def form_escaped(self, text: bytes, marks: bytes) -> bytes:
        """A text as a form writes it; spaces as `+`, as they are, or escaped."""
        space = self.draw.pick(b"+", b"+", b" ", b"%20")
        return space.join(self.escaped(part, marks) for part in text.split(b" "))

    def escaped(self, text: bytes, marks: bytes) -> bytes:
        """The text with some bytes escaped: the marks always, but perhaps a `%` at the end, and others by chance."""
        written = b"".join(self.escaped_byte(byte, byte in marks) for byte in text)
        return written[:-2] if written.endswith(b"%25") and self.draw.chance(0.3) else written

    def escaped_byte(self, byte: int, always: bool) -> bytes:
        likely = 0.7 if not 32 < byte < 127 else self.many_escapes
        if always or self.draw.chance(likely):
            return self.draw.pick(b"%%%02X", b"%%%02x") % byte
        return bytes([byte])
