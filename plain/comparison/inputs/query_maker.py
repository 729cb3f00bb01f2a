"""What a target of an edition is made of, and how it is written."""

from plain.comparison.inputs import shapes
from plain.comparison.inputs.draws import Draw
from plain.comparison.inputs.shapes import Pool, near_values
from plain.comparison.inputs.texts import instant, spelled
from plain.profile.feeds.collections import Collection, Collections
from plain.profile.times import write_instant

DESCRIPTIONS = ("landing", "conformance", "collections", "collection", "instances", "instance", "locations")
_PARTS_OF_ONE_ID = {"collection": (), "instances": (b"instances",), "locations": (b"locations",)}
GRID_QUERIES = ("position", "radius", "area", "cube", "trajectory", "corridor")
_STATION_QUERIES = ("radius", "area", "cube", "corridor", "location", "position")
ALL_QUERIES = (*GRID_QUERIES, "location")
_NO_POOL = Pool([0, 1_704_067_200], [], [0, 2], [0, 2])
HEIGHT = (b"corridor-height", b"height-units")


def pool_of(coverages: list) -> Pool:
    """The values of the axes of some coverages."""

    def values(name: str) -> list[int]:
        return sorted({value for each in coverages for value in each.domain.axes.get(name, ())})

    return Pool(values("t"), values("z"), values("y"), values("x")) if coverages else _NO_POOL


class Maker:
    """Makes one target: its page, the decoded parts of its path and the decoded pairs of its query text."""

    def __init__(self, draw: Draw, edition: Collections):
        self.draw = draw
        self.edition = edition
        self.collection: Collection | None = edition[draw.choice(sorted(edition))] if edition else None
        self.instance: str | None = None
        self.location = "none"
        self.front: list[bytes] | None = None  # in place of the path
        self.pairs: list[tuple[bytes, bytes]] = []
        self.escapes = draw.pick(0, 0, 0, 0.1)
        if self.collection is not None and self.collection.instances and draw.chance(0.35):
            self.instance = draw.choice(sorted(self.collection.instances))
        if self.collection is not None and self.collection.stations:
            self.location = draw.choice(sorted(self.collection.stations))
        self.page = draw.choice(self.pages()) if draw.chance(0.1) else self.query()
        self.add_pairs()

    # what is asked

    def pages(self) -> list[str]:
        """The description pages that the collection has."""
        lacking = "instance instances" if self.is_of_stations() else "locations" if self.instance else "locations instance"
        return [page for page in DESCRIPTIONS if page not in lacking.split()]

    def is_of_stations(self) -> bool:
        return self.collection is not None and self.collection.kind == "station"

    def query(self) -> str:
        """A query of the collection's kind; position too where that is stations."""
        return self.draw.choice(_STATION_QUERIES if self.is_of_stations() else GRID_QUERIES)

    def is_query(self) -> bool:
        return self.page in ALL_QUERIES

    def pool(self) -> Pool:
        """The values of the axes of what is asked."""
        if self.collection is None:
            return _NO_POOL
        if self.is_of_stations() and self.page == "location" and self.location in self.collection.stations:
            return pool_of([self.collection.stations[self.location].coverage])
        if self.is_of_stations():
            return pool_of(self.collection.coverages())
        grid = self.collection.instances.get(self.instance) or self.collection.newest()
        return pool_of([grid] if grid else [])

    def add_pairs(self) -> None:
        """The pairs of a query that is answered, mostly."""
        self.pairs = []
        draw, pool = self.draw, self.pool()
        has_levels = bool(pool.levels)
        if self.is_query():
            has_own_levels, has_own_times, takes_one_level = self.add_shape(pool, has_levels and draw.chance(0.4))
            if not has_own_times and draw.chance(0.6):
                self.set(b"datetime", self.times(pool))
            if not has_own_levels and has_levels and draw.chance(0.6):
                self.set(b"z", self.one_level(pool) if takes_one_level else self.levels(pool))
            if draw.chance(0.3):
                self.set(b"parameter-name", self.parameters())
            if draw.chance(0.2):
                self.set(b"crs", self.crs())
        if draw.chance(0.1):
            self.set(b"f", self.in_any_case(self.format()))
        draw.shuffle(self.pairs)

    def add_shape(self, pool: Pool, has_z: bool) -> tuple[bool, bool, bool]:
        """Adds the geometry; tells whether it has levels and times of its own, and whether `z` has to be one level."""
        draw = self.draw
        match self.page:
            case "position":
                is_one = has_z or self.is_of_stations() or draw.chance(0.6)
                self.set(b"coords", shapes.point(draw, pool, has_z) if is_one else shapes.points(draw, pool))
                return has_z, False, False
            case "radius":
                centre = shapes.spot(draw, pool)
                body = " ".join(map(str, centre)) + (f" {shapes.level(draw, pool)}" if has_z else "")
                self.set(b"coords", shapes.wkt(draw, "POINT", "Z" if has_z else "", f"({body})"))
                self.set_distance((b"within", b"within-units"), shapes.reaching(draw, pool, centre))
                return has_z, False, False
            case "area":
                self.set(b"coords", shapes.polygons(draw, pool))
                return False, False, False
            case "cube":
                self.set(b"bbox", shapes.box(draw, pool, has_z))
                return has_z, False, False
            case "trajectory" | "corridor":
                return self.add_line(pool, has_z)
        return False, False, False

    def add_line(self, pool: Pool, has_z: bool) -> tuple[bool, bool, bool]:
        draw = self.draw
        line = shapes.line(draw, pool, ("Z" if has_z else "") + draw.pick("", "", "M"))
        self.set(b"coords", line.text)
        has_height = self.page == "corridor" and (has_z or draw.chance(0.4))
        if self.page == "corridor":
            self.set_distance((b"corridor-width", b"width-units"), line.width)
        if has_height:
            self.set_distance(HEIGHT, line.height)
        return has_z, "M" in line.dims, has_height

    # values

    def times(self, pool: Pool) -> bytes:
        """Times of a request that have some of the times that are there, mostly."""
        draw = self.draw
        times = [near_values(draw, pool.times) for _ in range(2)]
        if draw.chance(0.4):
            return self.instant(draw.choice(pool.times) if draw.chance(0.85) else times[0])
        sides = [self.instant(time) for time in sorted(times)]
        if draw.chance(0.4):
            sides[draw.randrange(2)] = draw.pick(b"..", b"..", b"")
        if draw.chance(0.1):
            sides = [draw.pick(b"..", b""), draw.pick(b"..", b"")]
        return b"/".join(sides)

    def instant(self, time: int) -> bytes:
        return (write_instant(time) if self.draw.chance(0.5) else instant(self.draw, time)).encode()

    def one_level(self, pool: Pool) -> bytes:
        return self.number(shapes.level(self.draw, pool))

    def number(self, number: int) -> bytes:
        return (self.draw.pick("", "", "", " ") + spelled(self.draw, number)).encode()

    def levels(self, pool: Pool) -> bytes:
        """Levels of a request in one of the four forms."""
        draw = self.draw
        way = draw.randrange(4)
        some = sorted(shapes.level(draw, pool) for _ in range(2))
        if way == 0:
            return self.one_level(pool)
        if way == 1:
            return b"/".join(map(self.number, some))
        if way == 2:
            return b",".join(self.number(shapes.level(draw, pool)) for _ in range(draw.pick(2, 2, 3, 5)))
        step = draw.pick(1, 1, 2, 3, max(some[1] - some[0], 1))
        return b"R" + b"/".join(map(self.number, (draw.pick(1, 2, 3, 100), some[0], step)))

    def parameters(self) -> bytes:
        """Some parameters that are there, in any order, perhaps twice."""
        names = [parameter.id for parameter in self.collection.parameters()] if self.collection else []
        names = names or ["temp"]
        return ",".join(self.draw.choice(names) for _ in range(self.draw.pick(1, 1, 2, 3))).encode()

    def crs(self) -> bytes:
        return (self.collection.crs if self.collection else "local").encode()

    def format(self) -> bytes:
        if self.is_query():
            return self.draw.pick(b"CoverageJSON", b"json", b"application/prs.coverage+json")
        return self.draw.pick(b"json", b"application/json")

    def in_any_case(self, text: bytes) -> bytes:
        return self.draw.pick(text, text, text.upper(), text.lower())

    def set_distance(self, names: tuple[bytes, bytes], metres: int) -> None:
        number, unit = str(metres), b"m"
        if self.draw.chance(0.3):
            number, unit = f"{metres // 1000}.{metres % 1000:03}", self.draw.pick(b"km", b"KM")
        self.set(names[0], number.encode())
        self.set(names[1], unit)

    def set(self, name: bytes, value: bytes) -> None:
        """Sets a parameter, in the place of one that is there."""
        self.pairs = [pair for pair in self.pairs if pair[0] != name]
        self.pairs.insert(self.draw.randint(0, len(self.pairs)), (name, value))

    def drop(self, *names: bytes) -> None:
        self.pairs = [pair for pair in self.pairs if pair[0] not in names]

    def become(self, *pages: str) -> None:
        """Makes it one of some pages, where it isn't any of them."""
        if self.page not in pages:
            self.page = self.draw.choice(pages)
            self.add_pairs()

    def become_query(self) -> None:
        """Makes it a query, where it isn't one."""
        if not self.is_query():
            self.become(self.query())

    # how it is written

    def path(self) -> list[bytes]:
        if self.front is not None:
            return self.front
        id_ = (self.collection.id if self.collection else "none").encode()
        match self.page:
            case "landing":
                return []
            case "conformance" | "collections":
                return [self.page.encode()]
            case "collection" | "instances" | "locations":
                return [b"collections", id_, *_PARTS_OF_ONE_ID[self.page]]
            case "instance":
                return [b"collections", id_, b"instances", (self.instance or "none").encode()]
            case "location":
                return [b"collections", id_, b"locations", self.location.encode()]
        instance = [] if self.instance is None else [b"instances", self.instance.encode()]
        return [b"collections", id_, *instance, self.page.encode()]

    def text(self) -> bytes:
        text = b"/" + b"/".join(self.escaped(part, b"/?%#\0") for part in self.path())
        if text != b"/" and self.draw.chance(0.05):
            text += b"/"
        pairs = [self.form_escaped(name) + b"=" + self.form_escaped(value) for name, value in self.pairs]
        return text + (b"?" + b"&".join(pairs) if pairs or self.draw.chance(0.05) else b"")

    def form_escaped(self, text: bytes) -> bytes:
        space = self.draw.pick(b"+", b" ", b"%20")
        return space.join(self.escaped(part, b"&%+\0") for part in text.split(b" "))

    def escaped(self, text: bytes, marks: bytes) -> bytes:
        return b"".join(b"%%%02X" % byte if byte in marks or self.draw.chance(self.escapes) else bytes([byte]) for byte in text)
