"""Well-known text."""

from plain.comparison.inputs.draws import Draw, damaged_bytes
from plain.comparison.inputs.texts import coordinate, spelled
from plain.profile import limits

_MARKS = b"0123456789+-.(), \t\nZMzmPOINTe"


def geometry_text(draw: Draw) -> bytes:
    """Well-known text, or nearly so."""
    return Writer(draw).text()


class Writer:
    """Writes one text. Some of its numbers, counts and marks are wrong now and then."""

    def __init__(self, draw: Draw):
        self.draw = draw
        self.blanks = draw.pick("", "", "", " ", " \t\r\n")
        self.faults = draw.pick(0, 0, 0.02, 0.1)  # of the grammar
        self.slips = draw.pick(0, 0, 0.05, 0.2)  # of limits, rings and m
        self.dims = draw.pick("", "", "", "Z", "M", "ZM")
        self.m = draw.randint(-5, 5)

    def text(self) -> bytes:
        tag = self.draw.pick("POINT", "MULTIPOINT", "LINESTRING", "POLYGON", "MULTIPOLYGON")
        body = self.body(tag)
        if self.is_fault():
            tag = self.draw.pick("", "POIN", "POINTS", "MULTI", "MULTILINESTRING", "GEOMETRYCOLLECTION", "POINT", "POLYGON")
        dims = self.dims
        if self.is_fault():
            dims = self.draw.pick("", "Z", "M", "ZM", "MZ", "Z M", "ZZ", "X")
        heading = self.blank() + self.in_any_case(tag) + self.blank() + self.in_any_case(dims) + self.blank()
        if self.is_fault():
            body = self.draw.pick("EMPTY", "", "()", "(())", body + body, body + ";", "(" + body + ")")
        text = (heading + body + self.blank()).encode()
        return damaged_bytes(self.draw, text, _MARKS) if self.draw.chance(0.2) else text

    def body(self, tag: str) -> str:
        if tag == "POINT":
            return self.in_brackets([self.written(self.position()) for _ in range(self.count(1, 1, least=1))])
        if tag == "MULTIPOINT":
            return self.in_brackets([self.member() for _ in range(self.count(1, 4, least=1))])
        if tag == "LINESTRING":
            return self.in_brackets([self.written(self.position()) for _ in range(self.count(2, 5, least=2))])
        if tag == "POLYGON":
            return self.polygon()
        return self.in_brackets([self.polygon() for _ in range(self.count(1, 3, least=1))])

    def polygon(self) -> str:
        return self.in_brackets([self.ring() for _ in range(self.count(1, 3, least=1))])

    def ring(self) -> str:
        positions = [self.position() for _ in range(self.count(3, 5, least=3))]
        if not self.is_fault():
            positions.append(positions[0] if positions else self.position())
        if positions and positions[-1] and self.is_slip():
            place = self.draw.randrange(len(positions[-1]))
            positions[-1] = [n + (at == place) for at, n in enumerate(positions[-1])]
        return self.in_brackets([self.written(position) for position in positions])

    def member(self) -> str:
        text = self.written(self.position())
        return self.in_brackets([text]) if self.draw.chance(0.5) else text

    def position(self) -> list[int]:
        numbers = [self.coordinate() for _ in range(2 + ("Z" in self.dims))]
        if "M" in self.dims:
            numbers.append(self.measure())
        if self.is_fault():
            numbers = self.draw.pick(numbers[:-1], numbers + [0], [])
        return numbers

    def coordinate(self) -> int:
        if self.slips and self.draw.chance(self.slips / 4):
            return self.draw.pick(limits.COORDINATE + 1, -limits.COORDINATE - 1, 10**30, -(10**9))
        return min(max(coordinate(self.draw), -limits.COORDINATE), limits.COORDINATE)

    def measure(self) -> int:
        """The next m, which mostly isn't below the one before."""
        if self.slips and self.draw.chance(self.slips / 8):
            return self.draw.near(limits.LATEST_TIME, limits.EARLIEST_TIME)
        self.m += -1 if self.is_slip() else self.draw.pick(0, 1, 5)
        return self.m

    def written(self, position: list[int]) -> str:
        texts = [self.number(number) for number in position]
        return "".join(self.draw.pick(" ", " ", " " + self.blank()) + text for text in texts)[self.draw.pick(0, 1) :]

    def number(self, number: int) -> str:
        if self.is_fault():
            return self.draw.pick("1.5", "1e2", "", "x", "+", "-", ".", "1 ", "1..0", ".5", "- 1", "1,2", "1.0.0")
        return spelled(self.draw, number)

    def in_brackets(self, items: list[str]) -> str:
        comma = self.draw.pick(";", ",,", "", " ") if self.is_fault() else self.blank() + "," + self.blank()
        front = self.draw.pick("", "[", "((") if self.is_fault() else "("
        back = self.draw.pick("", "]", "))") if self.is_fault() else ")"
        return self.blank() + front + self.blank() + comma.join(items) + self.blank() + back + self.blank()

    def count(self, low: int, high: int, least: int) -> int:
        if self.is_fault():
            return self.draw.pick(0, max(0, least - 1), least + 1)
        return self.draw.randint(low, high)

    def blank(self) -> str:
        if not self.blanks or self.draw.chance(0.5):
            return ""
        return "".join(self.draw.choice(self.blanks) for _ in range(self.draw.randint(1, 3)))

    def in_any_case(self, text: str) -> str:
        way = self.draw.randrange(4)
        if way < 2:
            return text
        return text.lower() if way == 2 else "".join(self.draw.pick(c.lower(), c.upper()) for c in text)

    def is_fault(self) -> bool:
        return self.faults > 0 and self.draw.chance(self.faults)

    def is_slip(self) -> bool:
        return self.slips > 0 and self.draw.chance(self.slips)


def many_positions_text(draw: Draw) -> bytes:
    """A geometry of about 10,000 positions."""
    count = draw.pick(9_998, 9_999, 10_000, 10_001, 10_002)
    positions = [f"{draw.randint(-9, 9)} {draw.randint(-9, 9)}" for _ in range(count)]
    fault = draw.randrange(6)
    if fault == 0:
        positions[draw.randrange(count)] = "100000001 0"
    if fault == 1:
        positions[-1] = "1.5 0"
    if draw.chance(0.5):
        return f"{draw.pick('MULTIPOINT', 'LINESTRING')}({','.join(positions)})".encode()
    if fault != 2:
        positions[-1] = positions[0]
    return f"POLYGON(({','.join(positions)}))".encode()
