"""Values of targets, and ones that are nearly values."""

from plain.comparison.inputs.draws import Draw, damaged_bytes
from plain.comparison.inputs.geometries import Writer
from plain.comparison.inputs.texts import coordinate, instant, levels_text, spelled, time, times_text
from plain.profile import limits
from plain.profile.levels import At, read_levels
from plain.profile.targets.values import GREATEST_DISTANCE
from plain.profile.times import read_times

_NAMES = [b"temp", b"temp", b"wind", b"a", b"", b" ", "é".encode(), b"temp ", b"TEMP", b"a/b", b"\0", b"x" * 129, b"a)(b", b"\xff", b"\xe2\x82"]
_NAMES += [b"\xed\xa0\x80", b"\xf0\x9f\x98x", b"\xf4\x90\x80\x80", b"\xc0\xaf", b"\xf0\x80\x80", b"a=b", b"100%", "\ufeff".encode()]

_MANY_TRIES = 200


def _one_that(draw: Draw, make, is_wanted, otherwise: bytes) -> bytes:
    """The first text of a maker that is wanted."""
    for _ in range(_MANY_TRIES):
        text = make(draw)
        if is_wanted(text):
            return text
    return otherwise


def geometry_of(draw: Draw, forms: list[tuple[str, str]]) -> bytes:
    """A geometry of one of some tags and dims."""
    writer = Writer(draw)
    writer.faults = writer.slips = 0
    tag, writer.dims = draw.choice(forms)
    heading = writer.blank() + writer.in_any_case(tag) + writer.blank() + writer.in_any_case(writer.dims)
    return (heading + writer.blank() + writer.body(tag) + writer.blank()).encode()


def some_times(draw: Draw) -> bytes:
    if draw.chance(0.4):
        return instant(draw, time(draw)).encode()
    return _one_that(draw, times_text, lambda text: read_times(text) is not None, otherwise=b"../..")


def some_levels(draw: Draw) -> bytes:
    return _one_that(draw, levels_text, lambda text: read_levels(text) is not None, otherwise=b"R1/2/3")


def single_level(draw: Draw) -> bytes:
    return _one_that(draw, levels_text, lambda text: isinstance(read_levels(text), At), otherwise=b"0")


def several_levels(draw: Draw) -> bytes:
    def is_wanted(text: bytes) -> bool:
        levels = read_levels(text)
        return levels is not None and not isinstance(levels, At)

    return _one_that(draw, levels_text, is_wanted, otherwise=b"0/1")


def bad_text(draw: Draw, make, read) -> bytes:
    """A text of a maker that isn't read."""
    return _one_that(draw, make, lambda text: read(text) is None, otherwise=draw.pick(b"", b"x"))


def box_numbers(draw: Draw, count: int) -> list[int]:
    """The numbers of a box, each minimum before the maxima."""
    pairs = [sorted(min(max(coordinate(draw), -limits.COORDINATE), limits.COORDINATE) for _ in range(2)) for _ in range(count // 2)]
    return [low for low, _ in pairs] + [high for _, high in pairs]


def box_text(draw: Draw, numbers: list[int]) -> bytes:
    return ",".join(draw.pick("", "", "", " ") + spelled(draw, number) + draw.pick("", "", "", " ") for number in numbers).encode()


def box(draw: Draw) -> bytes:
    return box_text(draw, box_numbers(draw, draw.pick(4, 6)))


def bad_box(draw: Draw) -> bytes:
    numbers = box_numbers(draw, draw.pick(4, 6))
    half = len(numbers) // 2
    way = draw.randrange(6)
    if way == 0:
        place = draw.randrange(half)
        numbers[half + place] = numbers[place] - draw.pick(1, 1, 100)
    elif way == 1:
        numbers[draw.randrange(len(numbers))] = draw.pick(1, -1) * (limits.COORDINATE + draw.pick(0, 1))
    elif way == 2:
        numbers = numbers[: draw.randint(1, len(numbers))] + draw.pick([], [], [0], [0, 0, 0])
    elif way == 3:
        return box_text(draw, numbers).replace(b",", draw.pick(b", ", b";", b" ", b",,", b"/"), 1)
    elif way == 4:
        return box_text(draw, numbers) + draw.pick(b",", b".5", b"e1", b"\t", b"\n", b"x")
    return damaged_bytes(draw, box_text(draw, numbers), b"0123456789+-., ")


def distance(draw: Draw) -> tuple[bytes, bytes]:
    """A number and its unit that are a distance."""
    metres = draw.pick(0, 1, 100, 999, 1000, 1001, 400_000, GREATEST_DISTANCE, GREATEST_DISTANCE - 1, draw.randint(0, GREATEST_DISTANCE))
    if draw.chance(0.5):
        return _spelled_distance(draw, metres, 0), draw.pick(b"m", b"m", b"M")
    return _spelled_distance(draw, metres, 3), draw.pick(b"km", b"km", b"KM", b"Km", b"kM")


def _spelled_distance(draw: Draw, metres: int, room: int) -> bytes:
    """A number of metres, the point so many digits from the right."""
    digits = str(metres).rjust(room + 1, "0")
    whole, fraction = digits[: len(digits) - room], digits[len(digits) - room :]
    if draw.chance(0.6):
        fraction = fraction.rstrip("0")
    fraction += draw.pick("", "", "", "0", "000", "0" * 40)
    whole = draw.pick("", "", "", "0", "000", "0" * 40) + whole
    return (whole + ("." + fraction if fraction else draw.pick("", "", "", "."))).encode()


def bad_distance(draw: Draw) -> tuple[bytes, bytes]:
    """A number and its unit that are no distance, or nearly so."""
    number, unit = distance(draw)
    way = draw.randrange(5)
    if way == 0:
        return number, draw.pick(b"", b"mi", b"metres", b"mm", b"m ", b" km", b"k", b"\xe2\x84\xaam", b"km\0", b"kmm")
    if way == 1:
        return draw.pick(b"", b".", b".5", b"-1", b"+1", b" 1", b"1 ", b"1e3", b"1.5.0", b"1,5", b"x", b"0x1", b"-0", "١".encode()), unit
    if way == 2:
        return draw.choice([(b"1.0001", b"km"), (b"0.5", b"m"), (b"1.00000000000000000000000001", b"m"), (b"0.0009", b"KM"), (b"1.5", b"m")])
    if way == 3:
        return draw.choice(
            [(b"400000001", b"m"), (b"400000.001", b"km"), (b"400001", b"km"), (b"9" * 50, b"m"), (b"9" * 5000, b"km"), (b"400000.000", b"km")]
            + [(b"400000000.1", b"m"), (b"400000.0001", b"km"), (b"18446744073709551616", b"m"), (b"18446744073709551.617", b"km")]
        )
    return damaged_bytes(draw, number, b"0123456789.+- "), unit


def parameter_names(draw: Draw) -> bytes:
    return b",".join(draw.choice(_NAMES) for _ in range(draw.pick(1, 1, 2, 3, 5)))
