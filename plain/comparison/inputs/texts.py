"""Texts of numbers, instants, times and levels."""

from plain.comparison.inputs.draws import Draw, damaged_bytes
from plain.profile import limits
from plain.profile.times import write_instant

_NUMBER_MARKS = b"0123456789+-. \te,/"
_TIME_MARKS = b"0123456789-:TtZz+./ "
_LEVEL_MARKS = b"0123456789+-. ,/Rr"


# Numbers


def spelled(draw: Draw, number: int) -> str:
    """A spelling of a number without spaces, mostly the plain one."""
    if draw.chance(0.6):
        return str(number)
    sign = "-" if number < 0 else draw.pick("", "+")
    zeros = draw.pick("", "", "0", "000")
    point = draw.pick("", ".", ".0", ".000")
    digits = str(abs(number))
    if number == 0 and point not in ("", ".") and draw.chance(0.5):
        digits = zeros = ""
    return sign + zeros + digits + point


def coordinate(draw: Draw) -> int:
    """A number round the limits of coordinates, or a small one."""
    if draw.chance(0.7):
        return draw.randint(-300, 300)
    return draw.near(0, limits.COORDINATE, -limits.COORDINATE, draw.randint(-limits.COORDINATE, limits.COORDINATE))


def number_text(draw: Draw) -> bytes:
    """A whole number, or nearly one."""
    if draw.chance(0.5):
        text = draw.pick("", "", " ", "   ") + spelled(draw, coordinate(draw)) + draw.pick("", "", " ", "   ")
    else:
        sign = draw.pick("", "", "+", "-", "--", "+-", " ", "+ ")
        digits = draw.pick("", "0", draw.digits(1, 3), draw.digits(8, 10), draw.digits(18, 40), "0" * 40 + draw.digits(1, 9))
        point = draw.pick("", "", ".", ".0", ".00", ".000000000", ".5", ".01", "..", ".0.", "e2", ".0e0", ",0")
        text = draw.pick("", " ", "\t") + sign + digits + point + draw.pick("", " ", "\n")
    written = text.encode()
    return damaged_bytes(draw, written, _NUMBER_MARKS) if draw.chance(0.25) else written


# Instants


def time(draw: Draw) -> int:
    """A time within the limits."""
    middle = draw.pick(0, 951_782_400, 1_704_067_200, 1_709_164_800, -2_203_891_200, -62_162_121_600)
    near_end = draw.pick(limits.EARLIEST_TIME, limits.LATEST_TIME)
    anywhere = draw.randint(limits.EARLIEST_TIME, limits.LATEST_TIME)
    found = draw.pick(middle, middle, near_end, anywhere) + draw.pick(0, 0, 1, -1, 59, 60, 3600, -3600, 86_400)
    return min(max(found, limits.EARLIEST_TIME), limits.LATEST_TIME)


def instant(draw: Draw, moment: int) -> str:
    """A spelling of a time, mostly the written one."""
    if draw.chance(0.4):
        return write_instant(moment)
    offset = draw.pick(0, 0, 60, 3600, 19_800, 86_340, draw.randrange(1440) * 60)
    sign = draw.pick("+", "-", " ")
    local = moment - offset if sign == "-" else moment + offset
    if not limits.is_time(local):
        return write_instant(moment)
    text = write_instant(local)[:-1]
    if text.endswith(":00") and draw.chance(0.4):
        text = text[:-3]
    elif draw.chance(0.3):
        text += draw.pick(".0", ".000", ".000000000")
    if draw.chance(0.3):
        text = text.replace("T", "t")
    zone = f"{sign}{offset // 3600:02}:{offset % 3600 // 60:02}"
    if offset == 0 and draw.chance(0.7):
        zone = draw.pick("Z", "Z", "z")
    return text + zone


def _loose_instant(draw: Draw) -> str:
    """An instant whose parts are each near their limits, or of another form."""
    if draw.chance(0.1):
        return _instant_at_ends(draw)
    year = draw.pick("0000", "0001", "1582", "1900", "1970", "2000", "2023", "2024", "9999", "10000", "999", draw.digits(4, 4))
    month = draw.pick(*["02"] * 6, "01", "03", "04", "06", "09", "11", "12", "12", "00", "13", draw.digits(1, 2))
    day = draw.pick("01", "28", "29", "29", "30", "30", "31", "31", "32", "00", "1", draw.digits(2, 2))
    clock = draw.pick("00:00", "23:59", "12:34", "24:00", "23:60", "1:00", "0000", draw.digits(2, 2) + ":" + draw.digits(2, 2))
    second = draw.pick("", ":00", ":59", ":60", ":61", ":0", ":00.0", ":00.", ":00.5", ":00.00", ":59.000", ":00,0")
    zone = draw.pick("Z", "z", "+00:00", "-00:00", "+23:59", "-23:59", "+24:00", "+00:60", "-01:60", " 01:00", "", "+01", "+0100", "-01:00")
    return f"{year}-{month}-{day}{draw.pick('T', 'T', 't', ' ', '')}{clock}{second}{zone}"


def _instant_at_ends(draw: Draw) -> str:
    """An instant whose zone takes it up to the first or the last time, or beyond."""
    date = draw.pick("0000-01-01T", "9999-12-31T", "0000-01-02T", "9999-12-30T")
    clock = draw.pick("00:00:00", "00:01:00", "00:59", "23:59:59", "23:58:59", "23:00")
    return date + clock + draw.pick("+", "-", " ") + draw.pick("00:00", "00:01", "00:59", "01:00", "23:59")


def instant_text(draw: Draw) -> bytes:
    """An instant, or nearly one."""
    text = instant(draw, time(draw)) if draw.chance(0.4) else _loose_instant(draw)
    written = text.encode()
    return damaged_bytes(draw, written, _TIME_MARKS) if draw.chance(0.2) else written


# Times and levels of a request


def times_text(draw: Draw) -> bytes:
    """Times of a request, or nearly so."""
    first = time(draw)
    last = draw.pick(first, first + 1, first - 1, time(draw))
    last = min(max(last, limits.EARLIEST_TIME), limits.LATEST_TIME)
    if draw.chance(0.6):
        first, last = min(first, last), max(first, last)
    sides = [_side(draw, first), _side(draw, last)]
    form = draw.random()
    if form < 0.15:
        sides = sides[:1]
    elif form < 0.2:
        sides.append(draw.pick("", "..", sides[0]))
    written = draw.pick("/", "/", "/", "/", "/", "//", "-", ",").join(sides).encode()
    return damaged_bytes(draw, written, _TIME_MARKS) if draw.chance(0.15) else written


def _side(draw: Draw, moment: int) -> str:
    return draw.pick("", "..", ".", "...") if draw.chance(0.3) else instant(draw, moment)


def levels_text(draw: Draw) -> bytes:
    """Levels of a request, or nearly so."""
    form = draw.randrange(4)
    if form == 0:
        parts, mark, front = [_level(draw)], "", ""
    elif form == 1:
        parts, mark, front = [_level(draw) for _ in range(draw.pick(2, 2, 2, 2, 1, 3))], "/", ""
        if draw.chance(0.6):
            parts.sort()
    elif form == 2:
        parts, mark, front = [_level(draw) for _ in range(draw.randint(1, 5))], ",", ""
    else:
        parts, mark, front = _series(draw), "/", draw.pick("R", "R", "R", "R", "r", "", " R")
    written = (front + mark.join(_loosely_spelled(draw, part) for part in parts)).encode()
    return damaged_bytes(draw, written, _LEVEL_MARKS) if draw.chance(0.2) else written


def _level(draw: Draw) -> int:
    return draw.pick(0, 10, 20, coordinate(draw), coordinate(draw))


def _series(draw: Draw) -> list[int]:
    count = draw.pick(1, 2, 3, 5, 100, 0, -1, draw.near(limits.COORDINATE))
    step = draw.pick(1, 2, 10, 1000, 0, -1, draw.near(limits.COORDINATE))
    last = draw.near(limits.COORDINATE) if draw.chance(0.4) else draw.randint(-300, 3000)
    first = last - (count - 1) * step if draw.chance(0.7) else _level(draw)
    parts = [count, first, step]
    return parts if draw.chance(0.9) else parts[: draw.randint(1, 2)] + draw.pick([], [1, 2])


def _loosely_spelled(draw: Draw, number: int) -> str:
    if draw.chance(0.05):
        return draw.pick("", " ", "x", "1.5", "1e2", "..")
    return draw.pick("", "", "", " ") + spelled(draw, number) + draw.pick("", "", "", " ")
