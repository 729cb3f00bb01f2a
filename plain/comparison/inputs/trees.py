"""Trees of JSON: their damages and their spellings.

A tree is as in json_text, and besides may hold `Spelled` texts, which stand as they are.
"""

import copy
from dataclasses import dataclass

from plain.comparison.inputs.draws import Draw, damaged_bytes

_MARKS = b'{}[]:,"\\0123456789+-.eEtfnul xyz\t\n/'


@dataclass(frozen=True)
class Spelled:
    """A text that stands as it is, perhaps no JSON."""

    text: str


_NUMBERS = (
    "0 1 2 -1 3 100000000 100000001 -100000000 -100000001 9007199254740991 9007199254740992 -9007199254740991 "
    "-9007199254740992 4000000 4000001 9223372036854775807 9223372036854775808 -9223372036854775808 -9223372036854775809 "
    "18446744073709551615 18446744073709551616 1.0 1.5 1e2 0.0 -0 -0.0 1E0 1e-1 0e0 1e308 1e309 1e999 -1e999 1e-999 "
    "123456789012345678901234567890"
).split()
_BROKEN = "01 -01 +1 .5 5. 1e 1e+ - -x 0x1 NaN Infinity -Infinity 1_0 nul True undefined 'x' // {,} [,] [1,] {a:1} \"".split()
_BROKEN_TEXTS = [
    '"\\ud800"', '"\\udc00"', '"\\ud800\\ud800"', '"\\ud800x"', '"\\u12"', '"\\x41"', '"\\u+123"', '"a\tb"', '"a\nb"',
    '"\x00"', '"\x1f"', '"\x1f"', '"\\U0041"', '"\\ud83d\\u0041"', '"abc',
]
_TEXTS = (
    "Coverage CoverageCollection Domain Grid Point PointSeries VerticalProfile MultiPoint Trajectory Polygon Section coverage "
    "NdArray TiledNdArray integer float string tuple polygon t x y z composite ProjectedCRS GeographicCRS VerticalCRS TemporalRS "
    "Gregorian gregorian Julian en de temp wind grid 1 2024-06-19 2024-01-01T00:00:00Z 2024-01-01t00:00z 2023-02-29T00:00:00Z "
    "2016-12-31T23:59:60Z 0000-01-01T00:00:00+00:01 9999-12-31T23:59:59-00:01 2024-01-01T01:00:00+01:00"
).split() + ["", "a,b", "\x7f", "é", "x" * 128, "x" * 129, "é" * 64, "é" * 65, "\U0001f600", "a\nb", 'a"b\\c', "\x1f", "\x0b\x1b", "\x00"]
KEYS = (
    "type domain domainType axes referencing parameters ranges coverages values start stop num coordinates dataType system id "
    "calendar label observedProperty categories unit symbol value axisNames shape x y z t composite en de temp wind "
    "collection grid drop publish instance coverage kind title crs vertical station"
).split()


def any_tree(draw: Draw):
    """A small tree of any type."""
    return draw.pick(
        None, True, False, 0, 1, -1, 3, Spelled(draw.choice(_NUMBERS)), draw.choice(_TEXTS), draw.choice(_TEXTS), [], {}, [0],
        ["x"], [[]], [None], {"a": 1}, {"en": "x"}, {"id": "x"}, {"value": "x"}, ["x", "y"], ["t", "x", "y"], {"values": [1]},
        {"start": 0, "stop": 2, "num": 3}, ["2024-01-01T00:00:00Z"],
    )


def nested(levels: int) -> Spelled:
    """So many lists and objects in each other."""
    return Spelled("[{\"a\":" * (levels // 2) + ("[]" if levels % 2 else "0") + "}]" * (levels // 2))


# Damages


def damaged_tree(draw: Draw, tree):
    """The tree with one damage somewhere."""
    tree = copy.deepcopy(tree)
    places = list(_places(tree))
    if not places:
        return any_tree(draw)
    holder, key = draw.choice(places)
    way = draw.choice(_WAYS)
    way(draw, holder, key, places)
    return tree


def _places(tree):
    """The holder and the key of each inner tree. Of long lists only some."""
    if isinstance(tree, dict):
        keys = list(tree)
    elif isinstance(tree, list):
        keys = list(range(len(tree))) if len(tree) <= 6 else [0, 1, len(tree) // 2, len(tree) - 1]
    else:
        return
    for key in keys:
        yield tree, key
        yield from _places(tree[key])


def _drop(draw, holder, key, places):
    del holder[key]


def _retype(draw, holder, key, places):
    holder[key] = any_tree(draw)


def _rename(draw, holder, key, places):
    if not isinstance(holder, dict):
        return _exchange(draw, holder, key, places)
    name = draw.pick(draw.choice(KEYS), key + "s", key.upper(), key[:-1], draw.choice(_TEXTS))
    members = [(name if other == key else other, tree) for other, tree in holder.items()]
    holder.clear()
    holder.update(members)


def _add(draw, holder, key, places):
    if isinstance(holder, dict):
        holder[draw.choice(KEYS)] = any_tree(draw)
    else:
        holder.insert(key, draw.pick(holder[key], any_tree(draw)))


def _exchange(draw, holder, key, places):
    """Exchanges two inner trees of one holder."""
    other = draw.choice([place for at, place in places if at is holder])
    holder[key], holder[other] = holder[other], holder[key]


def _copy_from(draw, holder, key, places):
    """Puts a tree from another place here."""
    other_holder, other_key = draw.choice(places)
    holder[key] = copy.deepcopy(other_holder[other_key])


def _tweak(draw, holder, key, places):
    """A value that is a little off: a number by one or of another spelling, a text by a letter, a list by an item."""
    value = holder[key]
    if type(value) is int:
        near = [value + 1, value - 1, -value, value * 2, Spelled(f"{value}.0"), Spelled(f"{value}e0"), Spelled(f"{value}.5")]
        holder[key] = draw.choice(near + [Spelled(draw.choice(_NUMBERS))])
    elif type(value) is str:
        holder[key] = draw.pick(draw.choice(_TEXTS), value + draw.pick("x", " ", "Z"), value[1:], value[:-1], value.swapcase())
    elif type(value) is list and value:
        at = draw.randrange(len(value))
        holder[key] = draw.pick(value[:at] + value[at + 1 :], value[: at + 1] + value[at:], value[::-1], value[:1], [])
    else:
        holder[key] = draw.pick(any_tree(draw), Spelled(draw.choice(_NUMBERS)))


def _break(draw, holder, key, places):
    """Something that is no JSON."""
    holder[key] = Spelled(draw.pick(draw.choice(_BROKEN), draw.choice(_BROKEN_TEXTS)))


def _nest(draw, holder, key, places):
    """About as many lists and objects in each other as may be."""
    if isinstance(holder, dict):
        key = draw.pick(key, "more")
    holder[key] = nested(draw.randint(117, 128))


_WAYS = [_drop] * 5 + [_retype] * 6 + [_rename] * 3 + [_add] * 4 + [_exchange] * 2 + [_copy_from] * 2 + [_tweak] * 9
_WAYS += [_break, _nest]


# Spellings


def spelled_tree(draw: Draw, tree, has_repeats: bool = True) -> str:
    """A text of a tree: its blanks, its escapes and the order of its members vary, and members may be repeated."""
    style = draw.pick("compact", "compact", "wide", "loose")
    speller = _Speller(draw, style)
    if not has_repeats:
        speller.repeats = 0
    return speller.text(tree)


class _Speller:
    def __init__(self, draw: Draw, style: str):
        self.draw = draw
        self.style = style
        self.escapes = draw.pick(0, 0, 0.03)
        self.repeats = draw.pick(0, 0, 0.05)
        self.shuffles = draw.pick(0, 0.5)

    def text(self, tree) -> str:
        if isinstance(tree, Spelled):
            return tree.text
        if isinstance(tree, dict):
            members = [self.string(str(key)) + self.blank() + ":" + self.blank() + self.text(tree[key]) for key in self.keys(tree)]
            return self.in_marks("{", members, "}")
        if isinstance(tree, list):
            return self.in_marks("[", [self.text(item) for item in tree], "]")
        if isinstance(tree, str):
            return self.string(tree)
        return {None: "null", True: "true", False: "false"}[tree] if tree is None or type(tree) is bool else str(tree)

    def keys(self, tree: dict) -> list:
        keys = list(tree)
        if self.draw.chance(self.shuffles):
            self.draw.shuffle(keys)
        return keys

    def in_marks(self, front: str, items: list[str], back: str) -> str:
        if front == "{" and items and self.repeats and self.draw.chance(self.repeats):
            items = self.with_repeat(items)
        comma = self.blank() + "," + self.blank()
        return front + self.blank() + comma.join(items) + self.blank() + back

    def with_repeat(self, items: list[str]) -> list[str]:
        """Some members, one of them a second time with another value, mostly before its last."""
        at = self.draw.randrange(len(items))
        key = items[at][: items[at].index('"', 1) + 1] if "\\" not in items[at] else '"type"'
        other = key + ":" + self.text(any_tree(self.draw))
        place = self.draw.randint(0, at) if self.draw.chance(0.8) else len(items)
        return items[:place] + [other] + items[place:]

    def string(self, text: str) -> str:
        return '"' + "".join(self.character(c) for c in text) + '"'

    def character(self, c: str) -> str:
        if c in '"\\' or ord(c) < 32:
            short = {'"': '\\"', "\\": "\\\\", "\b": "\\b", "\f": "\\f", "\n": "\\n", "\r": "\\r", "\t": "\\t"}
            return short[c] if c in short and self.draw.chance(0.5) else f"\\u{ord(c):04x}"
        if self.escapes and self.draw.chance(self.escapes):
            units = c.encode("utf-16-be")
            pairs = [units[at : at + 2].hex() for at in range(0, len(units), 2)]
            return "".join("\\u" + self.draw.pick(pair, pair.upper()) for pair in pairs)
        return "\\/" if c == "/" and self.draw.chance(0.1) else c

    def blank(self) -> str:
        if self.style == "compact":
            return ""
        if self.style == "wide":
            return " "
        return "".join(self.draw.choice(" \t\r ") for _ in range(self.draw.pick(0, 0, 1, 2)))


def damaged_text(draw: Draw, text: bytes) -> bytes:
    """A text of JSON with a damage that doesn't go by its tree."""
    way = draw.randrange(8)
    if way == 0:
        return draw.pick(b"\xef\xbb\xbf", b" ", b"\n", b"\x0c", b"\xc2\xa0", b"x") + text
    if way == 1:
        return text + draw.pick(b" ", b"\n", b"\r\n", b"\x00", b"}", b"null", b",", text)
    if way == 2 and b'"' in text:
        bad = draw.pick(b"\xff", b"\xc3", b"\xc0\x80", b"\xed\xa0\x80", b"\xf4\x90\x80\x80", b"\xe2\x82", b"\x80", b"\x1f", b"\x7f", b"\xf0\x9f\x98\x80")
        at = text.index(b'"', draw.randrange(text.rindex(b'"') + 1)) + 1
        return text[:at] + bad + text[at:]
    return damaged_bytes(draw, text, _MARKS)
