"""JSON (RFC 8259), read strictly and written without blanks.

A tree is None, a bool, an int, a float, a str, a list or a dict. A number is an int exactly where it is written without point
and exponent, isn't -0, and lies within 64 bits (from -2**63 to 2**64 - 1); every other number is a float.
"""

import math
import re

MOST_NESTED = 127  # lists and objects in each other

_BLANKS = re.compile(r"[ \t\n\r]*")
_NUMBER = re.compile(r"(-?(?:0|[1-9][0-9]*))(\.[0-9]+)?([eE][+-]?[0-9]+)?")
_PLAIN_TEXT = re.compile(r'[^"\\\x00-\x1f]*')
_FOUR_DIGITS = re.compile(r"[0-9A-Fa-f]{4}")

_WORDS = {"n": ("null", None), "t": ("true", True), "f": ("false", False)}
_ESCAPES = {'"': '"', "\\": "\\", "/": "/", "b": "\b", "f": "\f", "n": "\n", "r": "\r", "t": "\t"}

_DIGITS_OF_64_BITS = 20


class NotJson(Exception):
    """The text is no JSON."""


def is_whole(tree) -> bool:
    """Whether a tree is a whole number that is held in 64 bits."""
    return type(tree) is int


def is_number(tree) -> bool:
    """Whether a tree is a number."""
    return type(tree) in (int, float)


def read_json(written: bytes):
    """The tree that a text is. Raises NotJson."""
    try:
        text = written.decode("utf-8")
    except UnicodeDecodeError:
        raise NotJson from None
    reader = _Reader(text)
    tree = reader.value(0)
    reader.blanks()
    if reader.at != len(text):
        raise NotJson
    return tree


class _Reader:
    """Reads a text from its front on."""

    def __init__(self, text: str):
        self.text = text
        self.at = 0

    def blanks(self) -> None:
        self.at = _BLANKS.match(self.text, self.at).end()

    def next_mark(self) -> str:
        """The character that comes after blanks, or an empty text at the end."""
        self.blanks()
        return self.text[self.at : self.at + 1]

    def is_taken(self, mark: str) -> bool:
        if self.next_mark() != mark:
            return False
        self.at += 1
        return True

    def take(self, mark: str) -> None:
        if not self.is_taken(mark):
            raise NotJson

    def value(self, nested: int):
        mark = self.next_mark()
        if mark == "{":
            return self.object(nested + 1)
        if mark == "[":
            return self.list(nested + 1)
        if mark == '"':
            return self.string()
        if mark in _WORDS:
            return self.word(*_WORDS[mark])
        return self.number()

    def object(self, nested: int) -> dict:
        if nested > MOST_NESTED:
            raise NotJson
        self.take("{")
        members = {}
        if self.is_taken("}"):
            return members
        while True:
            if self.next_mark() != '"':
                raise NotJson
            key = self.string()
            self.take(":")
            # of two equal keys the last counts
            members[key] = self.value(nested)
            if self.is_taken("}"):
                return members
            self.take(",")

    def list(self, nested: int) -> list:
        if nested > MOST_NESTED:
            raise NotJson
        self.take("[")
        items = []
        if self.is_taken("]"):
            return items
        while True:
            items.append(self.value(nested))
            if self.is_taken("]"):
                return items
            self.take(",")

    def word(self, word: str, meaning):
        if not self.text.startswith(word, self.at):
            raise NotJson
        self.at += len(word)
        return meaning

    def number(self):
        found = _NUMBER.match(self.text, self.at)
        if found is None:
            raise NotJson
        self.at = found.end()
        digits, fraction, exponent = found.groups()
        if fraction is None and exponent is None and digits != "-0":
            if len(digits.lstrip("-")) <= _DIGITS_OF_64_BITS and -(2**63) <= int(digits) < 2**64:
                return int(digits)
        number = float(found[0])
        if math.isinf(number):
            raise NotJson
        return number

    def string(self) -> str:
        self.take('"')
        parts = []
        while True:
            plain = _PLAIN_TEXT.match(self.text, self.at)
            parts.append(plain[0])
            self.at = plain.end()
            mark = self.text[self.at : self.at + 1]
            self.at += 1
            if mark == '"':
                return "".join(parts)
            if mark != "\\":
                raise NotJson
            parts.append(self.escaped())

    def escaped(self) -> str:
        mark = self.text[self.at : self.at + 1]
        self.at += 1
        if mark in _ESCAPES:
            return _ESCAPES[mark]
        if mark != "u":
            raise NotJson
        unit = self.unit()
        if 0xDC00 <= unit < 0xE000:
            raise NotJson
        if not 0xD800 <= unit < 0xDC00:
            return chr(unit)
        # the first of a pair of surrogates, which don't stand alone
        if not self.text.startswith("\\u", self.at):
            raise NotJson
        self.at += 2
        second = self.unit()
        if not 0xDC00 <= second < 0xE000:
            raise NotJson
        return chr(0x10000 + ((unit - 0xD800) << 10) + (second - 0xDC00))

    def unit(self) -> int:
        found = _FOUR_DIGITS.match(self.text, self.at)
        if found is None:
            raise NotJson
        self.at = found.end()
        return int(found[0], 16)


_SHORT_ESCAPES = {'"': '\\"', "\\": "\\\\", "\b": "\\b", "\t": "\\t", "\n": "\\n", "\f": "\\f", "\r": "\\r"}


def _escaped(character: str) -> str:
    if character in _SHORT_ESCAPES:
        return _SHORT_ESCAPES[character]
    return f"\\u{ord(character):04x}" if ord(character) < 32 else character


def write_text(text: str) -> str:
    """A text as JSON."""
    return '"' + "".join(map(_escaped, text)) + '"'


def write_json(tree) -> str:
    """The text of a tree without floats: no blanks, and the keys of each object ascend by their bytes."""
    if tree is None:
        return "null"
    if type(tree) is bool:
        return "true" if tree else "false"
    if type(tree) is int:
        return str(tree)
    if type(tree) is str:
        return write_text(tree)
    if type(tree) is list:
        return "[" + ",".join(map(write_json, tree)) + "]"
    # the order of code points is that of the bytes of UTF-8
    return "{" + ",".join(write_text(key) + ":" + write_json(tree[key]) for key in sorted(tree)) + "}"
