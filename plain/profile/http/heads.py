"""Heads of requests, and of replies as the client reads them (RFC 9112, sections 2 to 5)."""

import re
from dataclasses import dataclass

from plain.profile import limits
from plain.profile.names import is_utf8

_LINE_END = rb"\r?\n"
_TOKEN = rb"[0-9A-Za-z!#$%&'*+\-.^_`|~]+"
_TARGET = rb"[\x21-\x7e\x80-\xff]+"
_VALUE = rb"[\t\x20-\x7e\x80-\xff]*"

# the name, and the value with the blanks around it
_FIELD = re.compile(rb"(%s):(%s)%s" % (_TOKEN, _VALUE, _LINE_END))

# the end of the first line; fields; an empty line
_FIELDS = rb"%s((?:%s:%s%s)*+)%s" % (_LINE_END, _TOKEN, _VALUE, _LINE_END, _LINE_END)

# empty lines; the method, the target and the version; fields
_HEAD = re.compile(rb"(?:%s)*+(%s) (%s) HTTP/1\.([01])%s" % (_LINE_END, _TOKEN, _TARGET, _FIELDS))

# empty lines; the version, the status, and perhaps a phrase; fields
_REPLY_HEAD = re.compile(rb"(?:%s)*+HTTP/1\.1 ([0-9]{3})(?: %s)?%s" % (_LINE_END, _VALUE, _FIELDS))


class _WithFields:
    """What has fields: their names in lower case, and their values without the blanks around them."""

    fields: list[tuple[bytes, bytes]]

    def values(self, name: bytes) -> list[bytes]:
        """The values of all fields of a name, which is in lower case."""
        return [value for each, value in self.fields if each == name]


@dataclass(frozen=True)
class Head(_WithFields):
    """The parts of the head of a request."""

    method: bytes
    target: bytes
    minor: int  # 0 or 1, of HTTP/1.0 or HTTP/1.1
    fields: list[tuple[bytes, bytes]]

    def says_close(self) -> bool:
        """Whether a Connection field lists `close`."""
        listed = [part for value in self.values(b"connection") for part in value.split(b",")]
        return any(part.strip(b" \t").lower() == b"close" for part in listed)


@dataclass(frozen=True)
class ReplyHead(_WithFields):
    """The parts of the head of a reply, and how many bytes it has."""

    status: int
    fields: list[tuple[bytes, bytes]]
    length: int


def first_head(text: bytes) -> tuple[Head, bytes] | None:
    """The head that a text begins with, and the text behind it; None where it begins with none."""
    found = _HEAD.match(text, 0, limits.HEAD_BYTES)
    if found is None:
        return None
    method, target, minor, section = found.groups()
    fields = _fields(section)
    if len(fields) > limits.HEAD_FIELDS or not is_utf8(target):
        return None
    return Head(method, target, int(minor), fields), text[found.end() :]


def first_reply_head(text: bytes) -> ReplyHead | None:
    """The head of a reply that a text begins with; None where it begins with none."""
    found = _REPLY_HEAD.match(text, 0, limits.HEAD_BYTES)
    if found is None:
        return None
    status, section = found.groups()
    fields = _fields(section)
    return ReplyHead(int(status), fields, found.end()) if len(fields) <= limits.HEAD_FIELDS else None


def _fields(section: bytes) -> list[tuple[bytes, bytes]]:
    return [(name.lower(), raw.strip(b" \t")) for name, raw in _FIELD.findall(section)]
