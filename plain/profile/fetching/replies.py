"""Replies as the client reads them (the profile's section of that name; RFC 9112, sections 4, 6 and 7): a head, a body, and what they
stand for."""

import re
from dataclasses import dataclass
from typing import Iterable

from plain.profile import limits
from plain.profile.coverage_json.coverages import Document
from plain.profile.coverage_json.read import read_document
from plain.profile.http.heads import ReplyHead, first_reply_head
from plain.profile.json_text import NotJson, read_json
from plain.profile.whole_numbers import signed

# the number of bytes, perhaps an extension
_CHUNK_LINE = re.compile(rb"([0-9A-Fa-f]{1,16})[ \t]*(?:;[^\r\n]*)?\r\n")


class BadReply(Exception):
    """The bytes begin with no reply: a part isn't there, or isn't there whole, of which this is the first byte."""

    def __init__(self, place: int):
        super().__init__(place)
        self.place = place


class NotData(Exception):
    """The reply has another status than 200. The code is a text of its body, perhaps empty."""

    def __init__(self, status: int, code: str):
        super().__init__(status, code)
        self.status = status
        self.code = code


@dataclass(frozen=True)
class Reply:
    """A document, and the number of its edition where there is one."""

    document: Document
    edition: int | None


def read_reply(pieces: Iterable[bytes]) -> Reply:
    """The reply that a peer gives, piece by piece. Raises BadReply, or else NotData, or else CoverageFault."""
    parts = _Parts(pieces)
    head = parts.head()
    body = _body(head, parts)
    if head.status != 200:
        raise NotData(head.status, _code(body))
    return Reply(read_document(body), _edition(head))


def _body(head: ReplyHead, parts: "_Parts") -> bytes:
    if head.values(b"transfer-encoding") == [b"chunked"]:
        return _joined_chunks(parts)
    lengths = head.values(b"content-length")
    if len(lengths) == 1 and re.fullmatch(rb"[0-9]+", lengths[0]):
        return _body_of_length(signed(False, lengths[0]), parts)
    return parts.all_that_follows()


def _joined_chunks(parts: "_Parts") -> bytes:
    body = bytearray()
    while True:
        line = parts.at
        length = parts.chunk_line()
        if len(body) + length > limits.BODY_BYTES:
            raise BadReply(line)
        if length == 0:
            break
        body += parts.bytes_of(length)
        parts.line_end()
    parts.line_end()
    return bytes(body)


def _body_of_length(length: int, parts: "_Parts") -> bytes:
    if length > limits.BODY_BYTES:
        raise BadReply(parts.at)
    return parts.bytes_of(length)


def _code(body: bytes) -> str:
    """The text of the member `code` of a JSON object, or an empty text."""
    try:
        tree = read_json(body)
    except NotJson:
        return ""
    code = tree.get("code") if type(tree) is dict else None
    return code if type(code) is str else ""


def _edition(head: ReplyHead) -> int | None:
    values = head.values(b"x-edr-edition")
    if len(values) != 1 or not re.fullmatch(rb"[0-9]+", values[0]):
        return None
    number = signed(False, values[0])
    return number if number < 2**64 else None


class _Parts:
    """Takes part after part of what a peer gives. What a part needs is taken of the pieces, and no more. Each call raises BadReply where
    its part isn't there whole, and OSError where a piece can't be had."""

    def __init__(self, pieces: Iterable[bytes]):
        self.pieces = iter(pieces)
        self.held = bytearray()
        self.at = 0  # where the next part begins

    def head(self) -> ReplyHead:
        while (found := first_reply_head(self.held)) is None:
            if len(self.held) >= limits.HEAD_BYTES or not self.has_more():
                raise BadReply(self.at)
        self.at = found.length
        return found

    def chunk_line(self) -> int:
        """The number that the line before a chunk gives."""
        end = self.at + limits.CHUNK_LINE_BYTES
        while b"\n" not in self.held[self.at : end] and len(self.held) < end and self.has_more():
            pass
        found = _CHUNK_LINE.match(self.held, self.at, end)
        if found is None:
            raise BadReply(self.at)
        self.at = found.end()
        return int(found[1], 16)

    def bytes_of(self, length: int) -> bytes:
        end = self.at + length
        while len(self.held) < end and self.has_more():
            pass
        if len(self.held) < end:
            raise BadReply(self.at)
        found, self.at = bytes(self.held[self.at : end]), end
        return found

    def line_end(self) -> None:
        place = self.at
        if self.bytes_of(2) != b"\r\n":
            raise BadReply(place)

    def all_that_follows(self) -> bytes:
        while len(self.held) <= self.at + limits.BODY_BYTES and self.has_more():
            pass
        return _body_of_length(len(self.held) - self.at, self)

    def has_more(self) -> bool:
        """Takes a piece, where there is one more."""
        piece = next(self.pieces, None)
        self.held += piece or b""
        return piece is not None
