"""Sessions of HTTP: the replies to the bytes of a connection."""

import re
from dataclasses import dataclass

from plain.profile import limits
from plain.profile.answers.target import Answer, page_answer, refusal_answer
from plain.profile.feeds.collections import Collections
from plain.profile.http.heads import Head, first_head
from plain.profile.refusals import NUMBERS, Refused
from plain.profile.targets.pages import Query
from plain.profile.targets.read import read_target

_PHRASES = {
    200: "OK",
    400: "Bad Request",
    404: "Not Found",
    405: "Method Not Allowed",
    413: "Content Too Large",
    505: "HTTP Version Not Supported",
}

_DATA = "application/prs.coverage+json"
_JSON = "application/json"

_PIECE = 4096  # bytes of a chunk
_CLOSING = 4  # the refusals up to this number close the session


@dataclass(frozen=True)
class Session:
    """What a connection is given, one reply for each request, and how it ends."""

    replies: list[bytes]
    editions: list[int]  # the numbers of those that were taken, one for each request that took one
    end: str  # EndOfInput, ClosedByPeer, ClosedByRefusal(n) or RequestLimit

    def output(self) -> bytes:
        """All bytes that are written."""
        return b"".join(self.replies)


@dataclass(frozen=True)
class _Reply:
    """What is said to one request, before it is known whether it ends the session."""

    answer: Answer
    content_type: str
    edition: int | None = None  # the number of the edition that was taken
    refusal: int | None = None  # the number of the refusal of the head


def serve(connection: bytes, editions: list[Collections]) -> Session:
    """Serves a connection. Each request finds the edition at its place, or the last one; they have the numbers from 1 on."""
    replies: list[bytes] = []
    taken: list[int] = []
    end, rest = None, connection
    while rest and end is None:
        turn = len(replies) + 1
        head, rest = first_head(rest) or (None, b"")
        reply = _reply(head, min(turn, len(editions)), editions)
        end = _end(head, reply, turn)
        has_body = head is None or head.method != b"HEAD"
        replies.append(_text(reply, is_last=end is not None, has_body=has_body))
        if reply.edition is not None:
            taken.append(reply.edition)
    return Session(replies, taken, end or "EndOfInput")


# What a request is told


def _refusal_of_head(head: Head | None) -> str | None:
    """The first refusal of a head that applies."""
    if head is None:
        return "BadHead"
    if head.values(b"transfer-encoding") or not all(re.fullmatch(rb"0+", each) for each in head.values(b"content-length")):
        return "BodyNotAllowed"
    if len(head.values(b"host")) != 1:
        return "BadHost"
    if head.minor != 1:
        return "VersionNotOffered"
    if head.method not in (b"GET", b"HEAD"):
        return "MethodNotOffered"
    return None


def _reply(head: Head | None, number: int, editions: list[Collections]) -> _Reply:
    """What is said to a head, or where there is none; the number is that of the edition it takes, where it takes one."""
    name = _refusal_of_head(head)
    if name is not None:
        return _Reply(refusal_answer(Refused(name)), _JSON, refusal=NUMBERS[name])
    try:
        page = read_target(head.target)
    except Refused as refused:
        return _Reply(refusal_answer(refused), _JSON)
    answer = page_answer(page, editions[number - 1])
    is_data = isinstance(page, Query) and answer.status == 200
    return _Reply(answer, _DATA if is_data else _JSON, edition=number)


def _end(head: Head | None, reply: _Reply, turn: int) -> str | None:
    """How the session ends with a reply, or None where it goes on."""
    if reply.refusal is not None and reply.refusal <= _CLOSING:
        return f"ClosedByRefusal({reply.refusal})"
    if head.says_close():
        return "ClosedByPeer"
    return "RequestLimit" if turn == limits.REQUESTS else None


# How a reply is written


def _text(reply: _Reply, is_last: bool, has_body: bool) -> bytes:
    status = reply.answer.status
    lines = [f"HTTP/1.1 {status} {_PHRASES[status]}", f"Content-Type: {reply.content_type}"]
    if reply.edition is not None:
        lines.append(f"X-Edr-Edition: {reply.edition}")
    if status == 405:
        lines.append("Allow: GET, HEAD")
    lines.append("Transfer-Encoding: chunked")
    if is_last:
        lines.append("Connection: close")
    head = "".join(line + "\r\n" for line in [*lines, ""]).encode("utf-8")
    return head + (chunked(reply.answer.text.encode("utf-8")) if has_body else b"")


def chunked(body: bytes) -> bytes:
    """A body in chunks, all of them full but the last."""
    pieces = [body[first : first + _PIECE] for first in range(0, len(body), _PIECE)]
    return b"".join(b"%x\r\n%s\r\n" % (len(piece), piece) for piece in pieces) + b"0\r\n\r\n"
