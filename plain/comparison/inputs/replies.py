"""Replies of a peer: right ones of every form, and ones with damages."""

from dataclasses import dataclass
from typing import Sequence

from plain.comparison.inputs.documents import shown_text
from plain.comparison.inputs.draws import Draw, damaged_bytes
from plain.comparison.inputs.heads import Head
from plain.comparison.inputs.trees import any_tree, spelled_tree
from plain.profile import limits

_MARKS = b" \t\r\n:;/,.0123456789abcdefHTP\0\x7f\xff"
_BLOCKS = (4_096, 8_192, 16_384, 65_536)  # lengths about which a reader may go wrong

_STATUSES = (b"404", b"400", b"500", b"503", b"301", b"302", b"204", b"201", b"206", b"304", b"100", b"101", b"199", b"000", b"020", b"099", b"999", b"405")
_PHRASES = (b" OK", b" OK", b" OK", b"", b" ", b"  ", b" Not Found", b" \tno\t", b" \xff\xe9", b" OK ", b" 200 OK", b" HTTP/1.1")
_NO_PHRASES = (b" O\x7fK", b" O\x00K", b" OK\r", b"\tOK", b"OK", b"-", b" O\x1fK", b" \x0b")
_NO_STATUSES = (b"20", b"2000", b"2x0", b"", b"-20", b"+200", b" 200", b"2 0", b"0xc", b"\xb2\xb0\xb0", b"200.", b"20O")
_NO_VERSIONS = (b"HTTP/1.0", b"HTTP/1.2", b"HTTP/2", b"HTTP/2.0", b"http/1.1", b"HTTP/1.11", b"HTTP/ 1.1", b"HTTP/1.1 ", b" HTTP/1.1", b"ICY", b"", b"HTTP/1", b"HTTP 1.1")

_NAMES = (b"Content-Type", b"Server", b"Date", b"Location", b"Vary", b"X", b"X-Edr-Edition", b"Connection", b"Trailer", b"Transfer-Encodin", b"Content-Lengths", b"TE", b"!#$%&'*+-.^_`|~")
_VALUES = (b"application/prs.coverage+json", b"application/json", b"text/html; charset=utf-8", b"", b"1", b"18446744073709551616", b"close", b"keep-alive", b"http://a.invalid/", b"a:b", b"\xff\x80", b"a\tb", b"chunked", b"x" * 300)
_NO_FIELDS = (b"A : b", b" A: b", b"\tb", b": b", b"A", b"A b", b"A(: b", b"\xc3\xa9: b", b"A: \0", b"A: \x7f", b"A: b\x1f", b"A: b\r", b"A: b\rc", b"A\t: b", b"A: \x0b", b"HTTP/1.1 200 OK")

_CODINGS = (b"Chunked", b"CHUNKED", b"identity", b"gzip", b"gzip, chunked", b"chunked, chunked", b"chunked,", b",chunked", b"", b"chunked;a=b", b"\"chunked\"", b"chunke", b"chunkedd", b"chunked\x80", b"chunked chunked")
_SIGNED = (b"+%d", b"-%d", b"%d,%d", b"%d, %d", b"0x%x", b"%d.0", b"%d;", b"\"%d\"", b"%d %d", b"", b"%d\x80", b"%dO")
_TOO_LONG = (b"67108865", b"0067108866", b"4294967296", b"9223372036854775808", b"18446744073709551615", b"18446744073709551616", b"1" + b"0" * 25, b"7" * 5_000)

_EXTENSIONS = (b";", b";a", b";a=b", b";a=\"b;c\"", b"; \t", b";\x00\x7f\xff", b";;", b"; 5", b";:" * 40)
_NO_LINES = (b"", b" %x", b"%x ;a\rb", b"0x%x", b"+%x", b"-%x", b"%x x", b"%x\0", b"g", b"%x,", b"%x;\r", b";", b"%x\r", b"%xh", b"\t%x", b"%x \x0b", b"%x:", b"%017x", b"%0300x", b"%x a;b", b"%x\xa0")
_LARGE = (b"4000001", b"4000000", b"3ffffff", b"ffffffff", b"100000000", b"7fffffffffffffff", b"8000000000000000", b"ffffffffffffffff", b"FFFFFFFFFFFFFFFF", b"10000000000000000", b"00000000004000001")
_NO_ENDS = (b"", b"\n", b"\r", b"\n\r", b"\r\r\n", b" \r\n", b"\r\n\r\n", b"x\r\n", b"\r\n ")
_TRAILERS = (b"A: b\r\n\r\n", b"A: b\r\n", b"\n", b"\r", b"", b" \r\n", b"\r", b"0\r\n\r\n", b"x\r\n")

_CODES = ("NoSamples", "", "é", 'a"b', 5, None, True, [], {}, ["NoSamples"], "x" * 200)


@dataclass(frozen=True)
class Script:
    """What a peer gives, piece by piece, and what it does then: it closes, breaks off, or waits to be left."""

    pieces: tuple[bytes, ...]
    end: str = "closes"  # or `breaks off`, or `waits`


def reply_script(draw: Draw) -> Script:
    """A reply, without damage, with one, or with two; perhaps cut or damaged somewhere."""
    reply = _Reply(draw, draw.pick(0, 0, 0, 0, 0, 1, 1, 1, 2))
    text, end = reply.text(), "closes"
    if reply.tells_its_end and draw.chance(0.3):
        end = "waits"
    elif not reply.is_damaged and draw.chance(0.04):
        text, end = text[: draw.pick(len(text), draw.randint(0, len(text)))], "breaks off"
    elif draw.chance(0.06):
        text = damaged_bytes(draw, text, _MARKS)
    elif draw.chance(0.06):
        text = text[: draw.randint(0, len(text))]
    elif draw.chance(0.06):
        text += draw.pick(b"\r\n", b"\n", b"x", b"HTTP/1.1 200 OK\r\n\r\n", b"0\r\n\r\n", b" " * 5000, text)
    return Script(_pieces(draw, text), end)


def _pieces(draw: Draw, text: bytes) -> tuple[bytes, ...]:
    return tuple(_steps(text, sorted(draw.randint(0, len(text)) for _ in range(draw.pick(0, 0, 0, 1, 2, 4)))))


def large_reply_script(draw: Draw, body: bytes) -> Script:
    """A reply with a body of about as many bytes as may be."""
    framing = draw.pick("chunks", "chunks", "length", "end")
    head = b"HTTP/1.1 200 OK\r\n"
    if framing == "length":
        head += b"Content-Length: %d\r\n" % len(body)
    if framing == "chunks":
        head += b"Transfer-Encoding: chunked\r\n"
        step = draw.pick(4_096, 65_536, 1_000_000, limits.BODY_BYTES, len(body))
        body = b"".join(b"%x\r\n%s\r\n" % (len(piece), piece) for piece in _steps(body, range(step, len(body), step))) + b"0\r\n\r\n"
    return Script((head + b"\r\n", body))


class _Reply(Head):
    """Makes one reply: a right one, with some damages."""

    def __init__(self, draw: Draw, damages: int):
        super().__init__(draw)
        self.version = b"HTTP/1.1"
        self.status = b"200" if draw.chance(0.85) else draw.choice(_STATUSES)
        self.phrase = draw.choice(_PHRASES)
        self.end = draw.pick(b"\r\n", b"\r\n", b"\r\n", b"\r\n", b"\n")
        for _ in range(draw.pick(0, 0, 1, 2, 3)):
            self.add(draw.choice(_NAMES), draw.choice(_VALUES))
        self.head_length: int | None = None
        self.body = _body(draw, self.status)
        self.framing = draw.pick("chunks", "chunks", "chunks", "length", "length", "end")
        self.chunks = [_Chunk(draw, piece) for piece in _cut(draw, self.body)] if self.framing == "chunks" else []
        self.last = _Chunk(draw, b"")
        if self.framing == "chunks":
            self.add(b"Transfer-Encoding", b"chunked")
        if self.framing == "length" or self.framing == "chunks" and draw.chance(0.2):
            self.add(b"Content-Length", b"0" * draw.pick(0, 0, 0, 1, 30) + b"%d" % len(self.body))
        self.is_damaged = damages > 0
        self.tells_its_end = not self.is_damaged and self.framing != "end"
        for _ in range(damages):
            draw.choice(_DAMAGES)(self)

    def without(self, name: bytes) -> None:
        """Drops the fields of a name."""
        self.lines = [line for line in self.lines if not line.lower().startswith(name + b":")]

    def any_chunk(self) -> "_Chunk":
        return self.draw.choice([*self.chunks, self.last])

    def text(self) -> bytes:
        if self.head_length is not None:
            self.fill(self.head_length - len(self.head()))
        if self.framing != "chunks":
            return self.head() + self.body
        return self.head() + b"".join(chunk.text() for chunk in [*self.chunks, self.last])

    def first_line(self) -> bytes:
        return self.version + b" " + self.status + self.phrase

    def fill(self, count: int) -> None:
        """Makes the head longer by so many bytes."""
        if count <= 0:
            return
        self.mixes_ends = False
        way = self.draw.randrange(4) if self.lines else 0
        if way == 0:
            self.front += b"\n" * count
        elif way == 1:
            self.phrase += b" " + b"p" * (count - 1)
        else:
            line = self.draw.randrange(len(self.lines))
            self.lines[line] += self.draw.pick(b" ", b"\t") * count


class _Chunk:
    """A chunk: its line, its bytes, and the line end behind them. The last chunk has no bytes."""

    def __init__(self, draw: Draw, piece: bytes):
        digits = b"%x" % len(piece)
        digits = digits.rjust(draw.pick(len(digits), len(digits), len(digits), 4, 16), b"0")
        self.line = draw.pick(digits, digits, digits.upper()) + draw.pick(b"", b"", b"", b" ", b"\t  ")
        if draw.chance(0.1):
            self.line += draw.choice(_EXTENSIONS)
        self.line_end = b"\r\n"
        self.bytes = piece
        self.end = b"\r\n"

    def text(self) -> bytes:
        return self.line + self.line_end + self.bytes + self.end


# Bodies


def _body(draw: Draw, status: bytes) -> bytes:
    if status != b"200" and draw.chance(0.8):
        return _refusal(draw)
    if draw.chance(0.04):
        return draw.pick(b"", b" ", b"{}", b"[]", b"null", b"<html></html>", _refusal(draw))
    text = shown_text(draw)
    if draw.chance(0.15):
        blanks = b" " * max(0, draw.choice(_BLOCKS) + draw.randint(-300, 3) - len(text))
        text = draw.pick(text + blanks, blanks + text)
    return text


def _refusal(draw: Draw) -> bytes:
    tree = {"code": draw.choice(_CODES), "number": 25}
    if draw.chance(0.2):
        tree = draw.pick({"Code": "NoSamples"}, {}, {"a": tree}, [tree], "code", any_tree(draw))
    text = spelled_tree(draw, tree).encode("utf-8", "surrogatepass")
    return draw.pick(text, text, text, text, text[:-1], b"", b"Not Found\n", b"\xff")


def _cut(draw: Draw, body: bytes) -> list[bytes]:
    """A body in pieces that aren't empty."""
    step = draw.pick(None, None, 1, 16, 4_096, 8_191, 16_384)
    if step == 1:
        return _steps(body, range(1, min(len(body), 40)))
    if step:
        return _steps(body, range(step, len(body), step))
    return _steps(body, sorted(draw.randint(0, len(body)) for _ in range(draw.pick(0, 1, 2, 5))))


def _steps(text: bytes, ends: Sequence[int]) -> list[bytes]:
    """A text, cut at some places, without empty pieces."""
    pieces = [text[first:last] for first, last in zip([0, *ends], [*ends, len(text)])]
    return [piece for piece in pieces if piece]


# Damages, and what is nearly one


def _status(reply: _Reply) -> None:
    reply.status = reply.draw.choice(_NO_STATUSES)


def _phrase(reply: _Reply) -> None:
    reply.phrase = reply.draw.choice(_NO_PHRASES)


def _version(reply: _Reply) -> None:
    reply.version = reply.draw.choice(_NO_VERSIONS)


def _front(reply: _Reply) -> None:
    reply.front = reply.draw.pick(b"\r\n", b"\n", b"\r\n\n\r\n", b"\n\n", b"\r", b" ", b"\r\r\n", b"\n\r", b"\t\r\n", b"\0", b"\xef\xbb\xbf")


def _mixed_ends(reply: _Reply) -> None:
    reply.mixes_ends = True


def _no_end(reply: _Reply) -> None:
    reply.end = reply.draw.pick(b"\r", b"\n\r", b"", b"\r\r\n", b" \r\n")


def _no_field(reply: _Reply) -> None:
    reply.put(reply.draw.choice(_NO_FIELDS))


def _many_fields(reply: _Reply) -> None:
    count = reply.draw.pick(63, 64, 64, 65, 65, 66)
    while len(reply.lines) < count:
        reply.put(reply.draw.pick(b"A:", b"a: b", b"Server: x"))


def _long_head(reply: _Reply) -> None:
    reply.head_length = limits.HEAD_BYTES + reply.draw.pick(-2, -1, 0, 0, 0, 1, 1, 2)


def _coding(reply: _Reply) -> None:
    if reply.draw.chance(0.5):
        reply.without(b"transfer-encoding")
    reply.add(b"Transfer-Encoding", reply.draw.pick(b"chunked", *_CODINGS))


def _length(reply: _Reply) -> None:
    """Another length, a second one, or one that is no number."""
    length = len(reply.body)
    if reply.draw.chance(0.6):
        reply.without(b"content-length")
    if reply.draw.chance(0.3):
        reply.without(b"transfer-encoding")
    form = reply.draw.choice(_SIGNED)
    other = form.replace(b"%d", b"%d" % length).replace(b"%x", b"%x" % length)
    reply.add(b"Content-Length", reply.draw.pick(b"%d" % length, b"%d" % (length + 1), b"%d" % max(0, length - 1), b"0", other, other))


def _two_lengths(reply: _Reply) -> None:
    """Two or three lengths, so that none counts."""
    reply.without(b"content-length")
    reply.without(b"transfer-encoding")
    length = len(reply.body)
    for _ in range(reply.draw.pick(2, 2, 3)):
        reply.add(b"Content-Length", b"%d" % max(0, length + reply.draw.pick(0, 0, -1, 1, 50, -length)))
    reply.framing = "end"


def _too_long(reply: _Reply) -> None:
    """A length above the limit, for which nothing has to be waited."""
    reply.without(b"content-length")
    reply.without(b"transfer-encoding")
    reply.add(b"Content-Length", reply.draw.choice(_TOO_LONG))
    reply.body = reply.body[: reply.draw.pick(0, 10, len(reply.body))]
    reply.framing = "length"


def _line(reply: _Reply) -> None:
    chunk = reply.any_chunk()
    form = reply.draw.choice(_NO_LINES)
    chunk.line = form % len(chunk.bytes) if b"%" in form else form


def _line_end(reply: _Reply) -> None:
    reply.any_chunk().line_end = reply.draw.choice(_NO_ENDS)


def _large_chunk(reply: _Reply) -> None:
    reply.any_chunk().line = reply.draw.choice(_LARGE)


def _long_line(reply: _Reply) -> None:
    chunk = reply.any_chunk()
    count = limits.CHUNK_LINE_BYTES + reply.draw.pick(-1, 0, 0, 1, 1) - len(chunk.line) - len(chunk.line_end)
    chunk.line += b" " * count if reply.draw.chance(0.5) and b";" not in chunk.line else b";" + b"e" * (count - 1)


def _other_size(reply: _Reply) -> None:
    chunk = reply.any_chunk()
    chunk.line = b"%x" % max(0, len(chunk.bytes) + reply.draw.pick(-2, -1, 1, 2, 3, 16))


def _chunk_end(reply: _Reply) -> None:
    reply.any_chunk().end = reply.draw.choice(_NO_ENDS)


def _trailers(reply: _Reply) -> None:
    reply.last.end = reply.draw.choice(_TRAILERS)


def _many_values(reply: _Reply) -> None:
    for _ in range(reply.draw.pick(1, 5, 20)):
        reply.add(reply.draw.choice(_NAMES), reply.draw.choice(_VALUES))


def _edition(reply: _Reply) -> None:
    reply.add(b"X-Edr-Edition", reply.draw.pick(b"1", b"", b"-1", b"18446744073709551616", b"007", b"1,1", b"x"))


_DAMAGES = [_status, _phrase, _version, _front, _front, _mixed_ends, _mixed_ends, _no_end, _no_field, _no_field, _many_fields, _long_head, _long_head]
_DAMAGES += [_coding, _coding, _length, _length, _two_lengths, _two_lengths, _too_long, _line, _line, _line_end, _large_chunk, _long_line, _other_size, _other_size]
_DAMAGES += [_chunk_end, _trailers, _many_values, _edition]
