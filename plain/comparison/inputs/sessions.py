"""Words, feeds and connections of `replay`: requests one after the other, of every form, and ones with damages."""

from functools import lru_cache

from plain.comparison.inputs.asks import Ask
from plain.comparison.inputs.draws import Draw, damaged_bytes
from plain.comparison.inputs.edition_feeds import EditionMaker
from plain.comparison.inputs.feed_lines import feed_text
from plain.comparison.inputs.heads import Head
from plain.comparison.inputs.queries import target_of_edition
from plain.comparison.inputs.targets import target_text
from plain.profile import limits
from plain.profile.answers.target import answer
from plain.profile.feeds.collections import Collections
from plain.profile.feeds.lines import FeedFault, read_feed
from plain.profile.http.heads import first_head
from plain.profile.json_text import write_json

_MARKS = b" \t\r\n:/,.01HTPGEhost\0\x7f\xff\xc3"
_CHUNK = 4096

_METHODS = (b"POST", b"PUT", b"DELETE", b"OPTIONS", b"PATCH", b"CONNECT", b"TRACE", b"get", b"Get", b"head", b"GETS", b"G", b"!#$%&'*+-.^_`|~", b"0")
_NO_METHODS = (b"", b"GE T", b"G(T", b"G\xc3\xa9T", b"GET\t", b"G\0T", b"G/T", b"\"GET\"")
_NO_VERSIONS = (b"HTTP/1.2", b"HTTP/2.0", b"HTTP/2", b"HTTP/0.9", b"http/1.1", b"HTTP/1.1 ", b"HTTP/1.", b"HTTP/11", b"", b" HTTP/1.1", b"HTTP/1.11", b"HTTP/01.1")

_ODD_TARGETS = (b"*", b"http://a/", b"http://a/conformance", b"a:80", b"conformance", b"/conformance#a", b"//conformance", b"/?", b"?", b"/conformance?f=json#a")
_ODD_TARGETS += ("/collections/é".encode(), b"/%", b"/collections/\"<>\\^`{|}", "/\U0010ffff".encode(), "/?é=\u0080".encode())
_NO_TARGETS = (b"", b"/ ", b"/\xff", b"/\xc3", b"/\xed\xa0\x80", b"/\xc0\x80", b"/?f=\xe2\x82", b"/\x7f", b"/a\tb", b"/\0", b"/\xf4\x90\x80\x80", b"/a b")

_NAMES = (b"Accept", b"User-Agent", b"X", b"x-edr-edition", b"Hosts", b"Hos", b"Ho-st", b"Connectio", b"Content-Lengt", b"Trailer", b"Upgrade", b"!#$%&'*+-.^_`|~")
_VALUES = (b"*/*", b"curl/8.5.0", b"", b"a:b", b"close", b"0", b"a\tb", b"\xff\x80", "é".encode(), b"a, b", b"\"q\\\"q\"", b"x" * 300, b":", b"GET / HTTP/1.1")
_NO_FIELDS = (b"A : b", b" A: b", b"\tb", b": b", b"A", b"A b", b"A(: b", b"\xc3\xa9: b", b"A: \0", b"A: \x7f", b"A: b\x1f", b"A: b\r", b"A: b\rc", b"A\t: b", b"A: \x0b")

_CLOSES = (b"close", b"Close", b"CLOSE", b"close,", b",close", b"keep-alive, close", b"close ,\tTE", b"\tclose\t", b"a,,close", b"cLoSe , cLoSe")
_CLOSES += (b"TE,\tclose", b"close\t,TE", b"TE, \t close \t ,TE")
_NO_CLOSES = (b"keep-alive", b"", b"closed", b"clo se", b"close;a", b"\"close\"", b"close\x80", b"a close", b",", b"close close", b"no-close", b"closE-", b"close\xa0", "\u00a0close".encode(), b"TE;close")

_LENGTHS = (b"0", b"00", b"000000000000000000000000000000", b" 0 ", b"\t0")
_NO_LENGTHS = (b"1", b"5", b"", b"+0", b"-0", b"0,0", b"0 0", b"0x0", b"01", b"0.0", b"O", b"18446744073709551616", b"0;a", b"00000000000000000001")


def replay_input(draw: Draw) -> Ask:
    """A connection that is served from the feed of the draw's group, or nearly so."""
    feed = _feed_of_group(draw.group)
    words = (b"replay", b"feed", b"--advance")[: draw.pick(2, 3)]
    if draw.chance(0.005):
        odd = ((b"replay",), (b"replay", b"none"), (b"replay", b"feed", b"advance"), (b"replay", b"feed", b"--advance", b"--advance"))
        more = ((b"replay", b"--advance"), (b"replay", b"\xff"), (b"Replay", b"feed"), (b"replay", b""), (b"replay", b"--advance", b"feed"))
        words = draw.choice(odd + more)
    return Ask(words, _connection(draw, _editions(feed)), ((b"feed", feed),))


# Feeds


@lru_cache(maxsize=2)
def _feed_of_group(group: str) -> bytes:
    draw = Draw(group)
    if draw.chance(0.03):
        return feed_text(draw)
    if draw.chance(0.1):
        return _even_feed(draw)
    return _feed(draw)


def _editions(feed: bytes) -> list[Collections]:
    try:
        return read_feed(feed)
    except FeedFault:
        return [{}]


def _feed(draw: Draw) -> bytes:
    """A feed of one to three editions, or of more where it has bare coverages."""
    maker = EditionMaker(draw)
    maker.collection("grid")
    if draw.chance(0.4):
        maker.collection(draw.pick("a", "a b", "é"))
    maker.publish()
    for _ in range(draw.pick(0, 1, 1, 2)):
        if draw.chance(0.5):
            maker.change()
        else:
            maker.trees += [_risen(tree) for tree in maker.trees if "ranges" in tree or "grid" in tree or "station" in tree][:3]
        maker.publish()
    return b"\n".join(map(maker.spelled, maker.trees)) + b"\n"


def _risen(tree: dict) -> dict:
    """A line with each sample raised by 100."""
    for kind in ("grid", "station"):
        if kind in tree:
            return {kind: tree[kind] | {"coverage": _risen(tree[kind]["coverage"])}}
    ranges = {key: each | {"values": [value if value is None else value + 100 for value in each["values"]]} for key, each in tree["ranges"].items()}
    return tree | {"ranges": ranges}


def _even_feed(draw: Draw) -> bytes:
    """A feed of one collection whose page fills some chunks, or is one byte away from that."""
    inner = {"id": "even", "kind": "grid", "title": "", "crs": "local"}

    def feed(title: str) -> bytes:
        return "".join(write_json(tree) + "\n" for tree in ({"collection": inner | {"title": title}}, {"publish": {}})).encode("utf-8")

    bare = len(answer(b"/collections/even", read_feed(feed(""))[0]).text)
    return feed("t" * (_CHUNK * draw.pick(1, 1, 2, 3, 17) + draw.pick(-1, 0, 0, 1) - bare))


# Connections


def _connection(draw: Draw, editions: list[Collections]) -> bytes:
    """Some requests one after the other, perhaps damaged or cut."""
    if draw.chance(0.004):
        return _many_requests(draw)
    count = draw.pick(0, 1, 1, 2, 2, 3, 3, 4, 5, 8)
    is_plain = draw.chance(0.3)
    text = b"".join(_Request(draw, draw.choice(editions), 0 if is_plain else draw.pick(0, 0, 0, 0, 0, 1, 1, 2)).text() for _ in range(count))
    if draw.chance(0.1):
        text = damaged_bytes(draw, text, _MARKS)
    if draw.chance(0.07):
        text = text[: draw.randint(0, len(text))]
    if draw.chance(0.05):
        text += draw.pick(b"\r\n", b"\n", b"\r", b" ", b"\0", b"\r\n\r\n", b"GET", b"5\r\nhello\r\n0\r\n\r\n", b"HTTP/1.1 200 OK\r\n\r\n")
    return text


def _many_requests(draw: Draw) -> bytes:
    """About as many small requests as a connection may have."""
    small = (b"GET / HTTP/1.1\nHost:\n\n", b"HEAD /collections HTTP/1.1\r\nHost: a\r\n\r\n", b"PUT * HTTP/1.1\nHost:\n\n", b"GET /a HTTP/1.1\nHOST:a\n\n")
    odd = (b"GET / HTTP/1.1\nHost:\nConnection:close\n\n", b"GET / HTTP/1.1\n\n", b"GET / HTTP/1.0\nHost:\n\n", b"x", b"POST / HTTP/1.1\nHost:\n\n")
    requests = [draw.choice(small)] * 996 + [draw.choice(small) for _ in range(draw.randint(3, 6))]
    if draw.chance(0.6):
        requests[min(draw.pick(998, 999, 999, 1000), len(requests) - 1)] = draw.choice(odd)
    return b"".join(requests)


class _Request(Head):
    """Makes one request: a valid one, with some damages."""

    def __init__(self, draw: Draw, edition: Collections, damages: int):
        super().__init__(draw)
        self.method = draw.pick(b"GET", b"GET", b"GET", b"HEAD")
        self.target = _target(draw, edition)
        self.version = b"HTTP/1.1"
        self.behind = b""
        self.end = draw.pick(b"\r\n", b"\r\n", b"\r\n", b"\r\n", b"\n")
        host = draw.pick(b"Host", b"Host", b"Host", b"host", b"HOST", b"hOsT") + b":" + draw.pick(b" a", b" a", b"a:80", b"", b" [::1]", b"\t a \t")
        self.lines = [host]
        for _ in range(draw.pick(0, 0, 1, 2, 3)):
            self.add(draw.choice(_NAMES), draw.choice(_VALUES))
        self.length: int | None = None  # of the head
        for _ in range(damages):
            draw.choice(_DAMAGES)(self)

    def text(self) -> bytes:
        if self.length is not None:
            self.fill(self.length - len(self.head()))
        return self.head() + self.behind

    def first_line(self) -> bytes:
        return self.method + b" " + self.target + b" " + self.version

    def fill(self, count: int) -> None:
        """Makes the head longer by so many bytes."""
        if count <= 0:
            return
        self.mixes_ends = False
        way = self.draw.randrange(6)
        if way == 0:
            self.front += b"\n" * count
        elif way == 1:
            self.target += (b"&" if b"?" in self.target else b"?") + b"f" * (count - 1)
        elif way == 2:
            self.method += b"T" * count
        else:
            line = self.draw.randrange(len(self.lines)) if self.lines else None
            if line is None:
                self.front += b"\n" * count
            elif way == 3:
                self.lines[line] = b"A" * count + self.lines[line]
            else:
                self.lines[line] += self.draw.pick(b"b", b" ", b"\xff", b"\t") * count


def _target(draw: Draw, edition: Collections) -> bytes:
    """A target of an edition, mostly, with the bytes escaped that no head has."""
    if draw.chance(0.15) or not edition:
        return draw.pick(b"/", b"/conformance", b"/collections", b"/collections/even", b"/collections/even", b"/collections?f=json")
    target = target_text(draw) if draw.chance(0.02) else target_of_edition(draw, edition)
    escaped = b"".join(bytes([byte]) if 32 < byte < 127 else b"%%%02X" % byte for byte in target)
    is_text = first_head(b"GET " + target.replace(b" ", b"+") + b" HTTP/1.1\n\n") is not None
    return target.replace(b" ", b"+") if is_text and draw.chance(0.3) else escaped or b"/"


# Damages, and what is nearly one


def _method(request: _Request) -> None:
    request.method = request.draw.choice(_METHODS)


def _no_method(request: _Request) -> None:
    request.method = request.draw.choice(_NO_METHODS)


def _old_version(request: _Request) -> None:
    request.version = b"HTTP/1.0"


def _no_version(request: _Request) -> None:
    request.version = request.draw.choice(_NO_VERSIONS)


def _odd_target(request: _Request) -> None:
    request.target = request.draw.choice(_ODD_TARGETS)


def _no_target(request: _Request) -> None:
    request.target = request.draw.choice(_NO_TARGETS)


def _no_host(request: _Request) -> None:
    request.lines = [line for line in request.lines if not line.lower().startswith(b"host:")]


def _more_hosts(request: _Request) -> None:
    request.add(b"Host", request.draw.pick(b"a", b"", b"b"))


def _length(request: _Request) -> None:
    request.add(b"Content-Length", request.draw.choice(_LENGTHS))


def _no_length(request: _Request) -> None:
    request.add(b"Content-Length", request.draw.choice(_NO_LENGTHS))
    request.behind = request.draw.pick(b"", b"a", b"hello", b"\r\n", b"GET / HTTP/1.1\r\nHost: a\r\n\r\n")


def _coding(request: _Request) -> None:
    request.add(b"Transfer-Encoding", request.draw.pick(b"chunked", b"identity", b"", b"gzip, chunked"))
    request.behind = request.draw.pick(b"", b"0\r\n\r\n", b"5\r\nhello\r\n0\r\n\r\n")


def _close(request: _Request) -> None:
    request.add(b"Connection", request.draw.choice(_CLOSES))


def _no_close(request: _Request) -> None:
    request.add(b"Connection", request.draw.choice(_NO_CLOSES))


def _many_fields(request: _Request) -> None:
    count = request.draw.pick(63, 64, 64, 65, 65, 66)
    while len(request.lines) < count:
        request.put(request.draw.pick(b"A:", b"a: b", b"Accept: */*"))


def _long(request: _Request) -> None:
    request.length = limits.HEAD_BYTES + request.draw.pick(-2, -1, 0, 0, 0, 1, 1, 2)


def _front(request: _Request) -> None:
    request.front = request.draw.pick(b"\r\n", b"\n", b"\r\n\n\r\n", b"\n\n")


def _no_front(request: _Request) -> None:
    request.front = request.draw.pick(b"\r", b" ", b"\r\r\n", b"\n\r", b"\t\r\n", b"\0", "\ufeff".encode())


def _mixed_ends(request: _Request) -> None:
    request.mixes_ends = True


def _no_end(request: _Request) -> None:
    request.end = request.draw.pick(b"\r", b"\n\r", b"", b"\r\r\n", b" \r\n")


def _no_field(request: _Request) -> None:
    request.put(request.draw.choice(_NO_FIELDS))


def _many_values(request: _Request) -> None:
    for _ in range(request.draw.pick(1, 5, 20)):
        request.add(request.draw.choice(_NAMES), request.draw.choice(_VALUES))


_DAMAGES = [_method, _method, _no_method, _old_version, _no_version, _odd_target, _odd_target, _no_target, _no_host, _more_hosts, _length, _length]
_DAMAGES += [_no_length, _coding, _close, _close, _no_close, _no_close, _many_fields, _long, _long, _front, _front, _no_front, _mixed_ends, _mixed_ends]
_DAMAGES += [_no_end, _no_field, _no_field, _many_values, _many_values]
