"""Rows of URLs and of replies: those that the plain readers read, and those that are fetched from a peer.

The place of a fault, the edition and the code show in the plain readers alone, since `fetch` doesn't write them.
"""

from typing import Iterator

from plain.comparison.inputs.asks import Ask
from plain.comparison.inputs.replies import Script
from plain.comparison.peers import Peer
from plain.comparison.programs import endings
from plain.profile.commands import USAGE, Ending, held_files, run
from plain.profile.coverage_json.read import CoverageFault
from plain.profile.fetching.replies import BadReply, NotData, read_reply
from plain.profile.fetching.urls import read_url

OWN = "127.0.0.1:<port>"

# A URL, and the target and the host of its request, or None where it isn't fetched.
URLS = [
    (f"http://{OWN}", ("/", OWN)),
    (f"http://{OWN}?", ("/?", OWN)),
    (f"http:{OWN}", ("/", OWN)),
    (f"hTTp:\\\\{OWN}\\b", ("/b", OWN)),
    (f"http:///{OWN}", ("/", OWN)),
    (f"http://u:p@q@{OWN}/x/../y/./z/%2e%2E/#f?q", ("/y/", OWN)),
    (f"http://{OWN}/..", ("/", OWN)),
    (f"http://{OWN}/b/..", ("/", OWN)),
    (f"http://{OWN}/b/.", ("/b/", OWN)),
    (f"http://{OWN}//b/../", ("//", OWN)),
    (f" \t\nht\ntp://{OWN}/ b\t?c d'e\"\x7f \x1f", ("/%20b?c%20d%27e%22%7F", OWN)),
    (f"http://{OWN}/é{{|}}~'%zz?é{{|}}~`\\", ("/%C3%A9%7B|%7D~'%zz?%C3%A9{|}~`\\", OWN)),
    (f"http://{OWN}/`^", ("/%60%5E", OWN)),
    (f"http://{OWN}/collections/grid/position?coords=POINT(6400 6400)", ("/collections/grid/position?coords=POINT(6400%206400)", OWN)),
    ("http://127.1:00<port>", ("/", OWN)),
    ("http://0x7f.1:<port>", ("/", OWN)),
    ("http://2130706433:<port>", ("/", OWN)),
    ("http://017700000001:<port>", ("/", OWN)),
    ("http://１２７。0.0.1:<port>", ("/", OWN)),
    ("http://LOC%41Lhost:<port>", ("/", "localhost:<port>")),
    ("http://ｌｏｃａｌ\u00adhost:<port>", ("/", "localhost:<port>")),
    ("http://[0::1]:<port>", ("/", "[::1]:<port>")),
    ("http://[::FFFF:127.0.0.1]:<port>", ("/", "[::ffff:7f00:1]:<port>")),
    ("http://<address>", ("/", "<address>")),
    ("http://<address>:", ("/", "<address>")),
    ("http://<address>:0080/a", ("/a", "<address>")),
    ("http://A.invalid:81", ("/", "a.invalid:81")),
    ("http://256", ("/", "0.0.1.0")),
    ("http://1.256", ("/", "1.0.1.0")),
    ("http://4294967295", ("/", "255.255.255.255")),
    ("http://1.2.3.4.", ("/", "1.2.3.4")),
    ("http://a.0x1g", ("/", "a.0x1g")),
    ("http://[1:2:3:4:5:6:7::]", ("/", "[1:2:3:4:5:6:7:0]")),
    ("http://[0:0:1:0:0:0:1:0]", ("/", "[0:0:1::1:0]")),
    ("http://[1:0:0:2:0:0:3:4]", ("/", "[1::2:0:0:3:4]")),
    ("http://a{b}\"`c.invalid", ("/", 'a{b}"`c.invalid')),
    ("http://BÜcher.invalid", ("/", "xn--bcher-kva.invalid")),
    ("http://faß.invalid", ("/", "xn--fa-hia.invalid")),
    ("http://א.invalid", ("/", "xn--4db.invalid")),
    ("http://xn--", ("/", "xn--")),
    ("http://XN--a.invalid", ("/", "xn--a.invalid")),
]  # fmt: skip

NO_URLS = """
https://127.0.0.1
127.0.0.1
//127.0.0.1
http
http:
http://
http://@
http://:80
http://u@:80
http://a:65536
http://a:8x
http://a:80:80
http://256.1
http://1.2.3.4.5
http://1..2
http://09
http://a.1
http://4294967296
http://[::1
http://[::1]a
http://[:1]
http://[1:]
http://[1::2::3]
http://[::1.2.3]
http://[::01.2.3.4]
http://[1.2.3.4::]
http://[1:2:3:4:5:6:7:1.2.3.4]
http://[::1%25eth0]
http://[]
http://[00001::]
http://a b
http://a%20b
http://a<b
http://a|b
http://a^b
http://a%
http://%ff
http://אa
""".split("\n")[1:-1]

# A document of one sample, and its table.
DOCUMENT = (
    b'{"type":"Coverage","domain":{"type":"Domain","domainType":"Point","axes":{"x":{"values":[1]},"y":{"values":[2]}},"referencing":'
    b'[{"coordinates":["x","y"],"system":{"type":"ProjectedCRS"}}]},"parameters":{"a":{"observedProperty":{"label":{"en":"a"}}}},'
    b'"ranges":{"a":{"type":"NdArray","dataType":"integer","values":[5]}}}'
)
TABLE = b"a\t-\t-\t2\t1\t5\n"

OK = b"HTTP/1.1 200 OK\r\n"
CHUNKS = OK + b"Transfer-Encoding: chunked\r\n\r\n"
FIRST = len(CHUNKS)  # the place of the first chunk
LAST = b"0\r\n\r\n"


def chunk(some: bytes) -> bytes:
    """A chunk of some bytes."""
    return b"%x\r\n%s\r\n" % (len(some), some)


WHOLE = chunk(DOCUMENT)
BEHIND = FIRST + len(WHOLE)  # the place behind a chunk with the whole document


def of_length(length: bytes, body: bytes = DOCUMENT) -> bytes:
    """A reply with a length."""
    return OK + b"Content-Length: " + length + b"\r\n\r\n" + body


def of_edition(*fields: bytes) -> bytes:
    """A reply with fields that say an edition."""
    return OK + b"".join(b"X-Edr-Edition: " + field + b"\r\n" for field in fields) + b"\r\n" + DOCUMENT


# What the peer gives, and what it is read as: `document` and perhaps the edition, `Cov(..)`, `NotData(..)` or `BadReply(..)`.
REPLIES = [
    (OK + b"\r\n" + DOCUMENT, "document"),
    (b"\r\n\n" + OK.replace(b"\r", b"") + b"\n" + DOCUMENT, "document"),
    (b"HTTP/1.1 200\r\n\r\n" + DOCUMENT, "document"),
    (b"HTTP/1.1 200 \t\xff\r\n\r\n" + DOCUMENT, "document"),
    (OK + b"\r\n", "Cov(NotJson)"),
    (OK + b"\r\n[]", "Cov(WrongType(Document))"),
    (of_edition(b"7"), "document 7"),
    (of_edition(b"18446744073709551615"), "document 18446744073709551615"),
    (of_edition(b"18446744073709551616"), "document"),
    (of_edition(b"+7"), "document"),
    (of_edition(b"7", b"7"), "document"),
    # heads
    (b"", "BadReply(0)"),
    (OK, "BadReply(0)"),
    (OK + b"\r", "BadReply(0)"),
    (OK.replace(b"1.1", b"1.0") + b"\r\n" + DOCUMENT, "BadReply(0)"),
    (b"HTTP/1.1  200 OK\r\n\r\n" + DOCUMENT, "BadReply(0)"),
    (b"HTTP/1.1 2000\r\n\r\n" + DOCUMENT, "BadReply(0)"),
    (b"HTTP/1.1 200\tOK\r\n\r\n" + DOCUMENT, "BadReply(0)"),
    (OK + b" a: b\r\n\r\n" + DOCUMENT, "BadReply(0)"),
    (OK + b"A : b\r\n\r\n" + DOCUMENT, "BadReply(0)"),
    (OK + b"A: b\r\n" * 64 + b"\r\n" + DOCUMENT, "document"),
    (OK + b"A: b\r\n" * 65 + b"\r\n" + DOCUMENT, "BadReply(0)"),
    (OK + b"A:" + b"b" * 16_361 + b"\r\n\r\n" + DOCUMENT, "document"),
    (OK + b"A:" + b"b" * 16_362 + b"\r\n\r\n" + DOCUMENT, "BadReply(0)"),
    # chunks
    (CHUNKS + chunk(DOCUMENT[:100]) + chunk(DOCUMENT[100:]) + LAST + b"more", "document"),
    (CHUNKS + b"%016X \t;a=b;c\"\x00\xff\r\n" % len(DOCUMENT) + DOCUMENT + b"\r\n" + LAST, "document"),
    (CHUNKS + LAST, "Cov(NotJson)"),
    (CHUNKS, f"BadReply({FIRST})"),
    (CHUNKS + b"g\r\n", f"BadReply({FIRST})"),
    (CHUNKS + b"\r\n", f"BadReply({FIRST})"),
    (CHUNKS + b" " + LAST, f"BadReply({FIRST})"),
    (CHUNKS + b"0 a\r\n\r\n", f"BadReply({FIRST})"),
    (CHUNKS + b"0\n\r\n", f"BadReply({FIRST})"),
    (CHUNKS + b"0;a\n\r\n", f"BadReply({FIRST})"),
    (CHUNKS + b"0;a\rb\r\n\r\n", f"BadReply({FIRST})"),
    (CHUNKS + b"0" * 17 + b"\r\n\r\n", f"BadReply({FIRST})"),
    (CHUNKS + WHOLE, f"BadReply({BEHIND})"),
    (CHUNKS + WHOLE + b"0\r\n", f"BadReply({BEHIND + 3})"),
    (CHUNKS + WHOLE + b"0\r\nA: b\r\n\r\n", f"BadReply({BEHIND + 3})"),
    (CHUNKS + WHOLE[:-1], f"BadReply({BEHIND - 2})"),
    (CHUNKS + WHOLE[:-2] + LAST, f"BadReply({BEHIND - 2})"),
    (CHUNKS + WHOLE[:-3], f"BadReply({BEHIND - 2 - len(DOCUMENT)})"),
    (CHUNKS + b"0;" + b"a" * 16_380 + b"\r\n\r\n", "Cov(NotJson)"),
    (CHUNKS + b"0;" + b"a" * 16_381 + b"\r\n\r\n", f"BadReply({FIRST})"),
    (CHUNKS + b"4000001\r\n", f"BadReply({FIRST})"),
    (CHUNKS + b"4000000\r\n", f"BadReply({FIRST + 9})"),
    (CHUNKS + chunk(b" ") + b"4000000\r\n", f"BadReply({FIRST + 6})"),
    (CHUNKS + b"f" * 16 + b"\r\n", f"BadReply({FIRST})"),
    (CHUNKS.replace(b"chunked", b"Chunked") + DOCUMENT, "document"),
    (CHUNKS.replace(b"\r\n\r\n", b"\r\nTransfer-Encoding: chunked\r\n\r\n") + DOCUMENT, "document"),
    # lengths
    (of_length(b"000%d" % len(DOCUMENT), DOCUMENT + b"more"), "document"),
    (of_length(b"0"), "Cov(NotJson)"),
    (of_length(b"+1"), "document"),
    (of_length(b"1\r\nContent-Length: 1"), "document"),
    (of_length(b"1\r\nTransfer-Encoding: gzip"), "Cov(NotJson)"),
    (of_length(b"10", b" " * 9), "BadReply(39)"),
    (of_length(b"67108865", b""), "BadReply(45)"),
    (of_length(b"0" * 5_000 + b"9" * 5_000, b""), "BadReply(10037)"),
    # other statuses
    (b"HTTP/1.1 404 Not Found\r\n\r\n" + b'{"code":"NoSamples","number":25}', "NotData(404, NoSamples)"),
    (b"HTTP/1.1 404\r\n\r\n" + b'{"code":25}', "NotData(404, )"),
    (b"HTTP/1.1 404\r\n\r\n" + b'["code"]', "NotData(404, )"),
    (b"HTTP/1.1 099\r\n\r\n" + DOCUMENT, "NotData(99, )"),
    (b"HTTP/1.1 100\r\n\r\n" + OK + b"\r\n" + DOCUMENT, "NotData(100, )"),
    (b"HTTP/1.1 404\r\nContent-Length: 5\r\n\r\n{}", "BadReply(35)"),
]


def reply_answer(given: bytes) -> str:
    """What the plain reader reads."""
    try:
        edition = read_reply([given]).edition
        return "document" if edition is None else f"document {edition}"
    except BadReply as fault:
        return f"BadReply({fault.place})"
    except NotData as found:
        return f"NotData({found.status}, {found.code})"
    except CoverageFault as fault:
        return f"Cov({fault})"


def reply_ending(answer: str) -> Ending:
    """How `fetch` ends with what is read."""
    if answer.startswith("document"):
        return Ending(0, TABLE)
    name = answer.split("(")[0]
    status = " " + answer[len("NotData(") : answer.index(",")] if name == "NotData" else ""
    return Ending(7, errors=f"reply: {name}{status}\n".encode())


def request(target: str, host: str) -> bytes:
    """The request for a URL."""
    return f"GET {target} HTTP/1.1\r\nHost: {host}\r\nConnection: close\r\n\r\n".encode()


def fetched_rows(peer: Peer, program: str | None) -> Iterator[tuple]:
    """Of each row how a program ends, or the plain one, and what it asks; and what is wanted."""

    def fetched(url: str, given: bytes) -> tuple[Ending, list[bytes]]:
        ask = Ask((b"fetch", peer.filled(url.encode())), b"")
        return peer.during(Script((given,)), lambda: _ending(program, ask))

    for given, wanted in REPLIES:
        yield given[:100], fetched(f"http://{OWN}", given), (reply_ending(wanted), [peer.filled(request("/", OWN))])
    for url, parts in URLS:
        if peer.is_near(peer.filled(url.encode())) and ".invalid" not in url:
            yield url, fetched(url, OK + b"\r\n" + DOCUMENT), (Ending(0, TABLE), [peer.filled(request(*parts))])
    for url in NO_URLS:
        yield url, fetched(url, b""), (Ending(1, errors=USAGE.encode() + b"\n"), [])


def _ending(program: str | None, ask: Ask) -> Ending:
    return endings(program, [ask])[0] if program else run(list(ask.words), lambda: ask.input, held_files({}))


def read_rows(peer: Peer) -> Iterator[tuple]:
    """Of each row what the plain readers answer, and what is wanted."""
    for given, wanted in REPLIES:
        yield given[:100], reply_answer(given), wanted
    for url, parts in [*URLS, *((url, None) for url in NO_URLS)]:
        found = read_url(peer.filled(url.encode()))
        yield url, found and found.request(), parts and peer.filled(request(*parts))
    longest = b"http://a/" + b"b" * 65_527
    yield "the longest URL", [read_url(longest) is None, read_url(longest + b"b") is None], [False, True]


def differences(program: str | None) -> tuple[int, list[str]]:
    """How many rows were run, and what is told of each that ends otherwise. The readers are the plain program's."""
    peer = Peer()
    try:
        rows = [*fetched_rows(peer, program), *(read_rows(peer) if program is None else [])]
    finally:
        peer.close()
    return len(rows), [f"differs: {about!r}\n  is    {found!r}\n  want  {wanted!r}" for about, found, wanted in rows if found != wanted]
