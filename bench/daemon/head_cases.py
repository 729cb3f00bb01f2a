"""Heads of requests that are made to mislead: what stands in them, and how many requests they are by RFC 9112.

The request under trial asks for TRIAL. What may be taken for a request by mistake asks for INNER, which is answered by 404, so it can
be told apart. Behind each stands a request for NEXT."""
from dataclasses import dataclass

TRIAL, INNER, NEXT = "/conformance", "/collections/inner", "/collections"
HOST = "Host: a"
LINE = f"GET {TRIAL} HTTP/1.1"
SECRET = f"GET {INNER} HTTP/1.1\r\n{HOST}\r\n\r\n".encode()
FOLLOWER = f"GET {NEXT} HTTP/1.1\r\n{HOST}\r\n\r\n".encode()
SIZE = f"{len(SECRET):x}"
CHUNKED = "Transfer-Encoding: chunked"
CHUNKS = f"{SIZE}\r\n".encode() + SECRET + b"\r\n0\r\n\r\n"
LAST = b"0\r\n\r\n"
LENGTH = f"Content-Length: {len(SECRET)}"


@dataclass(frozen=True)
class Case:
    """A head, what stands behind it, how many requests these are, and whether the first is a HEAD."""

    name: str
    data: bytes
    requests: int = 1
    is_head: bool = False


def text(it):
    return it if isinstance(it, bytes) else it.encode()


def get(*fields, line=LINE, body=b"", end=b"\r\n"):
    """A request with these fields behind Host, and a body."""
    return end.join(text(it) for it in (line, HOST, *fields, "", "")) + body


def bare(*lines, body=b"", end=b"\r\n"):
    """The same without Host."""
    return end.join(text(it) for it in (*lines, "", "")) + body


def filled(length):
    """A request whose head has so many bytes."""
    return get("X-Any: " + "a" * (length - len(get("X-Any: "))))


LENGTHS = [
    Case("Content-Length 0", get("Content-Length: 0")),
    Case("Content-Length 00", get("Content-Length: 00")),
    Case("Content-Length of a body that is a request", get(LENGTH, body=SECRET)),
    Case("two lengths, 0 first, the second of a request", get("Content-Length: 0", LENGTH, body=SECRET)),
    Case("two lengths, 0 last, the first of a request", get(LENGTH, "Content-Length: 0", body=SECRET)),
    Case("two lengths of 0", get("Content-Length: 0", "Content-Length: 0")),
    Case("two lengths in a list, `0, 0`", get("Content-Length: 0, 0")),
    Case("two lengths in a list, 0 and of a request", get(f"Content-Length: 0, {len(SECRET)}", body=SECRET)),
    Case("Content-Length +0", get("Content-Length: +0")),
    Case("Content-Length -1", get("Content-Length: -1")),
    Case("Content-Length 0x0", get("Content-Length: 0x0")),
    Case("Content-Length without a value", get("Content-Length:")),
    Case("Content-Length with a blank within, `0 0`", get("Content-Length: 0 0")),
    Case("Content-Length of 20 digits", get("Content-Length: 99999999999999999999", body=SECRET)),
    Case("Content-Length with a blank before the colon", get(f"Content-Length : {len(SECRET)}", body=SECRET)),
    Case("Content_Length with an underscore, and a request behind", get(f"Content_Length: {len(SECRET)}") + SECRET, 2),
    Case("POST with a body that is a request", get(LENGTH, line=f"POST {TRIAL} HTTP/1.1", body=SECRET)),
    Case("POST without a length, and a request behind", get(line=f"POST {TRIAL} HTTP/1.1") + SECRET, 2),
    Case("HEAD with a body that is a request", get(LENGTH, line=f"HEAD {TRIAL} HTTP/1.1", body=SECRET), is_head=True),
]

CODINGS = [
    Case("chunked, no chunk", get(CHUNKED, body=LAST)),
    Case("chunked, the chunk is a request", get(CHUNKED, body=CHUNKS)),
    Case("a length of all and chunked, a request behind the last chunk", get(f"Content-Length: {len(LAST + SECRET)}", CHUNKED, body=LAST) + SECRET, 2),
    Case("the same, chunked first", get(CHUNKED, f"Content-Length: {len(LAST + SECRET)}", body=LAST) + SECRET, 2),
    Case("a length of 4 and chunked, the chunk is a request", get("Content-Length: 4", CHUNKED, body=CHUNKS)),
    Case("a length of 0 and chunked, the chunk is a request", get("Content-Length: 0", CHUNKED, body=CHUNKS)),
    Case("CHUNKED in capitals", get("TRANSFER-ENCODING: CHUNKED", body=CHUNKS)),
    Case("a coding `identity`, and a request behind", get("Transfer-Encoding: identity") + SECRET, 2),
    Case("codings `gzip, chunked`", get("Transfer-Encoding: gzip, chunked", body=CHUNKS)),
    Case("codings `chunked, identity`", get("Transfer-Encoding: chunked, identity", body=CHUNKS)),
    Case("codings `chunked, chunked`", get("Transfer-Encoding: chunked, chunked", body=CHUNKS)),
    Case("two fields, chunked and identity", get(CHUNKED, "Transfer-Encoding: identity", body=CHUNKS)),
    Case("two fields, both chunked", get(CHUNKED, CHUNKED, body=CHUNKS)),
    Case("a coding `xchunked`", get("Transfer-Encoding: xchunked", body=CHUNKS)),
    Case("a coding without a value", get("Transfer-Encoding:", body=CHUNKS)),
    Case("chunked in quotes", get('Transfer-Encoding: "chunked"', body=CHUNKS)),
    Case("chunked behind a tab", get("Transfer-Encoding:\tchunked", body=CHUNKS)),
    Case("chunked behind a vertical tab", get("Transfer-Encoding:\x0bchunked", body=CHUNKS)),
    Case("chunked, and a NUL behind it", get("Transfer-Encoding: chunked\x00", body=CHUNKS)),
    Case("chunked, with a blank before the colon", get("Transfer-Encoding : chunked", body=CHUNKS)),
    Case("chunked, with a blank before the name", get("X-Any: a", " Transfer-Encoding: chunked", body=CHUNKS)),
    Case("chunked on a folded line", get("Transfer-Encoding:", " chunked", body=CHUNKS)),
    Case("Transfer_Encoding with an underscore, and a request behind", get("Transfer_Encoding: chunked") + SECRET, 2),
    Case("chunked behind a bare LF in a value", get("X-Any: a\nTransfer-Encoding: chunked", body=CHUNKS)),
    Case("chunked behind a bare CR in a value", get("X-Any: a\rTransfer-Encoding: chunked", body=CHUNKS)),
    Case("a chunk with an extension", get(CHUNKED, body=f"{SIZE};a=b\r\n".encode() + SECRET + b"\r\n0;a\r\n\r\n")),
    Case("a chunk whose line ends with LF alone", get(CHUNKED, body=f"{SIZE}\n".encode() + SECRET + b"\r\n0\r\n\r\n")),
    Case("an extension with a bare LF in it", get(CHUNKED, body=f"{SIZE};a\nb\r\n".encode() + SECRET + b"\r\n0\r\n\r\n")),
    Case("a chunk of 0x0 bytes, a request behind", get(CHUNKED, body=b"0x0\r\n\r\n" + SECRET)),
    Case("a chunk of -1 bytes", get(CHUNKED, body=b"-1\r\n" + SECRET)),
    Case("a chunk of 17 digits", get(CHUNKED, body=b"1" + b"0" * 16 + b"\r\n" + SECRET)),
    Case("chunks with trailers, a length among them", get(CHUNKED, body=b"0\r\nContent-Length: 5\r\nHost: b\r\n\r\n")),
    Case("chunked with HTTP/1.0", get(CHUNKED, line=f"GET {TRIAL} HTTP/1.0", body=CHUNKS)),
    Case("a length and a bare CR behind it", get(f"Content-Length: 0\r{LENGTH}", body=SECRET)),
]

LINES = [
    Case("all lines end with LF alone", get("X-Any: a", end=b"\n")),
    Case("some lines end with LF alone", f"{LINE}\n{HOST}\r\nX-Any: a\n\r\n".encode()),
    Case("the lines end with CR alone", get("X-Any: a", end=b"\r")),
    Case("a line ends with CR CR LF", f"{LINE}\r\r\n{HOST}\r\n\r\n".encode()),
    Case("two empty lines before", b"\r\n\r\n" + get()),
    Case("twenty empty lines before", b"\r\n" * 20 + get()),
    Case("an empty line of LF alone before", b"\n" + get()),
    Case("a blank before the first line", b" " + get()),
    Case("a value that is folded, by a blank", get("X-Any: a", " b")),
    Case("a value that is folded, by a tab", get("X-Any: a", "\tb")),
    Case("a folded line before the first field", bare(LINE, " X-Any: a", HOST)),
    Case("a folded Host", bare(LINE, "Host:", " a")),
    Case("a line of a blank within the head", get(" ", "X-Any: a")),
    Case("Host with a blank before the colon", bare(LINE, "Host : a")),
    Case("a field without a name", get(": a")),
    Case("a line without a colon", get("X-Any")),
    Case("a blank within a name", get("X Any: a")),
    Case("brackets in a name", get("X(Any): a")),
    Case("a byte above 127 in a name", get(b"X-\xe9: a")),
    Case("a byte above 127 in a value", get(b"X-Any: \xe9")),
    Case("NUL in a value", get("X-Any: a\x00b")),
    Case("the byte 1 in a value", get("X-Any: a\x01b")),
    Case("DEL in a value", get("X-Any: a\x7fb")),
    Case("a tab in a value", get("X-Any: a\tb")),
    Case("a field without a value", get("X-Any:")),
]

FIRST_LINES = [
    Case("an absolute-form target", get(line=f"GET http://a{TRIAL} HTTP/1.1")),
    Case("an absolute-form target of another host than Host", get(line=f"GET http://b{TRIAL} HTTP/1.1")),
    Case("an absolute-form target with https", get(line=f"GET https://a{TRIAL} HTTP/1.1")),
    Case("an absolute-form target without a path", get(line="GET http://a HTTP/1.1")),
    Case("CONNECT with an authority-form target", get(line="CONNECT a:80 HTTP/1.1")),
    Case("GET with an authority-form target", get(line="GET a:80 HTTP/1.1")),
    Case("OPTIONS with the target `*`", get(line="OPTIONS * HTTP/1.1")),
    Case("GET with the target `*`", get(line="GET * HTTP/1.1")),
    Case("a target without its first slash", get(line="GET conformance HTTP/1.1")),
    Case("a target that begins with two slashes", get(line=f"GET /{TRIAL} HTTP/1.1")),
    Case("a target with `/./` and `/../`", get(line=f"GET /collections/../.{TRIAL} HTTP/1.1")),
    Case("the same, escaped", get(line=f"GET /collections/%2e%2e{TRIAL} HTTP/1.1")),
    Case("a target with a fragment", get(line=f"GET {TRIAL}#a HTTP/1.1")),
    Case("a target with a backslash", get(line="GET \\conformance HTTP/1.1")),
    Case("a target with an escaped NUL", get(line=f"GET {TRIAL}%00 HTTP/1.1")),
    Case("a target with escaped line ends and a field", get(line=f"GET {TRIAL}%0d%0aHost:%20b HTTP/1.1")),
    Case("a target with the byte 1", get(line=f"GET {TRIAL}\x01 HTTP/1.1")),
    Case("a target with a byte above 127 that is no UTF-8", get(line=b"GET /\xe9 HTTP/1.1")),
    Case("a target with UTF-8", get(line="GET /é HTTP/1.1")),
    Case("a target of 16,300 bytes", get(line=f"GET /{'a' * 16_299} HTTP/1.1")),
    Case("a target of 20,000 bytes", get(line=f"GET /{'a' * 19_999} HTTP/1.1")),
    Case("two blanks before the target", get(line=f"GET  {TRIAL} HTTP/1.1")),
    Case("tabs for the blanks", get(line=f"GET\t{TRIAL}\tHTTP/1.1")),
    Case("a blank behind the version", get(line=f"{LINE} ")),
    Case("a blank and a word behind the version", get(line=f"{LINE} HTTP/1.1")),
    Case("no version", get(line=f"GET {TRIAL}")),
    Case("HTTP/0.9, the first line alone", f"GET {TRIAL}\r\n".encode()),
    Case("HTTP/1.0 with Host", get(line=f"GET {TRIAL} HTTP/1.0")),
    Case("HTTP/1.0 without Host", bare(f"GET {TRIAL} HTTP/1.0")),
    Case("HTTP/1.0 that asks to keep the connection", get("Connection: keep-alive", line=f"GET {TRIAL} HTTP/1.0")),
    Case("HTTP/1.2", get(line=f"GET {TRIAL} HTTP/1.2")),
    Case("HTTP/2.0", get(line=f"GET {TRIAL} HTTP/2.0")),
    Case("http/1.1 in small letters", get(line=f"GET {TRIAL} http/1.1")),
    Case("HTTP/01.1", get(line=f"GET {TRIAL} HTTP/01.1")),
    Case("the preface of HTTP/2", b"PRI * HTTP/2.0\r\n\r\nSM\r\n\r\n"),
    Case("get in small letters", get(line=f"get {TRIAL} HTTP/1.1")),
    Case("a method that nobody knows", get(line=f"FETCH {TRIAL} HTTP/1.1")),
    Case("a method with a byte that none may have", get(line=f"G(T {TRIAL} HTTP/1.1")),
    Case("TRACE", get(line=f"TRACE {TRIAL} HTTP/1.1")),
]

HOSTS = [
    Case("no Host", bare(LINE)),
    Case("two Hosts, alike", get(HOST)),
    Case("two Hosts that differ", get("Host: b")),
    Case("Host without a value", bare(LINE, "Host:")),
    Case("Host `a b`", bare(LINE, "Host: a b")),
    Case("Host `a, b`", bare(LINE, "Host: a, b")),
    Case("Host `a/b`", bare(LINE, "Host: a/b")),
    Case("Host `u@a`", bare(LINE, "Host: u@a")),
    Case("Host `a:99999`", bare(LINE, "Host: a:99999")),
    Case("Host `a:b`", bare(LINE, "Host: a:b")),
    Case("Host `[::1]`", bare(LINE, "Host: [::1]")),
    Case("Host `[::1`", bare(LINE, "Host: [::1")),
    Case("Host `..`", bare(LINE, "Host: ..")),
    Case("Host `a_b`", bare(LINE, "Host: a_b")),
    Case("Host with a byte above 127", bare(LINE, b"Host: \xe9")),
    Case("Host of 8,000 bytes", bare(LINE, "Host: " + "a" * 8000)),
    Case("Connection that names Host", get("Connection: Host")),
]

SIZES = [
    Case("64 fields", get(*["X-Any: a"] * 63)),
    Case("65 fields", get(*["X-Any: a"] * 64)),
    Case("1,000 fields", get(*["X-Any: a"] * 999)),
    Case("a head of 16,384 bytes", filled(16_384)),
    Case("a head of 16,385 bytes", filled(16_385)),
    Case("a head of 40,000 bytes", filled(40_000)),
    Case("a name of 9,000 bytes", get("X" * 9000 + ": a")),
]

CONNECTIONS = [
    Case("Connection: close", get("Connection: close")),
    Case("Connection: keep-alive, Close", get("Connection: keep-alive, Close")),
    Case("Upgrade to h2c", get("Connection: Upgrade, HTTP2-Settings", "Upgrade: h2c", "HTTP2-Settings: AAMAAABkAARAAAAAAAIAAAAA")),
    Case("Upgrade to a websocket", get("Connection: Upgrade", "Upgrade: websocket", "Sec-WebSocket-Version: 13", "Sec-WebSocket-Key: AAAAAAAAAAAAAAAAAAAAAA==")),
    Case("Expect: 100-continue without a body", get("Expect: 100-continue")),
    Case("Expect: 100-continue with a body that is a request", get("Expect: 100-continue", LENGTH, body=SECRET)),
    Case("X-HTTP-Method-Override: POST", get("X-HTTP-Method-Override: POST")),
    Case("Range and If-None-Match", get("Range: bytes=0-3", "If-None-Match: *")),
    Case("three requests at once", get() + SECRET + get(), 3),
    Case("a request behind one that closes", get("Connection: close") + SECRET, 2),
    Case("HEAD, and a request behind", get(line=f"HEAD {TRIAL} HTTP/1.1") + SECRET, 2, is_head=True),
    Case("bytes that are no request", b"\x16\x03\x01\x02\x00\x01\x00\x01\xfc\x03\x03\r\n\r\n"),
]

GROUPS = {
    "Lengths": LENGTHS,
    "Codings": CODINGS,
    "Lines and fields": LINES,
    "First lines": FIRST_LINES,
    "Hosts": HOSTS,
    "Sizes": SIZES,
    "Connections": CONNECTIONS,
}
