"""URLs that are fetched, and ones that aren't.

`<port>` stands in them for the port at which the peer listens, `<shut>` for one at which nobody does, and `<address>` for the address
whose port 80 the peer has.
"""

from plain.comparison.inputs.draws import Draw, damaged_bytes

_MARKS = b":/?#@[]\\%. \t\n\r<>^`{}|'\"0123456789abcxyz"
OWN_HOSTS = ("127.0.0.1", "localhost", "[::1]", "[::ffff:7f00:1]", "0.0.0.0", "[::]")  # as they are written in a request

# spellings of those
_SPELLED = ("127.1", "127.0.1", "2130706433", "0x7f.1", "0x7F000001", "017700000001", "0177.0.0x.01", "127.0.0.1.", "0", "0x", "00.0", "%31%32%37.0.0.1")
_SPELLED += ("LOCALHOST", "LocalHost", "l%6Fc%41lhost", "\uff4c\uff4f\uff43\uff41\uff4chost", "\uff11\uff12\uff17\u30020\uff0e0\uff611", "local\u00adhost", "\u24db\u24de\u24d2\u24d0lhost")
_SPELLED += ("[0:0::0:1]", "[::0001]", "[0:0:0:0:0:0:0:1]", "[::FFFF:127.0.0.1]", "[::ffff:7F00:1]", "[0:0:0:0:0:ffff:127.0.0.1]", "[0::]", "[::0.0.0.1]", "[0:0:0::0.0.0.1]")
# names that nobody has
_ABSENT = ("nothing.invalid", "NOTHING.INVALID", "b\u00fccher.invalid", "B\u00dcCHER.invalid", "xn--bcher-kva.invalid", "fa\u00df.invalid", "\u05d0.invalid", "a..invalid", ".invalid", "a.invalid.")
_ABSENT += ("a_b.invalid", "a{b}.invalid", "a!$&'()*+,;=b.invalid", "a`b\"c.invalid", "-a-.invalid", "a--b.invalid", "\u00e9%C3%A9.invalid", "x" * 64 + ".invalid", "\u65e5\u672c.invalid", "\u2603.invalid")
_NO_HOSTS = ("", "a b", "a%20b", "a<b", "a>b", "a^b", "a|b", "a%b", "%", "%zz", "a%00b", "a%7Fb", "%ff", "%C3", "a%2Fb", "a%23b", "a%3Ab", "a]b", "[", "[]", "[::1", "::1", "[::1]a", "a[::1]")
_NO_HOSTS += ("256.0.0.1", "1.2.3.4.5", "1..2", "09", "0x1g.1", "127.0.0.256", "4294967296", "127.0.0.0x100", "a.1", "a.0x1", "1.2.3.08", "99999999999999999999999999", "1.a.3")
_NO_HOSTS += ("[:1]", "[1:]", "[1::2::3]", "[::1.2.3]", "[::01.2.3.4]", "[::1.2.3.256]", "[1.2.3.4::]", "[1:2:3:4:5:6:7:1.2.3.4]", "[::1%25eth0]", "[00001::]", "[1:2:3:4:5:6:7:8:9]", "[1:2:3:4:5:6:7:8::]", "[g::]", "[127.0.0.1]")
_NO_HOSTS += ("xn--", "xn--a", "xn--\u00e9", "xn--b\u00fccher", "\u00ad", "\u0301a", "\u05d0a", "a\u200cb", "a\u00a0b", "\u2028", "\ufffd", "\ue000", "\uff05", "a\uff0fb", "\uff3b::1\uff3d")

_SCHEMES = ("HTTP", "Http", "hTTp", "ht\ntp", " http", "\t\r\nhttp", "\x01http", "\x1fhttp")
_NO_SCHEMES = ("https", "ftp", "file", "ws", "wss", "htt", "httpx", "http+", "1http", "+http", "", "\uff48ttp", "data", "urn", "h ttp", "http ", "\x7fhttp", "\u00a0http", "\ufeffhttp")
_SLASHES = ("://", "://", "://", "://", "://", "://", ":", ":/", ":\\\\", ":///", ":/\\", ":\\", "://///", ":/\t/")
_NO_SLASHES = ("//", "", "/", " ://", ":/ /", "?://", "#://")
_USERS = ("", "", "", "", "", "user@", "user:word@", ":@", "@", "a@b@", "a%40b:c%3Ad@", "[@", "\u00e9 <@", "a:b:c@", "a|b\\c@", "127.0.0.9@")
_PORTS = (":<port>", ":<port>", ":<port>", ":<port>", ":<port>", ":<port>", ":0<port>", ":00000000<port>", ":<shut>", ":0", ":\t<port>")
_NO_PORTS = (":65536", ":100000", ":99999999999999999999999", ":x", ":-1", ":+<port>", ": <port>", ":<port>x", ":<port>:<port>", "::<port>", ":<port>@", ":%38", ":0x50", ":<port>.", ":\u0661")
_PORT_80 = ("", "", ":", ":80", ":0080")

_PARTS = ("collections", "grid", "a", "", "", ".", "..", "...", "%2e", "%2E%2e", ".%2e", "%2e.", "%2e%2e%2e", "..a", "a%2Fb", "%", "%zz", "%e9", "\u00e9", "\U0001f600", "a b", "x" * 300)
_PARTS += ("\"'<>`", "^|~_", "{}[]", "!$&()*+,;=:@", "\x01\x0b\x1f", "\x7f\x80", ";v=1", "a\tb\nc\rd", "\ufeff", "\ufffe", "\u2028")
_QUERIES = ("coords=POINT(0 0)", "coords=POINT%280+0%29&f=json", "datetime=../2024-01-01T00:00:00Z", "", "?", "a?b", "/a/../b", "\\", "\"'<>`", "^|~_{}[]", "%zz%", "\u00e9=\U0001f600", "\x01\x1f\x7f", "a\tb\nc", " ")
_FRAGMENTS = ("", "", "", "#", "#a", "#a?b/c", "##", "#\u00e9 ", "#\x01")
_BLANKS_BEHIND = ("", "", "", "", " ", "\n", "\t \r\n", "\x0b", "\x1f \x01")


def url_text(draw: Draw) -> bytes:
    """A URL, or nearly one."""
    if draw.chance(0.4):
        return plain_url(draw)
    text = _url(draw, draw.pick(*[None] * 8, "scheme", "slashes", "host", "host", "port")).encode("utf-8")
    if draw.chance(0.03):
        at = draw.randint(0, len(text))
        text = text[:at] + draw.pick(b"\xff", b"\xc3", b"\xed\xa0\x80", b"\xf4\x90\x80\x80", b"\xc0\xaf") + text[at:]
    return damaged_bytes(draw, text, _MARKS).replace(b"\0", b"0") if draw.chance(0.1) else text


def plain_url(draw: Draw) -> bytes:
    """A URL of a query, as one is usually written."""
    query = draw.pick("position?coords=POINT(0 0)", "radius?coords=POINT%280%200%29&within=1&within-units=m", "locations/A", "position?coords=POINT(0+0)&z=1/2", "")
    return f"http://{draw.pick('127.0.0.1', '127.0.0.1', 'localhost', '[::1]')}:<port>/collections/grid/{query}".encode()


def _url(draw: Draw, wrong: str | None) -> str:
    """A URL of any form; with a wrong part, or with none."""
    scheme = draw.choice(_NO_SCHEMES) if wrong == "scheme" else draw.pick("http", "http", "http", "http", draw.choice(_SCHEMES))
    slashes = draw.choice(_NO_SLASHES if wrong == "slashes" else _SLASHES)
    port = draw.choice(_NO_PORTS if wrong == "port" else _PORTS)
    if wrong == "host":
        host = draw.choice(_NO_HOSTS)
    elif draw.chance(0.15):
        host, port = "<address>", draw.choice(_PORT_80) if wrong is None else port
    elif draw.chance(0.1):
        host, port = draw.choice(_ABSENT), draw.pick(port, draw.choice(_PORT_80))
    else:
        host = draw.choice(OWN_HOSTS + _SPELLED)
    query = "?" + "&".join(draw.choice(_QUERIES) for _ in range(draw.pick(0, 1, 1, 2))) if draw.chance(0.6) else ""
    return scheme + slashes + draw.choice(_USERS) + host + port + _path(draw) + query + draw.choice(_FRAGMENTS) + draw.choice(_BLANKS_BEHIND)


def _path(draw: Draw) -> str:
    return "".join(draw.pick("/", "/", "/", "/", "\\") + draw.choice(_PARTS) for _ in range(draw.pick(0, 1, 1, 2, 3, 4, 6)))
