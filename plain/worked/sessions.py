"""Rows of `replay`: heads at their limits, each check of a head, each end, both editions, and chunks at their limits."""

from pathlib import Path

from plain.worked.runs import Row

VALUES = "[10,11,12,13,null,15,20,21,22,23,24,25]"
RISEN_VALUES = "[110,111,112,113,null,115,120,121,122,123,124,125]"
GRID = (Path(__file__).resolve().parents[2] / "examples" / "grid.json").read_text(encoding="utf-8").strip() + "\n"
TWO_GRIDS = GRID + GRID.replace(VALUES, RISEN_VALUES)

AT_FIRST_TIME = "&datetime=2024-01-01T00:00:00Z"
POSITION = "/collections/grid/position?coords=POINT"
USUAL = f"{POSITION}(50%200)&datetime=2024-01-01T00:00:00.000Z&parameter-name=temp&crs=http://www.opengis.net/def/crs/EPSG/0/32633&f=CoverageJSON"

CHUNKED = "Transfer-Encoding: chunked"
CLOSE = "Connection: close"
HOST = "Host: a"


def lines(*some: str) -> str:
    """Lines, each ended by CR LF."""
    return "".join(line + "\r\n" for line in some)


# Requests


def request(start: str, *fields: str) -> str:
    """A request without a body."""
    return lines(start, *fields, "")


def get(target: str, *fields: str) -> str:
    """A request that says GET and has a Host."""
    return request(f"GET {target} HTTP/1.1", HOST, *fields)


# Replies


def body(text: str) -> str:
    """A body of less than 4,096 bytes."""
    return lines(f"{len(text):x}", text, "0", "")


def reply(text: str, type_: str = "json", edition: int = 1, close: bool = False) -> str:
    """What is answered with 200."""
    fields = [f"Content-Type: application/{type_}", f"X-Edr-Edition: {edition}", CHUNKED]
    return lines("HTTP/1.1 200 OK", *fields, *[CLOSE] * close, "") + text


def refusal(status: str, name: str, number: int, *fields: str) -> str:
    """What is refused."""
    return lines(f"HTTP/1.1 {status}", "Content-Type: application/json", *fields, "") + body(f'{{"code":"{name}","number":{number}}}')


def point(value: int) -> str:
    """The document with one sample, at the first node and time."""
    domain = (
        '{"axes":{"t":{"values":["2024-01-01T00:00:00Z"]},"x":{"values":[0]},"y":{"values":[0]}},"domainType":"Point","referencing":'
        '[{"coordinates":["x","y"],"system":{"id":"http://www.opengis.net/def/crs/EPSG/0/32633","type":"ProjectedCRS"}},'
        '{"coordinates":["t"],"system":{"calendar":"Gregorian","type":"TemporalRS"}}],"type":"Domain"}'
    )
    parameters = '{"temp":{"observedProperty":{"label":{"en":"Temperature"}},"type":"Parameter","unit":{"symbol":"Cel"}}}'
    ranges = f'{{"temp":{{"dataType":"integer","type":"NdArray","values":[{value}]}}}}'
    return f'{{"domain":{domain},"parameters":{parameters},"ranges":{ranges},"type":"Coverage"}}'


def data(value: int, edition: int) -> str:
    """The reply with that document."""
    return reply(body(point(value)), "prs.coverage+json", edition)


CONFORMANCE = get("/conformance")
CONFORMS = body('{"conformsTo":[]}')
CONFORMANCE_REPLY = reply(CONFORMS)
CONFORMANCE_HEAD = request("HEAD /conformance HTTP/1.1", HOST)

LANDING_REPLY = reply(body('{"links":[{"href":"/collections","rel":"data"},{"href":"/conformance","rel":"conformance"}],"title":"EDR"}'))

OUTSIDE = get(f"{POSITION}(-1%200){AT_FIRST_TIME}")
OUTSIDE_REPLY = refusal("404 Not Found", "NoSamples", 25, "X-Edr-Edition: 1", CHUNKED)

POST = request("POST / HTTP/1.1", HOST)
POST_REPLY = refusal("405 Method Not Allowed", "MethodNotOffered", 5, "Allow: GET, HEAD", CHUNKED)
CLOSED_POST_REPLY = refusal("405 Method Not Allowed", "MethodNotOffered", 5, "Allow: GET, HEAD", CHUNKED, CLOSE)

BAD_HEAD = refusal("400 Bad Request", "BadHead", 1, CHUNKED, CLOSE)
WITH_BODY = refusal("400 Bad Request", "BodyNotAllowed", 2, CHUNKED, CLOSE)
BAD_HOST = refusal("400 Bad Request", "BadHost", 3, CHUNKED, CLOSE)
BAD_VERSION = refusal("505 HTTP Version Not Supported", "VersionNotOffered", 4, CHUNKED, CLOSE)
BAD_VERSION_HEAD = lines("HTTP/1.1 505 HTTP Version Not Supported", "Content-Type: application/json", CHUNKED, CLOSE, "")

# What a connection says, and what it is answered from the grid.
SESSIONS = [
    ("", ""),
    (CONFORMANCE, CONFORMANCE_REPLY),
    (CONFORMANCE_HEAD, reply("")),
    (OUTSIDE, OUTSIDE_REPLY),
    (CONFORMANCE + CONFORMANCE_HEAD + OUTSIDE, CONFORMANCE_REPLY + reply("") + OUTSIDE_REPLY),
    (get(USUAL), data(10, 1)),
    (request(f"GET {USUAL} HTTP/1.1", "Host: localhost:8080", "User-Agent: curl/8.5.0", "Accept: */*"), data(10, 1)),
    # limits of heads, and their ends
    (get("/", "X: " + "b" * 16_352), LANDING_REPLY),
    (get("/", "X: " + "b" * 16_353), BAD_HEAD),
    ("\n" * 16_384 + CONFORMANCE, BAD_HEAD),
    (get("/", *["A: b"] * 63), LANDING_REPLY),
    (get("/", *["A: b"] * 64), BAD_HEAD),
    (CONFORMANCE[:-1], BAD_HEAD),
    (CONFORMANCE[:-2], BAD_HEAD),
    (CONFORMANCE + CONFORMANCE[:20], CONFORMANCE_REPLY + BAD_HEAD),
    (CONFORMANCE + "\r\n", CONFORMANCE_REPLY + BAD_HEAD),
    ("\r\n\n" + CONFORMANCE.replace("\r\n", "\n"), CONFORMANCE_REPLY),
    (get("/", "A : b"), BAD_HEAD),
    (get("/", " b"), BAD_HEAD),
    # the checks of a head
    (POST + CONFORMANCE, POST_REPLY + CONFORMANCE_REPLY),
    (get("/conformance", "Content-Length: 00") + CONFORMANCE, CONFORMANCE_REPLY * 2),
    (get("/conformance", "Content-Length: 5") + "hello", WITH_BODY),
    (get("/conformance", "Content-Length:"), WITH_BODY),
    (get("/conformance", "Transfer-Encoding: identity") + CONFORMANCE, WITH_BODY),
    (request("GET / HTTP/1.1"), BAD_HOST),
    (get("/", "HOST: b"), BAD_HOST),
    (request("POST / HTTP/1.0", HOST) + CONFORMANCE, BAD_VERSION),
    (request("HEAD / HTTP/1.0", HOST) + CONFORMANCE, BAD_VERSION_HEAD),
    # what comes after them
    (get("/nothing") + CONFORMANCE, refusal("404 Not Found", "NoSuchPage", 6, CHUNKED) + CONFORMANCE_REPLY),
    (get("/collections/x"), refusal("404 Not Found", "UnknownCollection", 18, "X-Edr-Edition: 1", CHUNKED)),
    # ends
    (get("/conformance", "Connection: keep-alive , CLOSE") + CONFORMANCE, reply(CONFORMS, close=True)),
    (get("/conformance", "Connection: closed"), CONFORMANCE_REPLY),
    (request("POST / HTTP/1.1", "connection:close", HOST) + CONFORMANCE, CLOSED_POST_REPLY),
    (CONFORMANCE_HEAD * 1001, reply("") * 999 + reply("", close=True)),
    (CONFORMANCE_HEAD * 999 + "x", reply("") * 999 + BAD_HEAD),
]


def page_of(title: str) -> str:
    """The page of the collection `even`."""
    names = ("area", "corridor", "cube", "instances", "position", "radius", "trajectory")
    links = ",".join(f'"{name}":{{"link":{{"href":"/collections/even/{name}","rel":"data"}}}}' for name in names)
    rest = f'"id":"even","links":[],"output_formats":["CoverageJSON"],"parameter_names":{{}},"title":"{title}"'
    return f'{{"crs":["local"],"data_queries":{{{links}}},{rest}}}'


def row(said: str, replies: str, feed: str = GRID, advances: bool = False) -> Row:
    """What a connection says, and what it is replied from a feed."""
    words = ("replay", "feed", "--advance") if advances else ("replay", "feed")
    return Row(words, said, 0, replies, files=(("feed", feed),))


def chunk_row(length: int, sizes: list[int]) -> Row:
    """A row about a page of so many bytes, in chunks of some sizes."""
    title = "t" * (length - len(page_of("")))
    feed = f'{{"collection":{{"id":"even","kind":"grid","title":"{title}","crs":"local"}}}}\n{{"publish":{{}}}}\n'
    page, chunks = page_of(title), ""
    for size in sizes:
        chunks += lines(f"{size:x}", page[:size])
        page = page[size:]
    return row(get("/collections/even"), reply(chunks + lines("0", "")), feed)


def rows() -> list[Row]:
    """All rows."""
    asked = get(f"{POSITION}(50%200){AT_FIRST_TIME}")
    of_two = [
        row(asked * 3, data(10, 1) * 3, TWO_GRIDS),
        row(asked * 3, data(10, 1) + data(110, 2) * 2, TWO_GRIDS, advances=True),
        row(POST + asked, POST_REPLY + data(110, 2), TWO_GRIDS, advances=True),
    ]
    of_one = [row(said, replies, advances=advances) for said, replies in SESSIONS for advances in (False, True)]
    chunks = [chunk_row(4095, [4095]), chunk_row(4096, [4096]), chunk_row(4097, [4096, 1]), chunk_row(8192, [4096, 4096])]
    return of_one + of_two + chunks
