"""A feed of many editions, and what `edr replay` writes of each of them: what a reply has to be, by the edition that it names."""
import functools
import json
import os
import random
import re
import subprocess
import sys
import tempfile

HERE = os.path.dirname(os.path.abspath(__file__))
sys.path.insert(0, os.path.join(HERE, "..", "nginx"))
import feeds  # noqa: E402
from front import Reply, daemon  # noqa: E402

# the requests of a session
SESSION = 1000
# the field changes with each so many editions
FIELD_STAYS = 60
END = b"\r\n\r\n"
EDITION = re.compile(rb"\r\nX-Edr-Edition: (\d+)\r\n")
SMALL = (
    feeds.NOW, "/", "/conformance", "/collections", "/collections/now", "/collections/now/instances", "/collections/now/area?coords=POLYGON((0%200,1%200,1%201,0%200))",
    "/collections/now/trajectory?coords=LINESTRING(0%200,1%201)", "/collections/field/position?coords=POINT(7%2011)",
    "/collections/field/cube?bbox=0,0,20,20", "/collections/gauges/locations", "/collections/gauges/locations/A",
    "/collections/gauges/radius?coords=POINT(0%200)&within=1&within-units=km", "/collections/nothing", "/collections/now/position?coords=POINT(9%209)", "/nowhere",
)
ASKED = [("GET", it) for it in (*SMALL, feeds.LARGE)] + [("HEAD", it) for it in SMALL]


def line(of):
    return json.dumps(of, separators=(",", ":")) + "\n"


@functools.lru_cache(maxsize=1)
def field(state):
    """The line of a field of 500,000 nodes."""
    return line(feeds.grid("field", feeds.coverage(1000, 500, random.Random(state).choices(range(10), k=500_000))))


def gauge(number):
    domain = {"type": "Domain", "domainType": "PointSeries", "axes": {"x": {"values": [0]}, "y": {"values": [0]}, "t": {"values": ["2024-01-01T00:00:00Z"]}}}
    whole = feeds.coverage(1, 1, [number])
    domain["referencing"] = whole["domain"]["referencing"]
    ranges = {"temp": {"type": "NdArray", "dataType": "integer", "axisNames": ["t"], "shape": [1], "values": [number]}}
    return {"station": {"collection": "gauges", "id": "A", "label": f"Gauge {number}", "coverage": {**whole, "domain": domain, "ranges": ranges}}}


def write(path, first, last, times=1):
    """A feed of the editions from the first to the last of these numbers, each of which is published so many times."""
    with open(path, "w") as file:
        gauges = {"collection": {**feeds.collection("gauges")["collection"], "kind": "station"}}
        file.writelines(map(line, (feeds.collection("field"), feeds.collection("now"), gauges)))
        for number in range(first, last + 1):
            if number == first or number % FIELD_STAYS == 0:
                file.write(field(number // FIELD_STAYS))
            file.writelines(map(line, (feeds.grid("now", feeds.coverage(2, 2, [number] * 4)), gauge(number), *[{"publish": {}}] * times)))
    return path


def request(target, method="GET", fields="", end="\r\n"):
    return end.join([f"{method} {target} HTTP/1.1", "Host: a", *([fields] if fields else []), "", ""]).encode()


def replayed(feed, texts, *words):
    """The heads and the bodies, in their chunks, of the replies to these requests on one connection."""
    asked = tempfile.TemporaryFile()
    asked.write(b"".join(texts))
    asked.seek(0)
    with asked, subprocess.Popen([daemon.EDR, "replay", feed, *words], stdin=asked, stdout=subprocess.PIPE) as process:
        held = b""
        for text in texts:
            ends = END if text.startswith(b"HEAD ") else daemon.END
            while ends not in held and (piece := process.stdout.read(1 << 20)):
                held += piece
            raw, _, held = held.partition(ends)
            head, _, body = (raw + ends).partition(END)
            yield head + END, body
    if process.returncode or held:
        sys.exit(f"edr replay ended with {process.returncode}, and wrote {held[:200]!r}")


class Wanted:
    """The bytes of all replies. `edr replay --advance` goes on by an edition with each request; so that it answers all targets of an
    edition, it is given feeds that have each edition so many times, as many as the requests of a session. The number in a head is
    that of the edition in these, and is set anew."""

    def __init__(self, folder, editions):
        self.last, self.replies, kept = editions, {it: [] for it in ASKED}, {}
        self.feed = write(os.path.join(folder, "feed"), 1, editions)
        texts, part = [request(target, method) for method, target in ASKED], os.path.join(folder, "part")
        for first in range(1, editions + 1, SESSION // len(ASKED)):
            last = min(first + SESSION // len(ASKED) - 1, editions)
            found = replayed(write(part, first, last, len(ASKED)), texts * (last - first + 1), "--advance")
            for number, (head, body) in enumerate(found):
                if edition_of(head) not in (None, number + 1):
                    sys.exit(f"edr replay names another edition than {number + 1}: {head!r}")
                head = EDITION.sub(b"\r\nX-Edr-Edition: %d\r\n", head)
                self.replies[ASKED[number % len(ASKED)]].append((kept.setdefault(head, head), kept.setdefault(body, body)))
        self.refused = next(b"".join(it) for it in replayed(self.feed, [b"G\r\n\r\n"]))
        self.check()

    def check(self):
        """The first and the last reply of a session, and one that closes, as they are made here, are those of `edr replay`."""
        found = [b"".join(it) for it in replayed(self.feed, [request(feeds.NOW)] * SESSION)]
        closing = [b"".join(it) for it in replayed(self.feed, [request(feeds.NOW, fields="Connection: close")])]
        now = self.reply("GET", feeds.NOW, 1, False)
        if found[0] != now or found[-1] != self.reply("GET", feeds.NOW, 1, True) or closing[0] != found[-1]:
            sys.exit("the replies that are wanted aren't those of edr replay")

    def reply(self, method, target, edition, closes):
        """All bytes of a reply of the daemon's own."""
        head, body = self.replies[method, target][(edition or 1) - 1]
        head = head % edition if b"%d" in head else head
        return (head[:-2] + b"Connection: close\r\n\r\n" if closes else head) + body

    def knows(self, edition):
        return edition is None or 1 <= edition <= self.last

    def names(self, method, target):
        """Whether a reply names an edition."""
        return b"%d" in self.replies[method, target][0][0]

    def document(self, method, target, edition):
        """What is left of a reply behind nginx: its status, the type of its body, its edition and its body."""
        head, chunks = self.replies[method, target][(edition or 1) - 1]
        it = Reply((head % edition if b"%d" in head else head)[:-4], b"")
        return it.status, it.fields["content-type"], it.edition, unchunked(chunks)


def unchunked(chunks):
    """The bytes of a body in chunks, which may be cut anywhere."""
    parts, at = [], 0
    while (ends := chunks.find(b"\r\n", at)) > 0 and (size := int(chunks[at:ends], 16)):
        parts.append(chunks[ends + 2:ends + 2 + size])
        at = ends + 4 + size
    return b"".join(parts)


def edition_of(head):
    """The number that a head names, or None."""
    found = EDITION.search(head)
    return int(found[1]) if found else None
