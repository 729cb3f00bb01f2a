#!/usr/bin/env python3
"""Measures `edr fetch` and `edr show` beside python3 doing the same with `http.client` and `json`.

A reply of 499,200 values is recorded from `edr replay` over a feed that `edr make` makes, and handed out by `http.server` of
python3, in chunks as recorded and with a length. Both clients write the table of its document to /dev/null. `show` reads a
document of 60 MB, and its peak of memory is told beside the sizes of its text and of the tree that python3 makes of it. It
takes the program of release/. Run it from anywhere: bench/client/run.py"""
import http.server
import os
import random
import shutil
import socketserver
import subprocess
import sys
import tempfile
import threading
import time

HERE = os.path.dirname(os.path.abspath(__file__))
sys.path.insert(0, os.path.join(HERE, ".."))
from measure import run_once  # noqa: E402

EDR = os.path.join(HERE, "..", "..", "release", "edr")
ENVIRONMENT = dict(os.environ, MALLOC_TRIM_THRESHOLD_="1073741824", GLIBC_TUNABLES="glibc.malloc.hugetlb=1")
TARGET = "/collections/grid/cube?bbox=0,0,103900,47900"
ROUNDS = 9
# what is wanted: how often as fast as python3, and the bytes of the long document
LEAST_RATIO = 1.2
LONG = 60_000_000

# a client of the standard library: the document of a reply, or of a file, as a table
PLAIN = r'''
import http.client, itertools, json, sys

def values(axis):
    if "values" in axis:
        return axis["values"]
    start, stop, num = axis["start"], axis["stop"], axis["num"]
    return [start + (stop - start) * k // (num - 1) for k in range(num)] if num > 1 else [start]

def lines(coverage):
    axes = coverage["domain"]["axes"]
    sides = [[str(v) for v in values(axes[name])] if name in axes else ["-"] for name in ("t", "z", "y", "x")]
    for name in sorted(coverage["ranges"]):
        nodes = itertools.product(*sides)
        for node, value in zip(nodes, coverage["ranges"][name]["values"]):
            yield "%s\t%s\t%s\t%s\t%s\t%s\n" % (name, *node, "-" if value is None else value)

if sys.argv[1] == "fetch":
    connection = http.client.HTTPConnection("127.0.0.1", int(sys.argv[2]))
    connection.request("GET", sys.argv[3], headers={"Connection": "close"})
    text = connection.getresponse().read()
else:
    text = sys.stdin.buffer.read()
document = json.loads(text)
coverages = document["coverages"] if document["type"] == "CoverageCollection" else [document]
for coverage in coverages:
    sys.stdout.writelines(lines(coverage))
'''


def recorded():
    """A reply in chunks, and its body."""
    with tempfile.TemporaryDirectory() as folder:
        feed = os.path.join(folder, "feed")
        with open(feed, "wb") as file:
            subprocess.run([EDR, "make", "7"], stdout=file, check=True)
        request = f"GET {TARGET} HTTP/1.1\r\nHost: localhost\r\nConnection: close\r\n\r\n".encode()
        reply = subprocess.run([EDR, "replay", feed], input=request, stdout=subprocess.PIPE, check=True).stdout
    head, _, rest = reply.partition(b"\r\n\r\n")
    body = bytearray()
    while True:
        line, _, rest = rest.partition(b"\r\n")
        size = int(line, 16)
        if size == 0:
            break
        body += rest[:size]
        rest = rest[size + 2:]
    assert b"200 OK" in head
    return reply, bytes(body)


class Handler(http.server.BaseHTTPRequestHandler):
    """Hands out the recorded reply, in chunks, or with a length where the path says so."""
    protocol_version = "HTTP/1.1"

    def do_GET(self):
        self.close_connection = True
        if self.path.startswith("/length"):
            self.send_response(200)
            self.send_header("Content-Type", "application/prs.coverage+json")
            self.send_header("Content-Length", str(len(self.server.body)))
            self.send_header("Connection", "close")
            self.end_headers()
            self.wfile.write(self.server.body)
        else:
            self.wfile.write(self.server.reply)

    def log_message(self, *words):
        pass


class Server(socketserver.ThreadingMixIn, http.server.HTTPServer):
    daemon_threads = True


def least(words, **given):
    """The least seconds that a program takes, of some rounds."""
    def once():
        began = time.perf_counter()
        subprocess.run(words, stdout=subprocess.DEVNULL, env=ENVIRONMENT, check=True, **given)
        return time.perf_counter() - began

    return min(once() for _ in range(ROUNDS))


def long_document(file):
    """A grid of some 60 MB: samples of nine digits."""
    rounds, side = random.Random(1), 2400
    count = LONG // (10 * side)
    with open(file, "w") as to:
        to.write('{"type":"Coverage","domain":{"type":"Domain","domainType":"Grid","axes":{"x":{"start":0,"stop":%d,"num":%d},' % (side - 1, side))
        to.write('"y":{"start":0,"stop":%d,"num":%d},"t":{"values":["2024-01-01T00:00:00Z"]}},"referencing":[' % (count - 1, count))
        to.write('{"coordinates":["x","y"],"system":{"id":"local","type":"ProjectedCRS"}},{"coordinates":["t"],"system":{"calendar":"Gregorian","type":"TemporalRS"}}]},')
        to.write('"parameters":{"temp":{"type":"Parameter","unit":{"symbol":"Cel"},"observedProperty":{"label":{"en":"Temperature"}}}},')
        to.write('"ranges":{"temp":{"type":"NdArray","dataType":"integer","axisNames":["t","y","x"],"shape":[1,%d,%d],"values":[' % (count, side))
        to.write(",".join(str(rounds.randrange(100_000_000, 999_999_999)) for _ in range(count * side)))
        to.write("]}}}")


def main():
    reply, body = recorded()
    server = Server(("127.0.0.1", 0), Handler)
    server.reply, server.body = reply, body
    threading.Thread(target=server.serve_forever, daemon=True).start()
    port = server.server_address[1]
    table = lambda words: subprocess.run(words, stdout=subprocess.PIPE, env=ENVIRONMENT, check=True).stdout
    ours, plain = table([EDR, "fetch", f"http://127.0.0.1:{port}/chunks"]), table([sys.executable, "-c", PLAIN, "fetch", str(port), "/chunks"])
    if ours != plain:
        sys.exit("the tables differ")
    print(f"A reply of {ours.count(bytes([10])):,} values, {len(body):,} bytes, fetched and written as a table of {len(ours):,} bytes:\n")
    print("| body | edr fetch, milliseconds | python3 | edr as often as fast |")
    print("|---|---|---|---|")
    for kind in ("chunks", "length"):
        one = least([EDR, "fetch", f"http://127.0.0.1:{port}/{kind}"])
        other = least([sys.executable, "-c", PLAIN, "fetch", str(port), f"/{kind}"])
        print(f"| {kind} | {one * 1e3:.1f} | {other * 1e3:.1f} | {other / one:.2f} |")
    print(f"\nwanted: edr at least {LEAST_RATIO} times as often as fast as python3")
    with tempfile.TemporaryDirectory() as folder:
        file = os.path.join(folder, "long")
        long_document(file)
        size = os.path.getsize(file)
        seconds, memory, _ = run_once([EDR, "show"], file)
        slow, other, _ = run_once([shutil.which("python3"), "-c", PLAIN, "show"], file)
        print(f"\n`edr show` of {size:,} bytes: {seconds:.2f} seconds and {memory / 1e6:.0f} MB at the peak; python3 {slow:.2f} and {other / 1e6:.0f} MB")


main()
