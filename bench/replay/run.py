#!/usr/bin/env python3
"""Measures `edr replay` on 100,000 small requests beside a plain server in Rust: how many are answered a second, what memory
they take, and how the time of a request is made up.

It makes a grid of 1,000 by 1,000 nodes from a seed in a temporary folder, builds plain_server.rs there with `rustc -O`, and
sends 100 connections of 1,000 requests, which is the most that one answers, to each of the two, in turn. All requests of a
connection but the first are handed over at once, in a pipe that has room for them, when the first was answered; so the feed
is read by then. Their time goes on until the last reply stands in the output's pipe, which has room for all. The bytes of the
two have to be the same, on these connections and on one with requests of all kinds that the plain server knows. Run it from
anywhere: bench/replay/run.py"""
import array
import ctypes
import fcntl
import hashlib
import os
import random
import shutil
import statistics
import subprocess
import sys
import tempfile
import termios
import time

HERE = os.path.dirname(os.path.abspath(__file__))
sys.path.insert(0, os.path.join(HERE, ".."))
from measure import STARTER, bench, measure  # noqa: E402

EDR = os.path.join(HERE, "..", "..", "release", "edr")
SEED = 20260101
SIDE = 1000
REQUESTS = 1000
CONNECTIONS = 100
PARTS_CONNECTIONS = 30
TARGET_ROUNDS = 200
PIPE = 1_048_576
# of the requests a second of the plain server
LEAST_RATE = 0.5
REFERENCING = (
    '[{"coordinates":["x","y"],"system":{"id":"local","type":"ProjectedCRS"}},'
    '{"coordinates":["t"],"system":{"calendar":"Gregorian","type":"TemporalRS"}}]'
)


def grid(columns, rows, instants):
    """One line: a grid with samples of one digit."""
    samples = ",".join(map(str, random.Random(SEED).choices(range(10), k=columns * rows * len(instants))))
    times = ",".join(f'"{instant}"' for instant in instants)
    return (
        '{"type":"Coverage","domain":{"type":"Domain","domainType":"Grid","axes":{"x":{"start":0,"stop":%d,"num":%d},"y":'
        '{"start":0,"stop":%d,"num":%d},"t":{"values":[%s]}},"referencing":%s},"parameters":{"temp":{'
        '"type":"Parameter","unit":{"symbol":"Cel"},"observedProperty":{"label":{"en":"Temperature"}}}},"ranges":{"temp":{'
        '"type":"NdArray","dataType":"integer","axisNames":["t","y","x"],"shape":[%d,%d,%d],"values":[%s]}}}\n'
        % (columns - 1, columns, rows - 1, rows, times, REFERENCING, len(instants), rows, columns, samples)
    )


def position(number):
    """The target of a position of its own."""
    return f"/collections/grid/position?coords=POINT({number * 37 % SIDE}%20{number * 91 % SIDE})"


def refused(number):
    """The same with a reference system that the collection hasn't, which the plan refuses at once."""
    return position(number) + "&crs=x"


def request(method, target):
    return f"{method} {target} HTTP/1.1\r\nHost: localhost\r\n\r\n".encode()


def requests_for(method, target_of):
    """As many requests as a connection answers."""
    return [request(method, target_of(number)) for number in range(REQUESTS)]


def all_kinds():
    """A connection with requests of all kinds that the plain server knows, refused ones too."""
    front = "/collections/grid/position?coords="
    query = front + "POINT(3%201)"
    targets = [
        query,
        front + "point%28+1.50+2%29",
        front + "POINT%20(%09+2.%20%20001%20)",
        query + "&f=coveragejson&parameter-name=temp&crs=local&datetime=2024-01-01T01:00:00Z",
        query + "&datetime=2024-01-01T01:30%2B01:00/..&f=application/prs.coverage%2Bjson",
        query + "&datetime=../2024-01-01t00:59:59.00z&&f=JSON",
        "/collections/grid/instances/1/position/?coords=POINT(-0%200)&",
        "/collections/gr%69d/instances/%31/position?%63oords=POINT(4%203)",
        query + "&datetime=2023-12-31T23:59:59Z",
        query + "&datetime=2024-02-30T00:00:00Z",
        query + "&datetime=2024-01-02T00:00:00Z/2024-01-01T00:00:00Z",
        query + "&z=0/10",
        query + "&z=R3/0/10",
        query + "&z=10/0",
        query + "&parameter-name=temp,wind",
        query + "&crs=EPSG:32633",
        query + "&f=xml",
        query + "&f=application/prs.coverage+json",
        query + "&coords=POINT(1%201)",
        query + "&wind=1",
        front + "POINT(1.5%200)",
        front + "POINT(1%200%200)",
        front + "POINT(100000001%200)",
        front + "POINT(5%200)",
        front + "POINT(0%20-1)",
        "/collections/grid/position",
        "/collections/wind/position?coords=POINT(0%200)",
        "/collections/grid/instances/2/position?coords=POINT(0%200)",
        "/collections//position?coords=POINT(0%200)",
        "/collections/grid%FF/position?coords=POINT(0%200)",
        "/nowhere",
    ]
    heads = [
        b"\r\n\nGET %s HTTP/1.1\nhost:\n\n",
        b"HEAD %s HTTP/1.1\r\nX-Any: \t%%\r\nHost: a, b\r\nContent-Length: 00 \r\n\r\n",
        b"GET %s HTTP/1.1\r\nHost: a\r\nConnection: keep-alive , upgrade\r\n\r\n",
    ]
    ends = [
        b"GET %s HTTP/1.1\r\nHost: a\r\nCONNECTION: a,\tClose\r\n\r\n",
        b"GET %s HTTP/1.1\r\nHost: a\r\nContent-Length: 1\r\n\r\n",
        b"HEAD %s HTTP/1.1\r\nHost: a\r\nTransfer-Encoding: chunked\r\n\r\n",
        b"GET %s HTTP/1.1\r\n\r\n",
        b"GET %s HTTP/1.0\r\nHost: a\r\n\r\n",
        b"get %s HTTP/1.1\r\nHost: a\r\n\r\n",
        b"GET %s HTTP/1.1\r\nHost : a\r\n\r\n",
        b"GET %s HTTP/1.1\r\nHost: a\r\n",
        b"GET  %s HTTP/1.1\r\nHost: a\r\n\r\n",
        b"",
    ]
    lines = [request("GET", target) for target in targets] + [request("HEAD", target) for target in targets]
    lines += [head % query.encode() for head in heads]
    return [b"".join(lines) + end % ((query.encode(),) if end else ()) + b"GET" for end in ends]


class Connection:
    """A server that was started on one connection."""

    def __init__(self, words):
        told, tells = os.pipe()
        source, self.input = os.pipe()
        self.output, sink = os.pipe()
        for end in (self.input, self.output):
            fcntl.fcntl(end, fcntl.F_SETPIPE_SZ, PIPE)
        starter = [sys.executable, "-I", "-S", "-c", STARTER, str(tells)]
        self.process = subprocess.Popen(starter + words, stdin=source, stdout=sink, pass_fds=(tells,))
        self.report = os.fdopen(told, "rb")
        for end in (source, sink, tells):
            os.close(end)

    def send(self, text):
        os.write(self.input, text)

    def close_input(self):
        os.close(self.input)

    def read_reply(self, end):
        """The bytes of one reply, which ends so."""
        reply = b""
        while not reply.endswith(end):
            piece = os.read(self.output, PIPE)
            if not piece:
                sys.exit(f"the output ended within a reply: {reply!r}")
            reply += piece
        return reply

    def wait_for(self, count):
        """Waits until so many bytes stand in the output's pipe."""
        ready = array.array("i", [0])
        while ready[0] < count and self.process.poll() is None:
            time.sleep(20e-6)
            fcntl.ioctl(self.output, termios.FIONREAD, ready)

    def finish(self):
        """The rest of the output, and the peak of memory in bytes."""
        rest = b""
        while piece := os.read(self.output, PIPE):
            rest += piece
        os.close(self.output)
        self.process.wait()
        status, peak, _ = self.report.read().split()
        self.report.close()
        if int(status) != 0:
            sys.exit(f"the server ended with {int(status)}")
        return rest, int(peak)


def serve(words, requests, end, length=0):
    """One connection: the seconds from when all requests but the first are handed over until their replies, of so many bytes,
    stand in the pipe; the peak of memory; and the whole output."""
    connection = Connection(words)
    connection.send(requests[0])
    first = connection.read_reply(end)
    others = b"".join(requests[1:])
    began = time.perf_counter()
    connection.send(others)
    connection.wait_for(length)
    took = time.perf_counter() - began
    connection.close_input()
    rest, peak = connection.finish()
    return took, peak, first + rest


def output_of(words, text):
    """All that is written on a connection with these bytes."""
    done = subprocess.run(words, input=text, capture_output=True)
    if done.returncode != 0:
        sys.exit(f"{words} ended with {done.returncode}")
    return done.stdout


def fingerprint(text):
    return hashlib.sha256(text).hexdigest()[:16]


def compare(servers, texts):
    """Ends the run unless the servers write the same bytes on each of these connections."""
    for text in texts:
        outputs = [output_of(words, text) for words in servers]
        if outputs[0] != outputs[1]:
            sys.exit(f"the servers differ on {text!r}:\n{outputs[0].decode()}\n--\n{outputs[1].decode()}")


def measured(servers, requests, end, connections):
    """For each server the least and the middle seconds of a request, the greatest peak, and the output's fingerprint."""
    lengths, prints, times, peaks = {}, {}, {}, {}
    for name, words in servers.items():
        _, _, output = serve(words, requests, end)
        lengths[name] = len(output) - (output.index(end) + len(end))
        prints[name] = fingerprint(output)
        times[name], peaks[name] = [], []
    for _ in range(connections):
        for name, words in servers.items():
            took, peak, output = serve(words, requests, end, lengths[name])
            if fingerprint(output) != prints[name]:
                sys.exit(f"{name} answers the same requests in two ways")
            times[name].append(took / (len(requests) - 1))
            peaks[name].append(peak)
    return {name: (min(times[name]), statistics.median(times[name]), max(peaks[name]), prints[name]) for name in servers}


def build_plain(folder):
    if not shutil.which("rustc"):
        sys.exit("rustc is wanted, to build plain_server.rs")
    program = os.path.join(folder, "plain_server")
    subprocess.run(["rustc", "--edition", "2024", "-O", "-o", program, os.path.join(HERE, "plain_server.rs")], check=True)
    return program


def target_time(folder, target_of):
    """The seconds that `read_target` takes for one of the targets of a connection."""
    targets = [target_of(number) for number in range(REQUESTS)]
    path = os.path.join(folder, "targets")
    with open(path, "w") as file:
        file.write("\n".join(targets))
    none, _, _ = measure(bench("targets", 0), path)
    took, _, answer = measure(bench("targets", TARGET_ROUNDS), path)
    if answer != str(len(targets)):
        sys.exit(f"{answer} of {len(targets)} targets ask for a page")
    return (took - none) / TARGET_ROUNDS / len(targets)


def parts(folder, words, whole):
    """How the time of a request for a position, of so many seconds, is made up."""

    def head_time(target_of):
        """The seconds of a request for the head of a reply."""
        requests = requests_for("HEAD", target_of)
        return measured({"edr replay": words}, requests, b"\r\n\r\n", PARTS_CONNECTIONS)["edr replay"][0]

    of_head = head_time(position)
    head = head_time(refused) - target_time(folder, refused)
    target = target_time(folder, position)
    rows = [
        ("head", head, "HEAD of the positions with a `crs` that the plan refuses at once, less the time of those targets:"
         " the head read and checked, an edition taken, the reply's head written"),
        ("target", target, "`edr_bench targets` on the positions' targets"),
        ("plan", of_head - head - target, "HEAD of the positions, less the two above"),
        ("send", whole - of_head, "GET of the positions, less HEAD of them: a tile opened, the document written in chunks"),
        ("all", whole, "GET of the positions"),
    ]
    print("| part of a request | microseconds | share | how it is taken |")
    print("|---|---|---|---|")
    for name, seconds, how in rows:
        print(f"| {name} | {seconds * 1e6:.2f} | {seconds / whole:.0%} | {how} |")


def main():
    if not os.path.exists(EDR):
        sys.exit("release/edr is missing: release/renew puts it there")
    bench("targets", 0)
    # short sleeps, to the microsecond
    ctypes.CDLL(None).prctl(29, 1, 0, 0, 0)
    with tempfile.TemporaryDirectory() as folder:
        plain = build_plain(folder)
        feed = os.path.join(folder, "feed")
        with open(feed, "w") as file:
            file.write(grid(5, 4, ["2024-01-01T00:00:00Z", "2024-01-01T01:00:00Z"]))
        compare(([EDR, "replay", feed], [plain, feed]), all_kinds())
        with open(feed, "w") as file:
            file.write(grid(SIDE, SIDE, ["2024-01-01T00:00:00Z"]))
        servers = {"edr replay": [EDR, "replay", feed], "plain_server.rs": [plain, feed]}
        requests = requests_for("GET", position)
        end = b"\r\n0\r\n\r\n"
        one = measured(servers, requests[:1] * 2, end, 3)
        found = measured(servers, requests, end, CONNECTIONS)
        if len({found[name][3] for name in servers}) != 1:
            sys.exit("the servers write different bytes")
        least = found["plain_server.rs"][0]
        print("| server | requests a second | microseconds, least | middle | of the plain server's requests a second |"
              " MB at the peak, 2 requests | 1,000 requests | sha256 of the replies |")
        print("|---|---|---|---|---|---|---|---|")
        for name, (best, middle, peak, text) in found.items():
            print(f"| {name} | {1 / best:,.0f} | {best * 1e6:.2f} | {middle * 1e6:.2f} | {least / best:.2f} |"
                  f" {one[name][2] / 1e6:.1f} | {peak / 1e6:.1f} | {text} |")
        print()
        parts(folder, servers["edr replay"], found["edr replay"][0])
        ratio = least / found["edr replay"][0]
        print(f"\nwanted: at least {LEAST_RATE:.2f} of the plain server's requests a second; found {ratio:.2f}")


if __name__ == "__main__":
    main()
