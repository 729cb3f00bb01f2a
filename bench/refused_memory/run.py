#!/usr/bin/env python3
"""Refuses memory to `edr` and `edrd`: of each run the N-th request for it, for each N until the run takes no N-th.

`refuse.c`, which `cc` builds, stands before the C library by LD_PRELOAD and refuses the one request. Each run has to end with its own
status and output, as without a refusal, and its line on standard error or a beginning of it; or with status 5, a beginning of that
output, and the line `out of memory` or a beginning of it. What a client of the daemon gets has to be a beginning of what it gets without. The runs are each
command and each kind of query on small data. Where a run asks for memory more often than `--most`, so many N are taken, evenly.

It needs `cc` and the built programs. The status is 1 where a run ends otherwise. Run it from anywhere:
bench/refused_memory/run.py [--sample K] [--most M] [NAME ..]"""
import argparse
import os
import shutil
import socket
import subprocess
import sys
import tempfile
import threading
import time

HERE = os.path.dirname(os.path.abspath(__file__))
TOP = os.path.join(HERE, "..", "..")
EDR, EDRD = os.path.join(TOP, "release", "edr"), os.path.join(TOP, "release", "edrd")
MEMORY_LINE = b"out of memory\n"
PATIENCE = 20
COMES, MOMENT = 3, 0.5
AT = "&datetime=2024-01-01T00:00:00Z"
POSITION = "/collections/grid/position?coords=POINT(50 0)" + AT
NEAR = "&within=150&within-units=m"
WIDE = "&corridor-width=100&width-units=m"
CUT = "GET /conformance HTT"
TABLE = """station,label,x,y,t,parameter,value
A,Alpha,0,0,2024-01-01T00:00:00Z,level,1
A,Alpha,0,0,2024-01-01T01:00:00Z,level,
B,Beta,100,0,2024-01-01T00:00:00Z,flow,-7
"""


def example(name):
    with open(os.path.join(TOP, "examples", name), "rb") as file:
        return file.read()


def one_line(document):
    """A document without its line ends, as a line of a feed has it."""
    return b"".join(line.strip() for line in document.split(b"\n"))


GRID, STATIONS, FORECAST = one_line(example("grid.json")), example("stations.jsonl"), example("feed.jsonl")
# two editions: the grid, and the same with other values
TWO = GRID + b"\n" + GRID.replace(b"[10,11,12,13,null,15,20,21,22,23,24,25]", b"[110,111,112,113,null,115,20,21,22,23,24,25]") + b"\n"
BLANKS = GRID + b'\n{"publish":{}}\n \t\n'


def request(target, method="GET", fields=""):
    return f"{method} {target.replace(' ', '%20')} HTTP/1.1\r\nHost: a\r\n{fields}\r\n".encode()


# each kind of page and of query, over grids and over stations
OVER_GRIDS = {
    "position": POSITION,
    "positions": "/collections/grid/position?coords=MULTIPOINT((0 0),(200 100))",
    "position of names": "/collections/grid/position?coords=POINT(0 0)&parameter-name=temp&crs=http://www.opengis.net/def/crs/EPSG/0/32633",
    "radius": "/collections/grid/radius?coords=POINT(0 0)" + NEAR,
    "area": "/collections/grid/area?coords=POLYGON((0 0,200 0,0 100,0 0))",
    "areas": "/collections/grid/area?coords=MULTIPOLYGON(((0 0,50 0,0 50,0 0)),((150 50,200 100,200 50,150 50)))",
    "cube": "/collections/grid/cube?bbox=0,0,100,100" + AT,
    "trajectory": "/collections/grid/trajectory?coords=LINESTRING(0 0,200 100)",
    "trajectory in time": "/collections/grid/trajectory?coords=LINESTRING M(0 0 1704067200,200 100 1704070800)",
    "corridor": "/collections/grid/corridor?coords=LINESTRING(0 0,200 100)" + WIDE,
    "corridor in time": "/collections/grid/corridor?coords=LINESTRING M(0 0 1704067200,200 100 1704070800)" + WIDE,
    "instance": "/collections/grid/instances/1/position?coords=POINT(0 0)",
    "landing page": "/",
    "conformance": "/conformance",
    "collections": "/collections",
    "collection": "/collections/grid",
    "instances": "/collections/grid/instances",
    "one instance": "/collections/grid/instances/1",
    "no page": "/nothing",
    "no collection": "/collections/nothing",
    "no samples": "/collections/grid/position?coords=POINT(9000 0)",
    "no text": "/collections/grid/position?coords=POINT(",
}
OVER_STATIONS = {
    "radius of stations": "/collections/gauges/radius?coords=POINT(0 0)" + NEAR,
    "area of stations": "/collections/gauges/area?coords=POLYGON((0 0,200 0,200 200,0 200,0 0))",
    "cube of stations": "/collections/gauges/cube?bbox=0,0,200,200",
    "corridor of stations": "/collections/gauges/corridor?coords=LINESTRING(0 0,200 0)" + WIDE,
    "station": "/collections/gauges/locations/A",
    "stations": "/collections/gauges/locations",
}


class Run:
    """A run of `edr`: its words, with FEED for the file of a feed and PORT for that of a peer, and what it is given."""

    def __init__(self, *words, given=b"", feed=b"", reply=b""):
        self.words, self.given, self.feed, self.reply = words, given, feed, reply

    def held(self, folder):
        """The words, with the feed in a file."""
        path = os.path.join(folder, "feed")
        if self.feed:
            with open(path, "wb") as file:
                file.write(self.feed)
        return [path if word == "FEED" else word for word in self.words]

    def ended(self, folder, environment, told):
        """The status, the output, the line on standard error, and what a client got, of which there is none."""
        words = self.held(folder)
        peer = Peer(self.reply) if self.reply else None
        words = [word.replace("PORT", str(peer.port)) for word in words] if peer else words
        how = {"input": self.given, "capture_output": True, "env": environment, "pass_fds": told, "timeout": PATIENCE}
        try:
            ran = subprocess.run([EDR, *words], check=False, **how)
            return ran.returncode, ran.stdout, ran.stderr, b""
        except subprocess.TimeoutExpired:
            return None, b"it doesn't end", b"", b""
        finally:
            if peer:
                peer.end()


class Peer:
    """A server that writes one reply to one connection, whatever it is asked."""

    def __init__(self, reply):
        self.door, self.reply = socket.create_server(("127.0.0.1", 0)), reply
        self.port = self.door.getsockname()[1]
        self.thread = threading.Thread(target=self.serve, daemon=True)
        self.thread.start()

    def serve(self):
        try:
            with self.door.accept()[0] as it:
                it.settimeout(5)
                if it.recv(1 << 16):
                    it.sendall(self.reply)
        except OSError:
            pass

    def end(self):
        """Ends it, also where nobody came: a connection of its own wakes it."""
        try:
            socket.create_connection(("127.0.0.1", self.port), timeout=1).close()
        except OSError:
            pass
        self.thread.join(10)
        self.door.close()


class Daemon(Run):
    """A run of `edrd` that ends after one connection, on which a client asks all its requests."""

    def ended(self, folder, environment, told):
        words = [EDRD, *self.held(folder)]
        pipes = {"stdin": subprocess.DEVNULL, "stdout": subprocess.PIPE, "stderr": subprocess.PIPE, "bufsize": 0}
        with subprocess.Popen(words, env=environment, pass_fds=told, **pipes) as ran:
            line = ran.stdout.readline()
            got = self.asked(ran, int(line.rsplit(b":", 1)[1])) if line.startswith(b"listening") and line.endswith(b"\n") else b""
            try:
                output, errors = ran.communicate(timeout=PATIENCE)
            except subprocess.TimeoutExpired:
                ran.kill()
                return None, b"it doesn't end", b"", got
        return ran.returncode, without_numbers(line + output), errors, got

    def asked(self, ran, port):
        """What a client gets. Where the daemon lacks memory for a connection it passes it over, and the client comes again."""
        for _ in range(COMES):
            got = self.asked_once(port)
            if got or has_ended(ran):
                return got
        return b""

    def asked_once(self, port):
        got = bytearray()
        try:
            with socket.create_connection(("127.0.0.1", port), timeout=PATIENCE) as it:
                it.sendall(self.given)
                it.shutdown(socket.SHUT_WR)
                while piece := it.recv(1 << 16):
                    got += piece
        except OSError:
            pass
        return bytes(got)


def has_ended(ran):
    """Whether a process ends within a moment."""
    try:
        ran.wait(MOMENT)
        return True
    except subprocess.TimeoutExpired:
        return False


def without_numbers(output):
    """The lines of the daemon without its port, and without how many faults there were: a session that lacked memory is one."""
    lines = output.split(b"\n")
    for at, line in enumerate(lines):
        if line.startswith(b"listening on 127.0.0.1:"):
            lines[at] = b"listening"
        if line.startswith(b"connections "):
            lines[at] = line.split(b",")[0]
    return b"\n".join(lines)


def runs():
    """All runs by their names."""
    document = subprocess.run([EDR, "ask", POSITION], input=GRID, capture_output=True, check=True).stdout
    reply = b"HTTP/1.1 200 OK\r\nX-Edr-Edition: 1\r\nContent-Length: %d\r\n\r\n%s" % (len(document), document)
    pieces = b"".join(b"%x\r\n%s\r\n" % (len(it), it) for it in (document[:100], document[100:])) + b"0\r\n\r\n"
    chunks = b"HTTP/1.1 200 OK\r\nTransfer-Encoding: chunked\r\n\r\n" + pieces
    refusal = b'HTTP/1.1 404 Not Found\r\nContent-Length: 33\r\n\r\n{"code":"NoSamples","number":25}\n'
    asked = b"".join(map(request, OVER_GRIDS.values())) + request(POSITION, "HEAD") + request(POSITION, "POST")
    found = {f"ask: {name}": Run("ask", target, given=GRID) for name, target in OVER_GRIDS.items()}
    found |= {f"ask: {name}": Run("ask", target, given=STATIONS) for name, target in OVER_STATIONS.items()}
    found |= {
        "ask: no feed": Run("ask", "/", given=b"{}"),
        "check": Run("check", given=BLANKS),
        "check --summary": Run("check", "--summary", given=BLANKS),
        "check: changes": Run("check", given=FORECAST),
        "check: stations": Run("check", "--summary", given=STATIONS),
        "check --why: coverage": Run("check", "--why", given=GRID.replace(b"[10,", b"[1.5,")),
        "check --why: change": Run("check", "--why", given=b'{"drop":{"collection":"a"}}\n'),
        "replay": Run("replay", "FEED", given=asked, feed=TWO),
        "replay --advance": Run("replay", "FEED", "--advance", given=request(POSITION) * 3, feed=TWO),
        "replay: stations": Run("replay", "FEED", given=b"".join(map(request, OVER_STATIONS.values())), feed=STATIONS),
        "replay: cut": Run("replay", "FEED", given=request("/") + CUT.encode(), feed=TWO),
        "replay: no file": Run("replay", "/nowhere/feed", given=request("/")),
        "show": Run("show", given=document),
        "show --why": Run("show", "--why", given=document.replace(b"NdArray", b"Other")),
        "fetch": Run("fetch", "http://127.0.0.1:PORT" + POSITION, reply=reply),
        "fetch: chunks": Run("fetch", "http://127.0.0.1:PORT/", reply=chunks),
        "fetch --why": Run("fetch", "http://127.0.0.1:PORT/", "--why", reply=refusal),
        "fetch: broken": Run("fetch", "http://127.0.0.1:PORT/", "--why", reply=chunks[:-3]),
        "import": Run("import", given=TABLE.encode()),
        "import: refused": Run("import", given=(TABLE + TABLE.split("\n")[1] + "\n").encode()),
        "export": Run("export", "/collections/grid/cube?bbox=0,0,200,100", given=GRID),
        "export: stations": Run("export", "/collections/gauges/cube?bbox=0,0,200,200", given=STATIONS),
        "export: refused": Run("export", "/collections/grid", given=GRID),
        "make": Run("make", "7"),
        "work": Run("work", "7"),
        "--help": Run("--help"),
        "--version": Run("--version"),
        "no words": Run(),
    }
    ends = ("--port", "0", "--workers", "1", "--connections", "1", "--every", "0")
    found |= {
        "edrd": Daemon("FEED", *ends, given=asked, feed=GRID),
        "edrd: stations": Daemon("FEED", *ends, given=b"".join(map(request, OVER_STATIONS.values())), feed=STATIONS),
        "edrd --last": Daemon("FEED", *ends, "--last", given=request(POSITION), feed=TWO),
        "edrd: no feed": Daemon("FEED", *ends, feed=b"{}"),
        "edrd --help": Daemon("--help"),
        "edrd: no words": Daemon(),
    }
    return found


class Tries:
    """One run, as it ends without a refusal, and tried with refusals."""

    def __init__(self, run, library):
        self.run, self.library, self.given_up = run, library, 0
        self.wanted, _ = self.end(0)

    def end(self, nth):
        """How the run ends, and whether it took an N-th request."""
        tells, told = os.pipe()
        environment = {**os.environ, "LD_PRELOAD": self.library, "REFUSED_REQUEST": str(nth), "REFUSED_TOLD": str(told)}
        with tempfile.TemporaryDirectory() as folder, open(tells, "rb") as reads:
            try:
                ended = self.run.ended(folder, environment, (told,))
            finally:
                os.close(told)
            return ended, reads.read() != b""

    def count(self):
        """How many requests for memory the run makes: the least N that it doesn't take, less one."""
        most = 1
        while self.end(most)[1]:
            most *= 2
        least = most // 2
        while most - least > 1:
            middle = (least + most) // 2
            least, most = (middle, most) if self.end(middle)[1] else (least, middle)
        return least

    def fault(self, nth):
        """What is wrong where the N-th request is refused, or nothing."""
        (status, output, errors, got), _ = self.end(nth)
        wanted_status, wanted_output, wanted_errors, wanted_got = self.wanted
        if not wanted_got.startswith(got):
            return f"a client got {got[-200:]!r}, which is no beginning"
        if status == 5:
            self.given_up += 1
            if not MEMORY_LINE.startswith(errors):
                return f"status 5, and on standard error {errors!r}"
            return "" if wanted_output.startswith(output) else f"status 5, and {output[:200]!r}, which is no beginning"
        if status != wanted_status:
            return f"status {status} and {errors[:200]!r}, wanted {wanted_status} or 5"
        if output != wanted_output or not wanted_errors.startswith(errors):
            return f"status {status}, and another output or line: {output[:100]!r}, {errors[:100]!r}"
        return ""


def numbers(count, wanted):
    """The numbers of the requests that are refused: all, or so many that are spread evenly, with the first and the last."""
    wanted = min(count, wanted)
    return sorted({1 + at * (count - 1) // max(wanted - 1, 1) for at in range(wanted)})


def build(folder):
    """The library, built by the first compiler of C that is here."""
    compiler = next((it for it in ("cc", "gcc", "clang") if shutil.which(it)), None)
    if compiler is None:
        sys.exit("no compiler of C is here: apt-get install gcc")
    path = os.path.join(folder, "refuse.so")
    subprocess.run([compiler, "-shared", "-fPIC", "-O2", "-o", path, os.path.join(HERE, "refuse.c")], check=True)
    return path


def main():
    words = argparse.ArgumentParser(description=__doc__.split("\n\n", maxsplit=1)[0])
    words.add_argument("names", nargs="*", help="of runs; else all")
    words.add_argument("--sample", type=int, default=0, help="how many refusals of each run are tried; else each")
    words.add_argument("--most", type=int, default=2000, help="how many are tried at most where a run asks for memory more often")
    words = words.parse_args()
    for program in (EDR, EDRD):
        if not os.path.exists(program):
            sys.exit(f"{program} isn't built: run ./edr and ./edrd once")
    began, total, faults = time.monotonic(), 0, 0
    print("| run | status | requests for memory | refused | of these, status 5 | faults |\n|---|---|---|---|---|---|")
    with tempfile.TemporaryDirectory() as folder:
        library = build(folder)
        for name, run in runs().items():
            if words.names and name not in words.names:
                continue
            tries = Tries(run, library)
            wrong = []
            count = tries.count()
            chosen = numbers(count, words.sample or words.most)
            for nth in chosen:
                fault = tries.fault(nth)
                if fault:
                    wrong.append(f"{name}, request {nth}: {fault}")
            print(f"| {name} | {tries.wanted[0]} | {count:,} | {len(chosen):,} | {tries.given_up:,} | {len(wrong)} |", flush=True)
            for it in wrong[:5]:
                print(it, file=sys.stderr, flush=True)
            total, faults = total + len(chosen), faults + len(wrong)
    print(f"\n{total} requests for memory refused, {faults} faults, in {time.monotonic() - began:.0f} seconds")
    sys.exit(1 if faults else 0)


if __name__ == "__main__":
    main()
