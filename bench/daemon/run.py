#!/usr/bin/env python3
"""Measures `edrd` over real sockets of this machine, beside a plain server in Rust and beside `edr replay`.

It needs `rustc`, and `wrk`, which loads a server with requests over
connections that are kept open; without `wrk` its own client does, more slowly, and says so. Each load is bounded in time.
Run it from anywhere, on a machine that does nothing else: bench/daemon/run.py"""
import importlib.util
import os
import random
import re
import resource
import shutil
import socket
import subprocess
import sys
import tempfile
import threading
import time

HERE = os.path.dirname(os.path.abspath(__file__))
TOP = os.path.join(HERE, "..", "..")
SPEC = importlib.util.spec_from_file_location("replay", os.path.join(TOP, "bench", "replay", "run.py"))
replay = importlib.util.module_from_spec(SPEC)
SPEC.loader.exec_module(replay)
EDR = os.path.join(TOP, "release", "edr")
EDRD = os.path.join(TOP, "release", "edrd")
WORKERS = 4
SECONDS = 8
END = b"\r\n0\r\n\r\n"
LARGE = "/collections/grid/cube?bbox=0,0,99900,49900"
# what is wanted
LEAST_RATE = 40_000
MOST_TIME = 2.0
LEAST_LARGE = 400


def free_port():
    with socket.socket() as it:
        it.bind(("127.0.0.1", 0))
        return it.getsockname()[1]


class Server:
    """A server at a port of its own, until it is stopped."""

    def __init__(self, words_of):
        self.port = free_port()
        self.process = subprocess.Popen(words_of(self.port), stdin=subprocess.DEVNULL, stdout=subprocess.DEVNULL)
        while True:
            try:
                socket.create_connection(("127.0.0.1", self.port)).close()
                return
            except OSError:
                if self.process.poll() is not None:
                    sys.exit(f"the server ended with {self.process.returncode}")
                time.sleep(0.01)

    def processor_time(self):
        """The seconds of processor time so far."""
        fields = open(f"/proc/{self.process.pid}/stat").read().rsplit(")", 1)[1].split()
        return (int(fields[11]) + int(fields[12])) / os.sysconf("SC_CLK_TCK")

    def resident(self):
        """The bytes of memory that it holds now."""
        return int(re.search(r"VmRSS:\s+(\d+)", open(f"/proc/{self.process.pid}/status").read())[1]) * 1024

    def stop(self):
        self.process.terminate()
        self.process.wait()


def edrd(feed, workers=WORKERS):
    return Server(lambda port: [EDRD, feed, "--port", str(port), "--workers", str(workers), "--requests", "1000"])


def read_reply(connection, held=b""):
    """One reply in chunks, and the bytes behind it."""
    while END not in held:
        piece = connection.recv(1 << 20)
        if not piece:
            sys.exit(f"the connection ended within a reply: {held[-200:]!r}")
        held += piece
    at = held.index(END) + len(END)
    return held[:at], held[at:]


def own_load(port, path_of, connections, seconds):
    """Requests a second over so many connections, by threads of this program."""
    counts, until = [0] * connections, time.perf_counter() + seconds

    def ask(at):
        while time.perf_counter() < until:
            with socket.create_connection(("127.0.0.1", port)) as connection:
                for number in range(1000):
                    connection.sendall(replay.request("GET", path_of(number)))
                    read_reply(connection)
                    counts[at] += 1
                    if time.perf_counter() > until:
                        return

    threads = [threading.Thread(target=ask, args=(at,)) for at in range(connections)]
    for it in threads:
        it.start()
    for it in threads:
        it.join()
    return sum(counts) / seconds, sum(counts)


def load(port, connections, seconds=SECONDS, path=None):
    """Requests a second over so many connections that are kept open, and how many were answered."""
    if not shutil.which("wrk"):
        return own_load(port, (lambda number: path) if path else replay.position, connections, seconds)
    words = ["wrk", "-t", str(min(connections, 2)), "-c", str(connections), "-d", f"{seconds}s"]
    words += [f"http://127.0.0.1:{port}{path}"] if path else ["-s", os.path.join(HERE, "positions.lua"), f"http://127.0.0.1:{port}"]
    told = subprocess.run(words, capture_output=True, text=True).stdout
    if "Non-2xx" in told:
        sys.exit(told)
    return float(re.search(r"Requests/sec:\s+([\d.]+)", told)[1]), int(re.search(r"(\d+) requests in", told)[1])


def replay_time(folder, over_socket):
    """The seconds of processor time that `edr replay` takes for one position, of 1,000 on one connection less those of one: in a
    grid of one tile, whose feed is read in no time. The requests come over a socket, each when the last was answered, as they
    come to the daemon; or else all at once in a pipe."""
    feed, side = os.path.join(folder, "tile"), 64
    with open(feed, "w") as file:
        file.write(replay.grid(side, side, ["2024-01-01T00:00:00Z"]))

    def ask(requests, there):
        held = b""
        for request in requests:
            there.sendall(request)
            _, held = read_reply(there, held)
        there.shutdown(socket.SHUT_WR)
        while there.recv(1 << 16):
            pass

    def used(requests):
        before = resource.getrusage(resource.RUSAGE_CHILDREN)
        if over_socket:
            with socket.create_server(("127.0.0.1", 0)) as door, socket.create_connection(door.getsockname()) as there:
                here, _ = door.accept()
                here.setsockopt(socket.IPPROTO_TCP, socket.TCP_NODELAY, 1)
                process = subprocess.Popen([EDR, "replay", feed], stdin=here, stdout=here)
                here.close()
                ask(requests, there)
                process.wait()
        else:
            subprocess.run([EDR, "replay", feed], input=b"".join(requests), stdout=subprocess.DEVNULL, check=True)
        after = resource.getrusage(resource.RUSAGE_CHILDREN)
        return after.ru_utime + after.ru_stime - before.ru_utime - before.ru_stime

    path = "/collections/grid/position?coords=POINT({}%20{})"
    requests = replay.requests_for("GET", lambda number: path.format(number * 37 % side, number * 91 % side))
    rounds = 30
    return min(used(requests) for _ in range(rounds)) / len(requests) - min(used(requests[:1]) for _ in range(rounds)) / len(requests)


def small(folder, feed, plain):
    print(f"Positions in a grid of a million nodes, {WORKERS} workers:\n")
    print("| server | connections | requests a second | microseconds of processor time a request |")
    print("|---|---|---|---|")
    servers = {"edrd": lambda: edrd(feed), "plain_server.rs": lambda: Server(lambda port: [plain, feed, str(port), str(WORKERS)])}
    rates, times = {}, {}
    for name, start in servers.items():
        server = start()
        for connections in (1, 8, 64):
            before = server.processor_time()
            rate, count = load(server.port, connections)
            took = (server.processor_time() - before) / count
            rates[name, connections], times[name, connections] = rate, took
            print(f"| {name} | {connections} | {rate:,.0f} | {took * 1e6:.1f} |")
        server.stop()
    one, in_pipe = replay_time(folder, True), replay_time(folder, False)
    ratio = times["edrd", 8] / one
    print(f"\n`edr replay` takes {one * 1e6:.1f} microseconds of processor time for one of these over a socket, one after the other, and {in_pipe * 1e6:.1f} where all come at once in a pipe.")
    print(f"\nwanted: at least {LEAST_RATE:,} a second at 8 connections; found {rates['edrd', 8]:,.0f}")
    print(f"wanted: at most {MOST_TIME:.1f} of the processor time of `edr replay`; found {ratio:.2f}")


def large(made):
    server = edrd(made)
    rate, _ = load(server.port, WORKERS, path=LARGE)
    server.stop()
    print(f"\nwanted: at least {LEAST_LARGE} cubes of 500,000 values a second over {WORKERS} workers; found {rate:.0f}")


def in_turn(feed, seconds=60, count=1000):
    """So many connections one after the other, each of one to three requests, with every byte compared."""
    server, rounds = edrd(feed), random.Random(1)
    texts = [replay.request("GET", replay.position(number)) for number in range(50)]
    whole = replay.output_of([EDR, "replay", feed], b"".join(texts))
    expected = []
    while whole:
        at = whole.index(END) + len(END)
        expected.append(whole[:at])
        whole = whole[at:]
    began, replies = time.perf_counter(), 0
    for turn in range(count):
        with socket.create_connection(("127.0.0.1", server.port)) as connection:
            held = b""
            for _ in range(rounds.randint(1, 3)):
                number = rounds.randrange(len(texts))
                connection.sendall(texts[number])
                reply, held = read_reply(connection, held)
                if reply != expected[number]:
                    sys.exit(f"another reply than that of edr replay: {reply!r}")
                replies += 1
        time.sleep(max(0.0, began + seconds * (turn + 1) / count - time.perf_counter()))
    server.stop()
    print(f"\n{count} connections in turn over {time.perf_counter() - began:.0f} seconds: {replies} replies, each byte as `edr replay` writes it")


def memory(feed):
    server, total = edrd(feed), 0
    _, count = load(server.port, 8, 1)
    first, total = server.resident(), count
    while total < 1_000_000:
        _, count = load(server.port, 8, SECONDS)
        total += count
    last = server.resident()
    server.stop()
    print(f"\nresident memory after a second of requests {first / 1e6:.1f} MB, after {total:,} of them {last / 1e6:.1f} MB")
    sizes = {}
    for workers in (1, 8, 64):
        server = edrd(feed, workers)
        load(server.port, workers, 2)
        sizes[workers] = server.resident()
        server.stop()
    told = ", ".join(f"{workers} workers {size / 1e6:.1f} MB" for workers, size in sizes.items())
    print(f"resident memory by workers, all of them used: {told}")


def main():
    for program in (EDR, EDRD):
        if not os.path.exists(program):
            sys.exit("release/ lacks a program: release/renew puts it there")
    if not shutil.which("wrk"):
        print("wrk isn't here: the load is this script's own, which is slower than the servers")
    with tempfile.TemporaryDirectory() as folder:
        plain = replay.build_plain(folder)
        feed, made = os.path.join(folder, "feed"), os.path.join(folder, "made")
        with open(feed, "w") as file:
            file.write(replay.grid(replay.SIDE, replay.SIDE, ["2024-01-01T00:00:00Z"]))
        with open(made, "wb") as file:
            subprocess.run([EDR, "make", "7"], stdout=file, check=True)
        small(folder, feed, plain)
        large(made)
        in_turn(feed)
        memory(feed)


if __name__ == "__main__":
    main()
