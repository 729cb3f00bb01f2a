#!/usr/bin/env python3
"""Sends the heads of `head_cases.py` to `edrd`, directly and through nginx by `examples/nginx.conf`, and writes the tables of HEADS.md: what each
gets. Behind each head a further request stands on the same connection, and another client asks behind it, over the same connection
from nginx to the daemon. Between nginx and the daemon stands a relay that counts requests and replies.

It ends with status 1 where the daemon writes other bytes than `edr replay`, where a request is answered twice, where a body is answered as a request, where a reply is that of another
request, or where the daemon writes other than one reply for each request that nginx hands on. Then it sends large bodies. It needs
nginx, `curl` and the built programs. Run it from anywhere: bench/daemon/heads.py"""
import http.client
import os
import re
import socket
import subprocess
import sys
import tempfile
import threading

HERE = os.path.dirname(os.path.abspath(__file__))
TOP = os.path.join(HERE, "..", "..")
sys.path.insert(0, os.path.join(TOP, "bench", "nginx"))
sys.path.insert(0, os.path.join(TOP, "bench"))
from front import Daemon, Front, daemon, needs  # noqa: E402
from head_cases import FOLLOWER, GROUPS  # noqa: E402
from pages import Page  # noqa: E402

GRID = os.path.join(TOP, "examples", "grid.json")
QUIET = 0.3
TRIES = 30
# what the bodies of replies say of the request that they answer
MARKS = [(b'"conformsTo"', ""), (b'"UnknownCollection"', "INNER "), (b'{"collections":[', "next ")]


class Relay:
    """Hands bytes on between nginx and the daemon, and keeps them."""

    def __init__(self, port):
        self.door, self.daemon = socket.create_server(("127.0.0.1", 0)), port
        self.port = self.door.getsockname()[1]
        self.asked, self.answered, self.connections = bytearray(), bytearray(), 0
        threading.Thread(target=self.accept, daemon=True).start()

    def accept(self):
        while True:
            here, _ = self.door.accept()
            there = socket.create_connection(("127.0.0.1", self.daemon))
            self.connections += 1
            for ends in ((here, there, self.asked), (there, here, self.answered)):
                threading.Thread(target=self.pump, args=ends, daemon=True).start()

    @staticmethod
    def pump(source, sink, kept):
        try:
            while piece := source.recv(1 << 16):
                kept += piece
                sink.sendall(piece)
            sink.shutdown(socket.SHUT_WR)
        except OSError:
            pass

    def counts(self):
        """How many requests were handed on and how many replies came back, since the last time. A request is a target and Host."""
        asked, answered = bytes(self.asked), len(re.findall(rb"HTTP/1\.1 \d{3} ", bytes(self.answered)))
        found = re.findall(rb"(?:GET|HEAD) [^ \r\n]+ HTTP/1\.1\r\nHost: [^\r\n]*\r\n\r\n", asked)
        if b"".join(found) != asked:
            sys.exit(f"nginx handed on other bytes: {asked!r}")
        self.asked.clear()
        self.answered.clear()
        return len(found), answered


def exchange(port, data):
    """All bytes that come back, and how the connection is left: `closes`, `resets`, or `goes on`."""
    with socket.create_connection(("127.0.0.1", port), timeout=QUIET) as it:
        held = b""
        try:
            it.sendall(data)
            while piece := it.recv(1 << 16):
                held += piece
            return held, "closes"
        except TimeoutError:
            return held, "goes on"
        except (ConnectionResetError, BrokenPipeError):
            return held, "resets"


def without_body(held, head, is_head):
    """What stands behind the body of a reply, and the body."""
    if is_head or head.startswith((b"HTTP/1.1 1", b"HTTP/1.1 204")):
        return held, b""
    length = re.search(rb"\r\nContent-Length: (\d+)", head)
    if length:
        return held[int(length[1]):], held[:int(length[1])]
    if b"\r\nTransfer-Encoding: chunked" in head:
        body, _, rest = held.partition(b"0\r\n\r\n")
        return rest, body
    return b"", held


def label(head, body):
    status = head.split(b" ")[1].decode()
    code = re.search(rb'"code":"(\w+)"', body)
    of = next((told for mark, told in MARKS if mark in body), "")
    return f"{of}{status}{' ' + code[1].decode() if code and not of else ''}"


def replies(held, is_head):
    """The labels of the replies in their order."""
    found = []
    while held:
        if not held.startswith(b"HTTP/1.1 "):
            return [*found, "a body without a head"]
        head, _, held = held.partition(b"\r\n\r\n")
        held, body = without_body(held, head, is_head and not found)
        found.append(label(head, body))
    return found


def told(found, end):
    """A cell of the table. A connection that closes isn't said to where the next request was answered."""
    if not found:
        return "no reply, " + ("waits" if end == "goes on" else end)
    is_waiting = end == "goes on" and not found[-1].startswith("next")
    return "; ".join(found) + (", waits" if is_waiting else "" if end == "goes on" else f", {end}")


def faults_of(case, found):
    """What a list of replies has that it mustn't have."""
    final = [it for it in found if it != "100"]
    if case.requests == 1 and any(it.startswith("INNER") for it in final):
        yield "a body is answered as a request"
    if len(final) > case.requests + 1:
        yield "more replies than requests"
    if sum(it.startswith("next") for it in final) > 1:
        yield "the next request is answered twice"


def replayed(data):
    """What `edr replay` writes to the same bytes."""
    return subprocess.run([daemon.EDR, "replay", GRID], input=data, capture_output=True, check=True).stdout


def trial(page, case, direct, front, relay):
    """The row of a case, and its faults."""
    data, found, cells = case.data + FOLLOWER, [], []
    for port in (direct, front):
        held, end = exchange(port, data)
        if port == direct and held != replayed(data):
            found.append("other bytes than those of edr replay")
        labels = replies(held, case.is_head)
        found += faults_of(case, labels)
        cells.append(told(labels, end))
    handed, answered = relay.counts()
    if handed != answered:
        found.append(f"the daemon answered {handed} requests by {answered} replies")
    held, _ = exchange(front, FOLLOWER)
    if replies(held, False) != ["next 200"] or relay.counts() != (1, 1):
        found.append(f"another client gets {held[:100]!r}")
    page.add(f"| {case.name} | {cells[0]} | {cells[1]} | {handed} |")
    return [f"{case.name}: {it}" for it in found]


def table(page, direct, front, relay):
    """The tables of all groups, and their faults."""
    faults = []
    for name, cases in GROUPS.items():
        page.add(f"\n### {name}\n\n| head | directly | behind nginx | handed to the daemon |\n|---|---|---|---|")
        for case in cases:
            faults += trial(page, case, direct, front, relay)
    count = sum(map(len, GROUPS.values()))
    page.add(f"\n{count} heads over {relay.connections} connections from nginx to the daemon; {len(faults)} faults")
    return faults


def by_socket(port, size):
    """A client that sends as much as it can, and then reads."""
    with socket.create_connection(("127.0.0.1", port), timeout=20) as it:
        left = ""
        try:
            it.sendall(f"POST /collections HTTP/1.1\r\nHost: a\r\nContent-Length: {size}\r\n\r\n".encode() + b"x" * size)
        except OSError:
            left = ", not all sent"
        return it.recv(1000).split(b" ")[1].decode() + left


def by_library(port, size):
    """The library of python3."""
    it = http.client.HTTPConnection("127.0.0.1", port, timeout=20)
    it.request("POST", "/collections", b"x" * size)
    return str(it.getresponse().status)


def by_curl(port, size):
    words = ["curl", "-s", "-o", "/dev/null", "-w", "%{http_code}", "--data-binary", "@-", f"http://127.0.0.1:{port}/collections"]
    ran = subprocess.run(words, input=b"x" * size, capture_output=True)
    return ran.stdout.decode() + (f" and status {ran.returncode}" if ran.returncode else "")


def outcome(send, port, size):
    try:
        return send(port, size)
    except OSError as error:
        return type(error).__name__


def bodies(page, direct, front):
    """What clients see that send large bodies."""
    page.add(f"\n### Large bodies\n\n| POST, {TRIES} times | bytes | directly | behind nginx |\n|---|---|---|---|")
    for name, send in (("a socket that sends, and then reads", by_socket), ("http.client of python3", by_library), ("curl", by_curl)):
        for size in (1_000, 100_000, 1_000_000):
            cells = []
            for port in (direct, front):
                got = [outcome(send, port, size) for _ in range(TRIES)]
                cells.append(", ".join(f"{got.count(it)} of {it}" for it in sorted(set(got))))
            page.add(f"| {name} | {size:,} | {cells[0]} | {cells[1]} |")


def main():
    needs()
    page = Page(os.path.join(HERE, "HEADS.md"))
    with tempfile.TemporaryDirectory() as folder:
        os.chmod(folder, 0o755)
        served = Daemon(GRID).wait()
        relay = Relay(served.port)
        front = Front(folder, [relay.port], [("worker_processes 2", "worker_processes 1")])
        faults = table(page, served.port, front.port, relay)
        bodies(page, served.port, front.port)
        front.stop()
        served.stop()
    page.write()
    for it in faults:
        print(it, file=sys.stderr)
    sys.exit(1 if faults else 0)


if __name__ == "__main__":
    main()
