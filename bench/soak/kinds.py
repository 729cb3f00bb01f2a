"""The kinds of clients: each asks in rounds until it is told to end, and compares each reply, or as much of it as it took."""
import os
import random
import socket
import sys
import threading
import time
from typing import Callable, NamedTuple

HERE = os.path.dirname(os.path.abspath(__file__))
sys.path.insert(0, os.path.join(HERE, "..", "daemon"))
import feeds  # noqa: E402
from front import Client, Cut, Reply, daemon  # noqa: E402
from head_cases import TRIAL, filled  # noqa: E402
from peers import reset  # noqa: E402
from wanted import END, SESSION, SMALL, edition_of, request, unchunked  # noqa: E402

CLOSE = "Connection: close"
# what a daemon gives a head and a reply, and some seconds more
LET_GO = 35


class Asker(threading.Thread):
    """A client of a kind at a daemon, alone or behind nginx, and what it got: replies, those that were let go as they had to be, what
    was wrong, and the seconds of the slowest."""

    def __init__(self, number, kind, every, port, is_behind, wanted, ends):
        super().__init__(daemon=True)
        self.client = Client(port, f"127.0.{1 + number // 250}.{1 + number % 250}")
        self.kind, self.every, self.is_behind, self.wanted, self.ends = kind, every, is_behind, wanted, ends
        self.rounds, self.turn, self.on_connection = random.Random(number), 0, 0
        self.replies = self.let_go = self.last = 0
        self.wrong, self.slowest = [], 0.0

    def run(self):
        """Rounds at chance, on the average one in each `every` seconds, or one after the other where they take longer."""
        due = time.perf_counter() + self.rounds.random() * self.every
        while not self.ends.wait(max(0.0, due - time.perf_counter())):
            self.turn += 1
            try:
                self.kind.round(self)
            except (Cut, OSError, ValueError) as fault:
                self.wrong.append(f"{type(fault).__name__}: {fault}")
                self.leave()
            due = max(due + self.rounds.random() * 2 * self.every, time.perf_counter() - 1)
        self.leave()

    def leave(self):
        self.client.leave()
        self.on_connection = 0

    def pick(self):
        """A method and a target; one of ten is a HEAD, and one of two hundred asks for a megabyte."""
        draw = self.rounds.random()
        return ("GET", feeds.LARGE) if draw < 0.005 else ("HEAD" if draw > 0.9 else "GET", self.rounds.choice(SMALL))

    def send(self, data):
        self.client.connect()
        self.client.begun = False
        self.client.socket.sendall(data)
        self.began = time.perf_counter()

    def ask(self, method, target, fields=""):
        self.send(request(target, method, fields))
        self.take(method, target, fields == CLOSE)

    def take(self, method, target, closes=False):
        """The next reply, compared. The connection is left where the reply says so. A 503 is nginx's own, where it has enough in hand."""
        self.on_connection += 1
        right, edition, is_last, status = (self.behind if self.is_behind else self.alone)(method, target, closes or self.on_connection == SESSION)
        if self.is_behind and status == 503:
            self.let_go += 1
            return self.leave() if is_last else None
        self.slowest = max(self.slowest, time.perf_counter() - self.began)
        self.replies += 1
        if not right:
            self.wrong.append(f"another reply to {method} {target}: {status} of the edition {edition}")
        if edition is not None and edition < self.last:
            self.wrong.append(f"the edition {edition} behind {self.last}")
        self.last = max(self.last, edition or 0)
        if is_last:
            self.leave()

    def is_known(self, method, target, edition):
        return self.wanted.knows(edition) and (edition is not None) == self.wanted.names(method, target)

    def alone(self, method, target, closes):
        """Whether all bytes of a reply of the daemon are right, its edition, whether the connection ends with it, and its status."""
        ends = END if method == "HEAD" else daemon.END
        raw = self.client.line(ends) + ends
        edition = edition_of(raw[:300])
        return self.is_known(method, target, edition) and raw == self.wanted.reply(method, target, edition, closes), edition, closes, raw[9:12].decode()

    def behind(self, method, target, _):
        """The same of the status, the type, the edition and the body behind nginx."""
        head = self.client.line(END)
        reply = Reply(head, self.client.body(method, head))
        found = reply.status, reply.fields.get("content-type"), reply.edition, reply.body
        right = self.is_known(method, target, reply.edition) and found == self.wanted.document(method, target, reply.edition)
        return right, reply.edition, reply.closes, reply.status

    def compare_beginning(self, raw, target):
        """The bytes that came of replies to GET of one target, cut anywhere."""
        while raw:
            head, is_whole, rest = raw.partition(END)
            if not is_whole:
                return
            edition = edition_of(head + END)
            chunks, ends, rest = rest.partition(daemon.END)
            if not self.is_known("GET", target, edition):
                right = False
            elif self.is_behind:
                right = self.wanted.document("GET", target, edition)[3].startswith(unchunked(chunks))
            else:
                right = self.wanted.reply("GET", target, edition, False).startswith(head + END + chunks + ends)
            if not right:
                self.wrong.append(f"another beginning of a reply to {target}, of the edition {edition}")
            self.replies += 1
            raw = rest

    def rest(self):
        """All bytes that come until the connection ends, and those that were held."""
        held = self.client.held
        try:
            while piece := self.client.socket.recv(1 << 18):
                held += piece
        except ConnectionResetError:
            pass
        return held


def keep_alive(it):
    it.ask(*it.pick())


def pipelined(it):
    """Ten requests at once, twenty times on a connection."""
    asked = [it.pick() for _ in range(10)]
    it.send(b"".join(request(target, method) for method, target in asked))
    for method, target in asked:
        it.take(method, target)
    if it.on_connection >= 200:
        it.leave()


def byte_a_second(it):
    """A head of 22 bytes, and every other time one that doesn't end, which is let go. nginx lets go of both, after ten seconds."""
    ends = it.turn % 2 == 1
    head = b"GET / HTTP/1.1\nHost:\n" + (b"\n" if ends else b"X:" + b"a" * LET_GO)
    try:
        for byte in head:
            it.send(bytes([byte]))
            if it.ends.wait(1):
                return it.leave()
        if ends and not it.is_behind:
            it.take("GET", "/")
        else:
            it.wrong.append("a head that is slow isn't let go")
    except ConnectionError:
        if ends and not it.is_behind:
            raise
        it.let_go += 1
    it.leave()


def half_closed(it):
    """Sends no more behind its request, and gets the reply and the end; nginx may take that for a client that has gone."""
    method, target = it.pick()
    it.send(request(target, method))
    it.client.socket.shutdown(socket.SHUT_WR)
    try:
        it.take(method, target)
        if it.client.socket is not None and not it.is_behind and it.rest():
            it.wrong.append("bytes behind the last reply")
    except Cut as cut:
        if not it.is_behind or cut.within:
            raise
        it.let_go += 1
    it.leave()


def resets(it):
    """Takes some bytes of a megabyte, and resets the connection."""
    it.send(request(feeds.LARGE))
    it.compare_beginning(it.client.take(it.rounds.randint(300, 600_000)), feeds.LARGE)
    reset(it.client.socket)
    it.leave()


def reads_nothing(it):
    """Asks for ten megabytes and takes none until it must have been let go; then what there is."""
    it.client.connect()
    it.client.socket.setsockopt(socket.SOL_SOCKET, socket.SO_RCVBUF, 4096)
    it.send(request(feeds.LARGE) * 10)
    if not it.ends.wait(LET_GO):
        held = it.rest()
        it.compare_beginning(held, feeds.LARGE)
        if len(held) > 9_000_000:
            it.wrong.append("one that reads nothing isn't let go")
        it.let_go += 1
    it.leave()


def large_heads(it):
    """A head of 16,384 bytes; every other time of one more, which is refused, and where the daemon may reset. nginx takes both."""
    is_larger = it.turn % 2 == 0 and not it.is_behind
    it.send(filled(16_384 + is_larger))
    if not is_larger:
        it.take("GET", TRIAL)
    else:
        found = it.rest()
        it.replies, it.let_go = it.replies + bool(found), it.let_go + (not found)
        if not it.wanted.refused.startswith(found):
            it.wrong.append(f"a head that is too large gets {found[:100]!r}")
    it.leave()


def short(it):
    """A connection for one request."""
    it.ask(*it.pick(), CLOSE if it.turn % 2 else "")
    it.leave()


class Kind(NamedTuple):
    """How many clients of a kind there are at the daemon alone and behind nginx, and in how many seconds each begins a round on the
    average. Of the eight workers of the daemon alone at most five are held at a time."""

    name: str
    round: Callable
    alone: int
    every: float
    behind: int
    every_behind: float


def kinds(clients, rate):
    """All kinds, with so many clients behind nginx, and so many requests a second that have their own connection to the daemon alone."""
    def part(count):
        return max(1, count * clients // 1000)

    return (
        Kind("keep their connection", keep_alive, 2, 0.01, part(500), 2),
        Kind("ask ten times at once", pipelined, 2, 0.5, part(60), 8),
        Kind("send a byte a second", byte_a_second, 1, 0, part(80), 1),
        Kind("close their half", half_closed, 4, 0.2, part(100), 4),
        Kind("reset within a reply", resets, 4, 0.5, part(60), 20),
        Kind("read nothing", reads_nothing, 1, 0, part(30), 1),
        Kind("send heads of 16 KB", large_heads, 4, 0.2, part(100), 4),
        Kind("connect for each request", short, 4, 4 / rate, part(70), 0.1),
    )
