#!/usr/bin/env python3
"""Tries nginx by `examples/nginx.conf` before two daemons, over real sockets of this machine.

A hundred clients, each with an address of its own, ask for a minute, while a daemon is killed, started again, replaced by one at
another port, and started again with a feed that goes on. No reply may be a 502, none may be of an older edition than the one
before, and none may be cut but by the kill. Then nginx is tried with what browsers, monitors and others send, with daemons whose
editions differ, and, where `wrk` is there, with as many requests as it takes. It needs nginx, `curl` and the built programs. Run
it from anywhere: bench/nginx/run.py [clients] [seconds]"""
import os
import random
import re
import shutil
import subprocess
import sys
import tempfile
import threading
import time

import feeds
from front import Client, Cut, Daemon, Front, needs

PAUSE = 0.1
LARGE_PAUSE = 1.0
GZIP = "Accept-Encoding: gzip\r\n"


class Asker(threading.Thread):
    """A client that asks until it is told to end, and keeps what it got. Of ten, six keep their connection open, two close it with
    each request, and two ask for a megabyte, one of them with gzip."""

    def __init__(self, number, port, ends):
        super().__init__()
        self.client = Client(port, f"127.0.{1 + number // 250}.{1 + number % 250}")
        kind = number % 10
        self.target, self.pause = (feeds.LARGE, LARGE_PAUSE) if kind >= 8 else (feeds.NOW, PAUSE)
        self.fields = {6: "Connection: close\r\n", 7: "Connection: close\r\n", 8: GZIP}.get(kind, "")
        self.rounds, self.ends = random.Random(number), ends
        self.last, self.got = 0, []

    def keep(self, began, what):
        now = time.perf_counter()
        self.got.append((now, now - began, what))

    def take(self, reply):
        """What a reply is: its status, or that it is of an older edition or has other values than its edition."""
        if reply.status != 200:
            return str(reply.status)
        went_back, self.last = reply.edition < self.last, max(self.last, reply.edition)
        if self.target == feeds.NOW and f'"values":[{reply.edition}]}}'.encode() not in reply.body:
            return "wrong"
        return "older" if went_back else "200"

    def ask(self):
        """One reply; where an open connection ended before it, as nginx ends it, it is asked for again on another."""
        began = time.perf_counter()
        for turn in range(2):
            kept_open = self.client.socket is not None
            try:
                return self.keep(began, self.take(self.client.ask(self.target, self.fields)))
            except Cut as cut:
                self.client.leave()
                again = not cut.within and kept_open and turn == 0
                self.keep(began, "again" if again else "cut")
                if not again:
                    return None
            except OSError as error:
                self.client.leave()
                return self.keep(began, type(error).__name__)

    def run(self):
        time.sleep(self.rounds.random() * self.pause)
        while not self.ends.is_set():
            self.ask()
            time.sleep(self.rounds.random() * 2 * self.pause)
        self.client.leave()


class Load:
    """Clients that ask while this is open, and what they got in each part of that time."""

    def __init__(self, count, port):
        self.ends, self.parts = threading.Event(), []
        self.askers = [Asker(number, port, self.ends) for number in range(count)]

    def __enter__(self):
        for it in self.askers:
            it.start()
        return self

    def part(self, name):
        self.parts.append((name, time.perf_counter()))

    def __exit__(self, *fault):
        self.ends.set()
        for it in self.askers:
            it.join()
        self.part("")

    def got(self, began, ended):
        return [(took, what) for it in self.askers for at, took, what in it.got if began <= at < ended]

    def table(self):
        print("| part of the minute | seconds | replies | other than 200 | of an older edition | cut | asked again | slowest, seconds |")
        print("|---|---|---|---|---|---|---|---|")
        for (name, began), (_, ended) in zip(self.parts, self.parts[1:]):
            got = self.got(began, ended)
            counts = {what: sum(it == what for _, it in got) for what in {it for _, it in got}}
            good, older, cut, again = (counts.pop(what, 0) for what in ("200", "older", "cut", "again"))
            others = ", ".join(f"{count} of {what}" for what, count in sorted(counts.items())) or "0"
            slowest = max((took for took, _ in got), default=0)
            print(f"| {name} | {ended - began:.0f} | {good + older} | {others} | {older} | {cut} | {again} | {slowest:.2f} |")

    def faults(self, *passed):
        """How many replies weren't as they have to be."""
        return sum(what not in ("200", "again", *passed) for _, what in self.got(0, float("inf")))


def minute(folder, count, seconds):
    """The minute with all that happens to the daemons in it."""
    feed = feeds.write(os.path.join(folder, "feed"), 5)
    first, second = Daemon(feed).wait(), Daemon(feed).wait()
    front, step = Front(folder, [first.port, second.port]), seconds / 6
    with Load(count, front.port) as load:
        load.part("both daemons")
        time.sleep(step)
        load.part("the first is killed, and nginx isn't told")
        first.kill()
        time.sleep(step)
        load.part("the first is taken out, started and let in")
        front.behind("out", first.port)
        first = Daemon(feed, port=first.port)
        front.behind("in", first.port)
        time.sleep(step)
        load.part("the feed has 3 editions more; a third is let in, the second taken out and stopped")
        feeds.write(feed, 8)
        third = Daemon(feed)
        front.behind("in", third.port)
        front.behind("out", second.port)
        second.stop()
        time.sleep(step)
        load.part("the first is taken out, stopped, started and let in")
        front.behind("out", first.port)
        first.stop()
        first = Daemon(feed, port=first.port)
        front.behind("in", first.port)
        time.sleep(step)
        load.part("both daemons, with the longer feed")
        time.sleep(step)
    load.table()
    front.stop()
    for it in (first, third):
        it.stop()
    rows = front.log("access.log")
    tried = sum(", " in re.search(r" daemon (.*) edition ", row)[1] for row in rows)
    print(f"\nnginx answered {len(rows)} requests; {tried} of them it asked of a second daemon, since the first was down")
    return load.faults("cut")


def apart(folder, name, edits):
    """Daemons that publish an edition each second, one of them half a second later: how many replies are older than the one before."""
    own = os.path.join(folder, name)
    os.makedirs(own)
    feed = feeds.write(os.path.join(own, "feed"), 9)
    first = Daemon(feed, every=1).wait()
    time.sleep(0.5)
    second = Daemon(feed, every=1).wait()
    front = Front(own, [first.port, second.port], edits)
    with Load(20, front.port) as load:
        load.part("all")
        time.sleep(8)
    for it in (front, first, second):
        it.stop()
    got = [what for _, what in load.got(0, float("inf"))]
    print(f"editions a second apart, by {name}: of {len(got)} replies {got.count('older')} are older than the one before")
    return load.faults() if name == "hash" else 0


def statuses(front, seen):
    """How often nginx answered each status, by the rows of its log behind those that were seen."""
    time.sleep(1.5)
    rows = front.log("access.log")[seen:]
    found = [re.search(r'" (\d{3}) ', row)[1] for row in rows]
    return ", ".join(f"{found.count(it):,} of {it}" for it in sorted(set(found)))


def flood(front, connections, seconds=10):
    """As many requests as `wrk` makes over so many connections of one client."""
    url, seen = f"http://127.0.0.1:{front.port}{feeds.NOW}", len(front.log("access.log"))
    told = subprocess.run(["wrk", "--latency", "-t", "1", "-c", str(connections), "-d", f"{seconds}s", "--timeout", "20s", url], capture_output=True, text=True).stdout
    others = re.search(r"Non-2xx or 3xx responses: (\d+)", told)
    errors = re.search(r"Socket errors: (.*)", told)
    slowest = re.search(r"Latency\s+\S+\s+\S+\s+(\S+)", told)[1]
    print(f"| {connections} | {statuses(front, seen)} | {errors[1] if errors else 'none'} | {slowest} |", flush=True)
    return int(others[1]) if others else 0


def floods(folder):
    """One client with more and more connections, all of which come to one daemon."""
    own = os.path.join(folder, "flood")
    os.makedirs(own)
    feed = feeds.write(os.path.join(own, "feed"), 1)
    daemons = [Daemon(feed).wait(), Daemon(feed).wait()]
    front = Front(own, [it.port for it in daemons])
    print("\n| connections of wrk | replies, by nginx's log | faults of connections | slowest |\n|---|---|---|---|")
    faults = sum([flood(front, connections) for connections in (32, 64, 100)])
    flood(front, 300)
    for it in (front, *daemons):
        it.stop()
    return faults


def main():
    needs()
    count, seconds = int(sys.argv[1]) if len(sys.argv) > 1 else 100, int(sys.argv[2]) if len(sys.argv) > 2 else 60
    with tempfile.TemporaryDirectory() as folder:
        os.chmod(folder, 0o755)
        faults = minute(folder, count, seconds)
        print()
        faults += apart(folder, "hash", [])
        faults += apart(folder, "least_conn", [("hash $binary_remote_addr consistent;", "least_conn;")])
        if shutil.which("wrk"):
            faults += floods(folder)
    print(f"\n{faults} replies were not as they have to be")
    sys.exit(1 if faults else 0)


if __name__ == "__main__":
    main()
