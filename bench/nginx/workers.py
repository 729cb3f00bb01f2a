#!/usr/bin/env python3
"""Measures how many workers a service needs: so many clients ask one daemon at once, ten times a second each, over a connection
that they keep or over one for each request, directly and behind nginx by `examples/nginx.conf`, with `keepalive` a quarter of the
workers. It writes WORKERS.md: the slowest reply of each, and how many clients got none. It needs nginx and the built programs.
Run it from anywhere: bench/nginx/workers.py [seconds of each load]"""
import os
import random
import sys
import tempfile
import threading
import time

import feeds
from front import HERE, Client, Cut, Daemon, Front, needs

sys.path.insert(0, os.path.join(HERE, ".."))
from pages import Page  # noqa: E402

WORKERS = (2, 8, 32, 64)
CLIENTS = (8, 32, 64, 128)
PAUSE = 0.1
CLOSE = "Connection: close\r\n"


class Asker(threading.Thread):
    """A client that asks until a time, and keeps how long its slowest reply took; one that has none then is a reply that didn't come."""

    def __init__(self, number, port, fields, until):
        super().__init__()
        self.client, self.fields, self.until = Client(port, f"127.0.1.{1 + number}"), fields, until
        self.rounds, self.replies, self.slowest = random.Random(number), 0, 0.0

    def run(self):
        time.sleep(self.rounds.random() * PAUSE)
        while (left := self.until - time.perf_counter()) > 0:
            began = time.perf_counter()
            try:
                self.client.patience = left
                if self.client.socket is not None:
                    self.client.socket.settimeout(left)
                self.replies += self.client.ask(feeds.NOW, self.fields).status == 200
            except (Cut, OSError):
                self.client.leave()
            self.slowest = max(self.slowest, time.perf_counter() - began)
            time.sleep(self.rounds.random() * 2 * PAUSE)
        self.client.leave()


def load(port, count, fields, seconds):
    """What a table says of a load: the seconds of its slowest reply, and how many clients got none."""
    until = time.perf_counter() + seconds
    askers = [Asker(number, port, fields, until) for number in range(count)]
    for it in askers:
        it.start()
    for it in askers:
        it.join()
    none, slowest = sum(it.replies == 0 for it in askers), max(it.slowest for it in askers)
    return f"{none} clients none" if none else f"{slowest:.3f}"


def keepalive(workers):
    return [("keepalive 16;", f"keepalive {workers // 4};")]


def row(folder, feed, workers, clients, seconds):
    cells = []
    for fields in (CLOSE, ""):
        daemon = Daemon(feed, workers).wait()
        cells.append(load(daemon.port, clients, fields, seconds))
        daemon.stop()
    for fields in (CLOSE, ""):
        if workers // 4 < 2:
            cells.append("")
            continue
        daemon = Daemon(feed, workers).wait()
        with tempfile.TemporaryDirectory(dir=folder) as own:
            os.chmod(own, 0o755)
            front = Front(own, [daemon.port], keepalive(workers))
            cells.append(load(front.port, clients, fields, seconds))
            front.stop()
        daemon.stop()
    return cells


def main():
    needs()
    seconds = int(sys.argv[1]) if len(sys.argv) > 1 else 10
    page = Page(os.path.join(HERE, "WORKERS.md"))
    with tempfile.TemporaryDirectory() as folder:
        os.chmod(folder, 0o755)
        feed = feeds.write(os.path.join(folder, "feed"), 1, has_field=False)
        page.add(f"| clients at once, {seconds} s | workers | each request its connection | connections kept | behind nginx, each its own | behind nginx, kept |")
        page.add("|---|---|---|---|---|---|")
        for clients in CLIENTS:
            for workers in WORKERS:
                page.add(f"| {clients} | {workers} | {' | '.join(row(folder, feed, workers, clients, seconds))} |")
    page.write()


if __name__ == "__main__":
    main()
