#!/usr/bin/env python3
"""A thousand clients of every kind at two daemons of eight workers, one alone and one behind nginx, while each publishes an edition a
second. Each reply is compared with what `edr replay` writes of the edition that it names: every byte of those of the daemon alone, and
status, type, edition and body behind nginx. No client may find an older edition than before. At the end each daemon has as many
descriptors and threads as at the beginning, its memory is what it was after the first part, and the logs have nothing.

It says how many replies of each kind there were and the slowest, and ends with status 1 where something is wrong. It needs nginx and
the built programs. Run it from anywhere: bench/soak/run.py [--minutes M] [--clients N] [--rate R]"""
import argparse
import os
import resource
import sys
import tempfile
import threading
import time

HERE = os.path.dirname(os.path.abspath(__file__))
sys.path.insert(0, os.path.join(HERE, "..", "nginx"))
import feeds  # noqa: E402
from front import Client, Daemon, Front, daemon, needs  # noqa: E402
from kinds import LET_GO, Asker, kinds  # noqa: E402
from peers import descriptors  # noqa: E402
from wanted import Wanted  # noqa: E402
from workers import keepalive  # noqa: E402

WORKERS = 8
# the part of the time after which memory is read first, and how many more bytes it may be at the end, which a worker takes for a large reply
FIRST_PART = 1 / 4
MOST_MORE = WORKERS * 1_000_000
# nginx has as many requests in hand as the daemon behind it holds, and says 503 to more; its log has all else that isn't answered well
EDITS = [
    *keepalive(WORKERS), ("limit_conn all 150;", f"limit_conn all {WORKERS + 128 - 2 * (WORKERS // 4)};"),
    ("    access_log access.log edr", '    map $status $is_told {\n        "~^(2|4|503)" 0;\n        default 1;\n    }\n    access_log access.log edr'),
    ("flush=1s;", "flush=1s if=$is_told;"),
]


class Watched:
    """A daemon that is loaded, alone or behind nginx, with what it says, and what it holds as time goes on."""

    def __init__(self, folder, feed, is_behind):
        self.is_behind, self.path, self.held = is_behind, os.path.join(folder, f"log {is_behind}"), []
        with open(self.path, "wb") as log:
            self.daemon = Daemon(feed, WORKERS, 1, log=log).wait()
        self.began, self.process = time.perf_counter(), self.daemon.process
        self.front = Front(folder, [self.daemon.port], EDITS) if is_behind else None
        self.port = self.front.port if is_behind else self.daemon.port
        self.name = "behind nginx" if is_behind else "alone"

    def read(self):
        self.held.append((descriptors(self), len(os.listdir(f"/proc/{self.process.pid}/task")), daemon.Server.resident(self)))

    def edition(self):
        client = Client(self.port)
        return client.ask(feeds.NOW, "Connection: close\r\n").edition

    def faults(self, newest):
        """What is wrong at its end."""
        first, part, last = self.held
        if first[:2] != last[:2]:
            yield "descriptors or threads aren't what they were"
        if last[2] > part[2] + MOST_MORE:
            yield "memory isn't what it was"
        if self.edition() < newest:
            yield f"the edition {self.edition()} is served, and not {newest}"
        logs = [open(self.path).read().splitlines()]
        logs += [self.front.log(name) for name in ("error.log", "access.log")] if self.is_behind else []
        for log in logs:
            yield from (f"log: {line}" for line in log if "limiting connections" not in line)

    def stop(self):
        if self.is_behind:
            self.front.stop()
        self.daemon.stop()


def quiet(watched):
    """Waits until each daemon has let go of all its peers."""
    until = time.perf_counter() + LET_GO
    while time.perf_counter() < until and any(descriptors(it) > it.held[0][0] for it in watched):
        time.sleep(0.5)


def rows(askers, all_kinds):
    print("| clients that | alone | replies | let go | wrong | slowest, seconds | behind nginx | replies | let go | wrong | slowest, seconds |")
    print("|---|---|---|---|---|---|---|---|---|---|---|")
    total = 0
    for kind in all_kinds:
        cells = []
        for is_behind in (False, True):
            those = [it for it in askers if it.kind is kind and it.is_behind == is_behind]
            counts = [sum(it.replies for it in those), sum(it.let_go for it in those), sum(len(it.wrong) for it in those)]
            cells += [f"{it:,}" for it in (len(those), *counts)] + [f"{max(it.slowest for it in those):.2f}"]
            total += counts[0]
        print(f"| {kind.name} | {' | '.join(cells)} |")
    return total


def load(watched, wanted, all_kinds, seconds):
    """All clients for so many seconds."""
    ends, askers = threading.Event(), []
    for it in watched:
        for kind in all_kinds:
            count, every = (kind.behind, kind.every_behind) if it.is_behind else (kind.alone, kind.every)
            askers += [Asker(len(askers) + number, kind, every, it.port, it.is_behind, wanted, ends) for number in range(count)]
    for it in askers:
        it.start()
    time.sleep(seconds * FIRST_PART)
    for it in watched:
        it.read()
    time.sleep(seconds * (1 - FIRST_PART))
    ends.set()
    for it in askers:
        it.join()
    return askers


def tell(watched, askers, all_kinds, seconds, newest):
    total = rows(askers, all_kinds)
    wrong = [f"{it.kind.name}, {'behind nginx' if it.is_behind else 'alone'}: {fault}" for it in askers for fault in it.wrong]
    print("\n| daemon | descriptors | threads | MB | MB after the first part | at its end: descriptors | threads | MB |\n|---|---|---|---|---|---|---|---|")
    for it in watched:
        first, part, last = it.held
        print(f"| {it.name} | {first[0]} | {first[1]} | {first[2] / 1e6:.1f} | {part[2] / 1e6:.1f} | {last[0]} | {last[1]} | {last[2] / 1e6:.1f} |")
        wrong += [f"{it.name}: {fault}" for fault in it.faults(newest)]
    print(f"\n{total:,} replies in {seconds:.0f} seconds, up to the edition {max(it.last for it in askers)}; {len(wrong)} things are wrong")
    for fault in wrong[:20]:
        print(fault)
    return len(wrong)


def soak(watched, wanted, all_kinds, seconds):
    """How many things are wrong, which are told."""
    for it in watched:
        it.read()
    began = time.perf_counter()
    askers = load(watched, wanted, all_kinds, seconds)
    took = time.perf_counter() - began
    quiet(watched)
    for it in watched:
        it.read()
    return tell(watched, askers, all_kinds, took, int(seconds * 0.9))


def main():
    needs()
    words = argparse.ArgumentParser()
    words.add_argument("--minutes", type=float, default=1)
    words.add_argument("--clients", type=int, default=1000, help="how many there are behind nginx, about")
    words.add_argument("--rate", type=int, default=4000, help="requests a second that have their own connection, to the daemon alone")
    words = words.parse_args()
    seconds, all_kinds = words.minutes * 60, kinds(words.clients, words.rate)
    _, most = resource.getrlimit(resource.RLIMIT_NOFILE)
    resource.setrlimit(resource.RLIMIT_NOFILE, (min(most, 20_000), most))
    threading.stack_size(512 * 1024)
    with tempfile.TemporaryDirectory() as folder:
        os.chmod(folder, 0o755)
        wanted = Wanted(folder, int(seconds) + LET_GO)
        watched = [Watched(folder, wanted.feed, is_behind) for is_behind in (False, True)]
        try:
            wrong = soak(watched, wanted, all_kinds, seconds)
        finally:
            for it in watched:
                it.stop()
    sys.exit(1 if wrong else 0)


if __name__ == "__main__":
    main()
