#!/usr/bin/env python3
"""Tries clients that exist against `edrd`, directly and behind nginx by `examples/nginx.conf`: each asks 200 times for one position, as
it is by itself, and directly also with a hint, which is at most as many connections as workers, or one for each request. A reply counts
where its body is the one wanted; siege, ab and wrk look at the status alone. A case ends after 20 seconds, or others by `--seconds`.

It writes CLIENTS.md, with what isn't installed; where only some are named it prints their rows. It needs nginx and the built
programs. Run it from anywhere:
bench/daemon/clients.py [--seconds S] [NAME ..]"""
import argparse
import collections
import os
import re
import shutil
import subprocess
import sys
import tempfile
import time

HERE = os.path.dirname(os.path.abspath(__file__))
sys.path.insert(0, os.path.join(HERE, "..", "nginx"))
sys.path.insert(0, os.path.join(HERE, ".."))
import feeds  # noqa: E402
from front import Client, Daemon, Front, needs  # noqa: E402
from pages import Page  # noqa: E402

PROGRAMS = os.path.join(HERE, "programs")
WORKERS = 8
COUNT, MANY = 200, 1000


class Case:
    """One run: where it asks, with what wanted, in a folder of its own, and of how many connections its hint is, or 0 without."""

    def __init__(self, folder, port, body, most, seconds):
        self.folder, self.body, self.most, self.seconds = folder, body, most, seconds
        self.url = f"http://127.0.0.1:{port}{feeds.NOW}"
        self.file = os.path.join(folder, "wanted")
        with open(self.file, "wb") as file:
            file.write(body)

    def run(self, *words, begins=b""):
        """What a program writes, and its seconds since it wrote that it begins, until it ended or was ended."""
        path = os.path.join(self.folder, "out")
        with open(path, "wb") as out:
            process = subprocess.Popen(words, stdin=subprocess.DEVNULL, stdout=out, stderr=subprocess.STDOUT, cwd=self.folder)
            while begins and os.path.getsize(path) < len(begins) and process.poll() is None:
                time.sleep(0.01)
            began = time.perf_counter()
            try:
                process.wait(self.seconds)
            except subprocess.TimeoutExpired:
                process.kill()
                process.wait()
        with open(path, "rb") as out:
            return out.read().removeprefix(begins), time.perf_counter() - began


def cell(good, count, seconds, others=""):
    """A cell of the table; where not all were good, with what the others were."""
    short = f"{good:,} of {count:,}, {seconds:.1f} s"
    return short if good == count or not others else f"{short}; {others}"


def by_lines(case, *words):
    """Of a program that writes `good` or a fault for each request."""
    out, seconds = case.run(*words, case.url, case.file, str(COUNT), str(case.most), begins=b"begins\n")
    told = collections.Counter(out.decode(errors="replace").split("\n")[:-1])
    good = told.pop("good", 0)
    faults = [f"{count} of {name}" for name, count in told.most_common(3)]
    none = COUNT - good - sum(told.values())
    return cell(good, COUNT, seconds, ", ".join(faults + ([f"{none} wait"] if none > 0 else [])))


def curl(case):
    names = [os.path.join(case.folder, f"reply{number}") for number in range(COUNT)]
    with open(os.path.join(case.folder, "urls"), "w") as file:
        file.writelines(f'url = "{case.url}"\noutput = "{name}"\n' for name in names)
    _, seconds = case.run("curl", "-s", "-Z", "--parallel-max", str(case.most or COUNT), "-K", "urls")
    replies = [open(name, "rb").read() for name in names if os.path.exists(name)]
    return cell(replies.count(case.body), COUNT, seconds)


def wget(case):
    with open(os.path.join(case.folder, "urls"), "w") as file:
        file.write(f"{case.url}\n" * COUNT)
    out, seconds = case.run("wget", "-q", "-O", "-", "-i", "urls")
    return cell(out.count(case.body), COUNT, seconds)


def siege(case):
    with open(os.path.join(case.folder, "siegerc"), "w") as file:
        file.write("verbose = false\nlimit = 255\nlogging = false\nconnection = close\nprotocol = HTTP/1.1\n")
    out, seconds = case.run("siege", "-R", "siegerc", "-b", "-c", str(COUNT), "-r", "1", case.url)
    good = re.search(rb"(?:ransactions\W+)(\d+)", out)
    return cell(int(good[1]) if good else 0, COUNT, seconds)


def ab(case):
    out, seconds = case.run("ab", "-q", "-n", str(COUNT), "-c", "100", case.url)
    done, others = re.search(rb"Complete requests:\s+(\d+)", out), re.search(rb"Non-2xx responses:\s+(\d+)", out)
    good = int(done[1]) - (int(others[1]) if others else 0) if done else 0
    return cell(good, COUNT, seconds, f"{int(others[1])} of another status" if others else "")


def wrk(case):
    close = ["-H", "Connection: close"] if case.most else []
    out, _ = case.run("wrk", "-t", "1", "-c", str(MANY), "-d", "3s", "--timeout", "10s", *close, case.url)
    count = int(re.search(rb"(\d+) requests in", out)[1])
    others, errors = re.search(rb"Non-2xx or 3xx responses: (\d+)", out), re.search(rb"Socket errors: (.*)", out)
    good = count - (int(others[1]) if others else 0)
    return f"{count:,} replies, {count - good:,} not of status 200; faults of connections: {errors[1].decode() if errors else 'none'}"


def python_with(module):
    """What asks by a module of python3, or None where no python3 has it."""
    for it in (sys.executable, "/usr/bin/python3"):
        if os.path.exists(it) and subprocess.run([it, "-c", f"import {module}"], capture_output=True).returncode == 0:
            return by_program(it, f"with_{module}.py")
    return None


def by_program(name, source):
    """What asks by a program of ours that another runs."""
    return shutil.which(name) and (lambda case: by_lines(case, name, os.path.join(PROGRAMS, source)))


def go(folder):
    """What asks by a program in Go, which is built first."""
    if not shutil.which("go"):
        return None
    built = os.path.join(folder, "with_go")
    words = ["go", "build", "-o", built, os.path.join(PROGRAMS, "with_go.go")]
    subprocess.run(words, check=True, env={**os.environ, "GO111MODULE": "off"})
    return lambda case: by_lines(case, built)


# how each client is named, how it asks, its hint, and what finds how it is run, or None where it isn't installed
CLIENTS = (
    ("curl", "200 at once", "`--parallel-max 8`", lambda _: shutil.which("curl") and curl),
    ("wget", "200 in turn", None, lambda _: shutil.which("wget") and wget),
    ("python3 requests", "200 at once", "a session, `pool_maxsize=8, pool_block=True`", lambda _: python_with("requests")),
    ("python3 httpx", "200 at once", "`max_connections=8`, `timeout=60`", lambda _: python_with("httpx")),
    ("python3 aiohttp", "200 at once", "`limit=8`", lambda _: python_with("aiohttp")),
    ("node", "200 at once", "`http.Agent` with `maxSockets: 8`", lambda _: by_program("node", "with_node.js")),
    ("Go net/http", "200 at once", "`MaxConnsPerHost: 8`", go),
    ("Perl LWP", "200 in turn", "`keep_alive => 1`", lambda _: shutil.which("lwp-request") and by_program("perl", "with_lwp.pl")),
    ("siege", "200 at once", None, lambda _: shutil.which("siege") and siege),
    ("ab", "100 at once, HTTP/1.0", None, lambda _: shutil.which("ab") and ab),
    ("wrk", "1,000 connections for 3 seconds", "`-H 'Connection: close'`", lambda _: shutil.which("wrk") and wrk),
)


def tried(program, feed, body, front, has_hint, seconds):
    """The cells of a client: directly, with its hint, and behind nginx. Each has a folder and, directly, a daemon of its own."""
    for is_direct, most in ((True, 0), (True, WORKERS), (False, 0)):
        if most and not has_hint:
            yield ""
            continue
        direct = Daemon(feed, WORKERS).wait() if is_direct else None
        with tempfile.TemporaryDirectory() as folder:
            yield program(Case(folder, direct.port if is_direct else front.port, body, most, seconds))
        if is_direct:
            direct.stop()


def table(page, folder, feed, front, names, seconds):
    """Adds a row for each client that is installed, and gives the names of the others."""
    body, missing = Client(front.port).ask(feeds.NOW, "Connection: close\r\n").body, []
    page.add(f"| client | asks | directly, {WORKERS} workers | the hint | directly with the hint | behind nginx |")
    page.add("|---|---|---|---|---|---|")
    for name, asks, hint, find in CLIENTS:
        if names and name not in names:
            continue
        program = find(folder)
        if not program:
            missing.append(name)
            continue
        plain, hinted, behind = tried(program, feed, body, front, hint is not None, seconds)
        page.add(f"| {name} | {asks} | {plain} | {hint or ''} | {hinted} | {behind} |")
    return missing


def main():
    needs()
    words = argparse.ArgumentParser()
    words.add_argument("names", nargs="*", help="of clients as the table has them; else all")
    words.add_argument("--seconds", type=float, default=20, help="after which a case ends")
    words = words.parse_args()
    page = Page(os.path.join(HERE, "CLIENTS.md"))
    with tempfile.TemporaryDirectory() as folder:
        os.chmod(folder, 0o755)
        feed = feeds.write(os.path.join(folder, "feed"), 1, has_field=False)
        daemons = [Daemon(feed).wait(), Daemon(feed).wait()]
        front = Front(folder, [it.port for it in daemons])
        try:
            missing = table(page, folder, feed, front, words.names, words.seconds)
        finally:
            for it in (front, *daemons):
                it.stop()
    if missing:
        page.add(f"\nNot installed, and left out: {', '.join(missing)}.")
    if not words.names:
        page.write()


if __name__ == "__main__":
    main()
