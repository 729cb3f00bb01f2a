#!/usr/bin/env python3
"""Tries what `examples/nginx.conf` says of clients that aren't alike: browsers, monitors, slow ones, too many at once, those behind
another server, and daemons that are gone or held up. It writes CHECKS.md: a line for each, with what was found. It needs nginx and
the built programs. Run it from anywhere: bench/nginx/checks.py"""
import os
import socket
import sys
import tempfile
import threading
import time

import feeds
from front import HERE, Client, Daemon, Front, needs

sys.path.insert(0, os.path.join(HERE, ".."))
from pages import Page  # noqa: E402

GZIP = "Accept-Encoding: gzip\r\n"
FAULTS = []
PAGE = Page(os.path.join(HERE, "CHECKS.md"))


def tell(what, found, is_wanted):
    PAGE.add(f"| {what} | {found} | {'yes' if is_wanted else 'NO'} |")
    if not is_wanted:
        FAULTS.append(what)


def ask(front, target=feeds.NOW, *rest, address="127.0.0.9", **named):
    client = Client(front.port, address)
    reply = client.ask(target, *rest, **named)
    client.leave()
    return reply


def browsers(front):
    plain, packed = ask(front, feeds.LARGE), ask(front, feeds.LARGE, GZIP)
    coding = packed.fields.get("content-encoding")
    tell("a document, with gzip", f"{plain.status}, Content-Encoding {coding}, the same bytes: {plain.body == packed.body}", coding == "gzip" and plain.body == packed.body)
    page = ask(front, "/collections", GZIP)
    tell("a description, with gzip", f"{page.status}, Content-Encoding {page.fields.get('content-encoding')}", page.fields.get("content-encoding") == "gzip")
    origin = "access-control-allow-origin"
    tell("a page of another origin", f"{plain.fields.get(origin)}, may read {plain.fields.get('access-control-expose-headers')}", plain.fields.get(origin) == "*")
    refused = ask(front, "/collections/nothing")
    tell("the same, refused", f"{refused.status} {refused.body.decode()}, {refused.fields.get(origin)}", refused.status == 404 and refused.fields.get(origin) == "*")
    asked = ask(front, feeds.NOW, "Origin: http://a\r\nAccess-Control-Request-Method: GET\r\nAccess-Control-Request-Headers: x-any\r\n", "OPTIONS")
    tell("a browser's OPTIONS", f"{asked.status}, {asked.fields.get('access-control-allow-methods')}", asked.status == 204 and asked.fields.get(origin) == "*")
    head = ask(front, feeds.NOW, method="HEAD")
    tell("HEAD", f"{head.status}, edition {head.edition}", head.status == 200 and head.edition == 1)


def bodies(front):
    for size in (2, 1_000_000):
        reply = ask(front, "/collections", f"Content-Length: {size}\r\n", "POST", b"x" * size)
        tell(f"POST with a body of {size:,} bytes", f"{reply.status}, Allow: {reply.fields.get('allow')}", reply.status == 405)
    reply = ask(front, feeds.NOW, "Content-Length: 2\r\n", "GET", b"{}")
    tell("GET with a body of 2 bytes", f"{reply.status}", reply.status == 200)
    reply = ask(front, feeds.NOW, "Content-Length: 1000000\r\n", "GET", b"x" * 1_000_000)
    tell("GET with a body of 1,000,000 bytes", f"{reply.status}", reply.status == 413)


def heads(front):
    for count in (60, 200):
        reply = ask(front, feeds.NOW, "X-Any: a\r\n" * count)
        tell(f"{count} fields that nobody knows", f"{reply.status}", reply.status == 200)
    for length, wanted in ((16_000, 400), (17_000, 414)):
        reply = ask(front, "/collections?f=" + "a" * length)
        tell(f"a target of {length:,} bytes", f"{reply.status}", reply.status == wanted)
    reply = ask(front, feeds.NOW, f"Cookie: {'a' * 12_000}\r\n")
    tell("a cookie of 12,000 bytes", f"{reply.status}", reply.status == 200)


def long_connection(front):
    client, statuses = Client(front.port, "127.0.0.9"), []
    for _ in range(2500):
        statuses.append(client.ask(feeds.NOW).status)
    tell("2,500 requests on one connection, where a daemon's session ends with the 1,000th", f"{statuses.count(200)} of 200", statuses.count(200) == 2500)
    time.sleep(31)
    reply = client.ask(feeds.NOW)
    tell("one more after 31 seconds, where a daemon ends a connection after 30", f"{reply.status}", reply.status == 200)


def slow_clients(front):
    readers = []
    for number in range(70):
        it = socket.create_connection(("127.0.0.1", front.port), 60, (f"127.0.7.{1 + number}", 0))
        it.sendall(f"GET {feeds.LARGE} HTTP/1.1\r\nHost: a\r\n\r\n".encode())
        readers.append(it)
    time.sleep(2)
    began = time.perf_counter()
    reply = ask(front)
    took = time.perf_counter() - began
    tell("a request beside 70 clients that ask for a megabyte and read none of it", f"{reply.status} after {took:.2f} s", reply.status == 200 and took < 1)
    for it in readers:
        it.close()


def hold(daemon):
    """Connections that hold all workers of a daemon."""
    held = [socket.create_connection(("127.0.0.1", daemon.port)) for _ in range(64)]
    time.sleep(0.5)
    return held


def release(held):
    for it in held:
        it.close()


def at_once(front, count, after):
    """The statuses of so many requests at once, with the seconds that each took; `after` is done a second later."""
    got = []

    def one(number):
        began = time.perf_counter()
        reply = ask(front, address=f"127.0.{8 + number // 200}.{1 + number % 200}")
        got.append((reply.status, time.perf_counter() - began))

    threads = [threading.Thread(target=one, args=(number,)) for number in range(count)]
    for it in threads:
        it.start()
    time.sleep(1)
    after()
    for it in threads:
        it.join()
    return got


def too_many(folder, daemon):
    front = Front(os.path.join(folder, "many"), [daemon.port])
    held = hold(daemon)
    got = at_once(front, 200, lambda: release(held))
    counts = {status: [took for it, took in got if it == status] for status, _ in got}
    found = ", ".join(f"{len(times)} of {status}, the slowest after {max(times):.2f} s" for status, times in sorted(counts.items()))
    tell("200 requests at once, while for a second no worker is free", found, len(counts.get(200, [])) == 150 and len(counts.get(503, [])) == 50 and max(counts[503]) < 1)
    front.stop()


def no_second_try(folder, daemons):
    front = Front(os.path.join(folder, "held"), [it.port for it in daemons], [("proxy_read_timeout 60s", "proxy_read_timeout 2s")])
    held = [it for daemon in daemons for it in hold(daemon)]
    reply = ask(front)
    release(held)
    time.sleep(1.5)
    tried = front.log("access.log")[-1].split(" daemon ")[1].split(" edition ")[0]
    front.stop()
    tell("a request that isn't answered in time (2 s here)", f"{reply.status}, asked of {tried.count('127.0.0.1')} daemon", reply.status == 504 and tried.count("127.0.0.1") == 1)


def behind_another(folder, daemons):
    edits = [("# set_real_ip_from 192.0.2.10", "set_real_ip_from 127.0.0.9"), ("# real_ip_header", "real_ip_header"), ("# real_ip_recursive", "real_ip_recursive")]
    front = Front(os.path.join(folder, "behind"), [it.port for it in daemons], edits)
    for number in range(40):
        ask(front, feeds.NOW, f"X-Forwarded-For: 203.0.113.{number}\r\n")
    ask(front, feeds.NOW, "X-Forwarded-For: 203.0.113.77\r\n", address="127.0.0.8")
    time.sleep(1.5)
    rows = [row.split(" ") for row in front.log("access.log")]
    front.stop()
    named = {row[0]: row[row.index("daemon") + 1] for row in rows if row[0].startswith("203.0.113.")}
    tell("40 clients behind another server that is named", f"{len(named)} addresses at {len(set(named.values()))} daemons", len(named) == 40 and len(set(named.values())) == 2)
    others = [row[0] for row in rows if row[0] not in named]
    tell("X-Forwarded-For of one that isn't named", f"counts as {', '.join(others)}", others == ["127.0.0.8"])


def gone(folder, feed):
    first, second = Daemon(feed).wait(), Daemon(feed).wait()
    front = Front(os.path.join(folder, "gone"), [first.port, second.port])
    tell("/health, both daemons there", f"{ask(front, '/health').status}", ask(front, "/health").status == 200)
    first.stop()
    statuses = [ask(front, target, address=f"127.0.6.{1 + number}").status for number in range(20) for target in ("/health", feeds.NOW)]
    tell("/health and a position of 20 clients, one daemon gone", f"{statuses.count(200)} of 200", statuses.count(200) == 40)
    second.stop()
    reply = ask(front, "/health")
    tell("/health, both gone", f"{reply.status}", reply.status == 502)
    second = Daemon(feed, port=second.port).wait()
    statuses = [ask(front, address=f"127.0.6.{1 + number}").status for number in range(20)]
    tell("20 clients at once after one is there again", f"{statuses.count(200)} of 200", statuses.count(200) == 20)
    front.stop()
    second.stop()


def main():
    needs()
    with tempfile.TemporaryDirectory() as folder:
        os.chmod(folder, 0o755)
        feed = feeds.write(os.path.join(folder, "feed"), 1)
        daemons = [Daemon(feed).wait(), Daemon(feed).wait()]
        front = Front(folder, [it.port for it in daemons])
        PAGE.add("| tried | found | as wanted |\n|---|---|---|")
        for check in (browsers, bodies, heads, slow_clients, long_connection):
            check(front)
        front.stop()
        too_many(folder, daemons[0])
        no_second_try(folder, daemons)
        behind_another(folder, daemons)
        for it in daemons:
            it.stop()
        gone(folder, feed)
    PAGE.write()
    sys.exit(1 if FAULTS else 0)


if __name__ == "__main__":
    main()
