#!/usr/bin/env python3
"""Measures collections of stations: how fast the made feed is written, how feeds of many stations are read and kept, and how
long answers take that select few of them.

It makes the feeds in a temporary folder: stations on a line, a metre apart, with ids in that order, each with 24 hours of one
digit. Memory is the peak of `edr replay` on a feed without requests, less that of a feed without stations. The time of an
answer is that of a connection to `edr replay`, from when its requests are handed over, after a first one was answered, until the
last of their replies was read; each connection asks one target many times. Run it from anywhere: bench/stations/run.py"""
import os
import subprocess
import sys
import tempfile
import threading
import time

HERE = os.path.dirname(os.path.abspath(__file__))
sys.path.insert(0, os.path.join(HERE, ".."))
from measure import measure  # noqa: E402

EDR = os.path.join(HERE, "..", "..", "release", "edr")
HOURS = 24
REQUESTS = 500
CONNECTIONS = 7
REFERENCING = (
    '[{"coordinates":["x","y"],"system":{"id":"local","type":"ProjectedCRS"}},'
    '{"coordinates":["t"],"system":{"calendar":"Gregorian","type":"TemporalRS"}}]'
)
TIMES = ",".join(f'"2024-01-01T{hour:02}:00:00Z"' for hour in range(HOURS))
COLLECTION = '{"collection":{"crs":"local","id":"sites","kind":"station","title":"Sites"}}\n'
PUBLISH = '{"publish":{}}\n'


def station(number):
    """The line of a station at its number of metres."""
    values = ",".join(str((number + hour) % 10) for hour in range(HOURS))
    return (
        '{"station":{"collection":"sites","coverage":{"domain":{"axes":{"t":{"values":[%s]},"x":{"values":[%d]},"y":{"values":[0]}},'
        '"domainType":"PointSeries","referencing":%s,"type":"Domain"},"parameters":{"level":{"observedProperty":{"label":{"en":"Level"}},'
        '"type":"Parameter","unit":{"symbol":"m"}}},"ranges":{"level":{"axisNames":["t"],"dataType":"integer","shape":[%d],"type":'
        '"NdArray","values":[%s]}},"type":"Coverage"},"id":"s%06d","label":"Site %d"}}\n'
        % (TIMES, number, REFERENCING, HOURS, values, number, number)
    )


def write_feed(path, stations):
    with open(path, "w") as feed:
        feed.write(COLLECTION)
        for number in range(stations):
            feed.write(station(number))
        feed.write(PUBLISH)
    return os.path.getsize(path)


def request(target):
    return f"GET {target} HTTP/1.1\r\nHost: localhost\r\n\r\n".encode()


def read_exactly(source, count):
    while count > 0:
        piece = source.read(min(count, 1 << 20))
        if not piece:
            sys.exit("the output ended within a reply")
        count -= len(piece)


def answer_time(feed, target):
    """The least seconds of an answer over some connections, and the bytes of a reply."""
    alone = subprocess.run([EDR, "replay", feed], input=request(target), capture_output=True, check=True).stdout
    if not alone.startswith(b"HTTP/1.1 200"):
        sys.exit(f"{target} is answered by {alone[:60]!r}")
    best = None
    for _ in range(CONNECTIONS):
        server = subprocess.Popen([EDR, "replay", feed], stdin=subprocess.PIPE, stdout=subprocess.PIPE)
        server.stdin.write(request(target))
        server.stdin.flush()
        read_exactly(server.stdout, len(alone))
        requests = request(target) * REQUESTS
        began = time.perf_counter()
        writer = threading.Thread(target=lambda: (server.stdin.write(requests), server.stdin.close()))
        writer.start()
        read_exactly(server.stdout, len(alone) * REQUESTS)
        took = (time.perf_counter() - began) / REQUESTS
        writer.join()
        server.stdout.close()
        server.wait()
        best = took if best is None else min(best, took)
    return best, len(alone)


def made(folder):
    """The seconds that `make` takes to a file, and the bytes."""
    path = os.path.join(folder, "made")
    least = None
    for _ in range(CONNECTIONS):
        with open(path, "wb") as feed:
            began = time.perf_counter()
            subprocess.run([EDR, "make", "7"], stdout=feed, check=True)
            took = time.perf_counter() - began
        least = took if least is None else min(least, took)
    nothing = None
    for _ in range(CONNECTIONS):
        began = time.perf_counter()
        subprocess.run([EDR], capture_output=True)
        took = time.perf_counter() - began
        nothing = took if nothing is None else min(nothing, took)
    return least, nothing, os.path.getsize(path)


def main():
    if not os.path.exists(EDR):
        sys.exit("release/edr is missing: release/renew puts it there")
    with tempfile.TemporaryDirectory() as folder:
        took, nothing, size = made(folder)
        print(f"make 7: {size:,} bytes in {took:.4f} seconds, {size / took / 1e6:.0f} MB a second; a start alone takes {nothing:.4f}")
        print()
        feeds = {}
        print("| stations | bytes | seconds to read | MB a second | MB at the peak | bytes a station over their samples |")
        print("|---|---|---|---|---|---|")
        empty = None
        for stations in (0, 1_000, 10_000, 50_000, 100_000):
            feeds[stations] = os.path.join(folder, str(stations))
            size = write_feed(feeds[stations], stations)
            seconds, peak, _ = measure([EDR, "replay", feeds[stations]])
            if empty is None:
                empty = peak
                print(f"| {stations:,} | {size:,} | {seconds:.3f} | | {peak / 1e6:.1f} | |")
                continue
            over = (peak - empty) / stations - HOURS
            told = f"{over:.0f}" if over > 0 else ""  # below the peak of the program itself it can't be told
            print(f"| {stations:,} | {size:,} | {seconds:.3f} | {size / seconds / 1e6:.0f} | {peak / 1e6:.1f} | {told} |")
        print()
        print("| stations | query | microseconds an answer | bytes |")
        print("|---|---|---|---|")
        for name, target in (
            ("radius of 99 stations", "/collections/sites/radius?coords=POINT(500%200)&within=49&within-units=m"),
            ("cube of 100 stations", "/collections/sites/cube?bbox=450,0,549,0"),
            ("area of 100 stations", "/collections/sites/area?coords=POLYGON((450%20-1,549%20-1,549%201,450%201,450%20-1))"),
            ("locations", "/collections/sites/locations/s000500"),
        ):
            for stations in (1_000, 100_000):
                seconds, size = answer_time(feeds[stations], target)
                print(f"| {stations:,} | {name} | {seconds * 1e6:.1f} | {size:,} |")


if __name__ == "__main__":
    main()
