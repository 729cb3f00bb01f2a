#!/usr/bin/env python3
"""Measures the dearest targets of at most 16 KB that are known for each kind of query: the processor time of `edr replay` from the
request to the last byte of its reply, and how much memory it takes at the peak over what it holds of the edition.

It makes its feeds from a seed in a temporary folder: grids of 4,000,000 samples in several shapes, just below what a reply may
have in others, and 100,000 stations. With `--search N` it also tries N targets by chance on each feed, by changes of those that
were dearest so far, and tells the dearest of them. Run it from anywhere, with nothing else on the machine:
bench/dearest/run.py [--edr PROGRAM] [--only WORD] [--search N]"""
import argparse
import os
import random
import re
import subprocess
import sys
import tempfile
import time

HERE = os.path.dirname(os.path.abspath(__file__))
EDR = os.path.join(HERE, "..", "..", "crates", "edr", "out", "edr")
SEED = 20261201
MOST_BYTES = 16_200
TICK = 1 / os.sysconf("SC_CLK_TCK")
SYSTEMS = (
    '{"coordinates":["x","y"],"system":{"id":"local","type":"ProjectedCRS"}},'
    '{"coordinates":["t"],"system":{"calendar":"Gregorian","type":"TemporalRS"}}'
)
VERTICAL = ',{"coordinates":["z"],"system":{"id":"height","type":"VerticalCRS","cs":{"csAxes":[{"name":{"en":"Height"},"direction":"up","unit":{"symbol":"m"}}]}}}'
PARAMETER = '{"type":"Parameter","unit":{"symbol":"Cel"},"observedProperty":{"label":{"en":"Temperature"}}}'


def instants(count):
    """So many hours, as texts."""
    texts = (time.strftime("%Y-%m-%dT%H:00:00Z", time.gmtime(1704067200 + 3600 * hour)) for hour in range(count))
    return ",".join(f'"{it}"' for it in texts)


def span(count):
    return '{"values":[0]}' if count == 1 else f'{{"start":0,"stop":{count - 1},"num":{count}}}' if count > 2 else '{"values":[0,1]}'


def grid_line(times, levels, rows, columns):
    """A feed of one grid with a node each metre, samples of one digit, and levels a metre apart where there are some."""
    draw = random.Random(SEED)
    samples = ",".join(map(str, draw.choices(range(10), k=times * max(levels, 1) * rows * columns)))
    axes = f'"x":{span(columns)},"y":{span(rows)},"t":{{"values":[{instants(times)}]}}' + (f',"z":{span(levels)}' if levels else "")
    names, shape = ('"t","z","y","x"', [times, levels, rows, columns]) if levels else ('"t","y","x"', [times, rows, columns])
    return (
        f'{{"type":"Coverage","domain":{{"type":"Domain","domainType":"Grid","axes":{{{axes}}},"referencing":[{SYSTEMS}{VERTICAL if levels else ""}]}},'
        f'"parameters":{{"temp":{PARAMETER}}},"ranges":{{"temp":{{"type":"NdArray","dataType":"integer","axisNames":[{names}],'
        f'"shape":[{",".join(map(str, shape))}],"values":[{samples}]}}}}}}\n'
    )


def station_lines(count, side, hours):
    """A feed of so many stations at places of a square, with so many hours each."""
    draw = random.Random(SEED)
    yield '{"collection":{"crs":"local","id":"grid","kind":"station","title":"Sites"}}\n'
    times = instants(hours)
    for number in range(count):
        x, y = draw.randrange(side), draw.randrange(side)
        values = ",".join(str((number + hour) % 10) for hour in range(hours))
        yield (
            '{"station":{"collection":"grid","coverage":{"domain":{"axes":{"t":{"values":[%s]},"x":{"values":[%d]},"y":{"values":[%d]}},'
            '"domainType":"PointSeries","referencing":[%s],"type":"Domain"},"parameters":{"temp":%s},"ranges":{"temp":{"axisNames":["t"],'
            '"dataType":"integer","shape":[%d],"type":"NdArray","values":[%s]}},"type":"Coverage"},"id":"s%06d","label":"Site %d"}}\n'
            % (times, x, y, SYSTEMS, PARAMETER, hours, values, number, number)
        )
    yield '{"publish":{}}\n'


# Each feed: its name, what writes it, and how far its places reach in x and in y.
FEEDS = {
    "2,000 by 2,000": (lambda: [grid_line(1, 0, 2000, 2000)], 1999, 1999),
    "1,400 by 1,400": (lambda: [grid_line(1, 0, 1400, 1400)], 1399, 1399),
    "1 by 4,000,000": (lambda: [grid_line(1, 0, 1, 4_000_000)], 3_999_999, 0),
    "4,000,000 by 1": (lambda: [grid_line(1, 0, 4_000_000, 1)], 0, 3_999_999),
    "1,900,000 by 1": (lambda: [grid_line(1, 0, 1_900_000, 1)], 0, 1_899_999),
    "200 times of 100 by 200": (lambda: [grid_line(200, 0, 100, 200)], 199, 99),
    "100 levels of 200 by 200": (lambda: [grid_line(1, 100, 200, 200)], 199, 199),
    "100,000 stations": (lambda: station_lines(100_000, 2000, 2), 1999, 1999),
}


def positions(draw, many, wide, high, form=""):
    """As many places by chance as fit into a target."""
    return ",".join(f"{draw.randint(0, wide)}+{draw.randint(0, high)}{form}" for _ in range(many))


def fitting(make, most):
    """The target of the greatest number, at most so many, that fits."""
    low, high = 1, most
    while low < high:
        middle = (low + high + 1) // 2
        low, high = (middle, high) if len(make(middle)) <= MOST_BYTES else (low, middle - 1)
    return make(low)


def zigzag(many, wide, high):
    """A line from border to border and back, over all rows."""
    return ",".join(f"{wide * place // max(many - 1, 1)}+{high * (place % 2)}" for place in range(many))


def comb(many, wide, high):
    """A ring whose edges go from border to border and back."""
    teeth = [f"{wide * place // max(many - 1, 1)}+{high if place % 2 else 1}" for place in range(many)]
    return ",".join([*teeth, f"{wide}+0", "0+0", teeth[0]])


def triangles(many, wide, high):
    draw = random.Random(SEED)
    parts = []
    for _ in range(many):
        x = draw.randint(0, wide)
        parts.append(f"(({x}+0,{min(x + 3, wide)}+0,{draw.randint(0, wide)}+{high},{x}+0))")
    return ",".join(parts)


def known(wide, high, is_stations):
    """The targets that are known to be dear, by what they ask for."""
    draw = lambda: random.Random(SEED)
    at = "/collections/grid/"
    width = max(wide, high)
    line = "&corridor-width={}&width-units=m"
    targets = {
        "corridor of long slanted segments": lambda n: f"{at}corridor?coords=LINESTRING({zigzag(n, wide, high)}){line.format(5)}",
        "corridor between any places": lambda n: f"{at}corridor?coords=LINESTRING({positions(draw(), n, wide, high)}){line.format(5)}",
        "corridor as wide as the grid": lambda n: f"{at}corridor?coords=LINESTRING({positions(draw(), n, wide, high)}){line.format(width)}",
        "corridor of one segment again and again": lambda n: f"{at}corridor?coords=LINESTRING({','.join(['0+0', f'{wide}+{high}'] * n)}){line.format(5)}",
        "corridor with times": lambda n: f"{at}corridor?coords=LINESTRING+M({positions(draw(), n, wide, high, '+1704067200')}){line.format(width)}",
        "area of a comb": lambda n: f"{at}area?coords=POLYGON(({comb(n, wide, high)}))",
        "area of thin triangles": lambda n: f"{at}area?coords=MULTIPOLYGON({triangles(n, wide, high)})",
        "radius over all": lambda n: f"{at}radius?coords=POINT({wide // 2}+{high // 2})&within={width}&within-units=m",
        "cube of all": lambda n: f"{at}cube?bbox=0,0,{wide},{high}",
    }
    if not is_stations:
        targets["position of many points"] = lambda n: f"{at}position?coords=MULTIPOINT({positions(draw(), n, wide, high)})"
        targets["trajectory"] = lambda n: f"{at}trajectory?coords=LINESTRING({positions(draw(), n, wide, high)})"
    return {name: fitting(make, 8000) for name, make in targets.items()}


class Replay:
    """A connection to `edr replay` over a feed."""

    def __init__(self, program, feed):
        self.process = subprocess.Popen([program, "replay", feed], stdin=subprocess.PIPE, stdout=subprocess.PIPE)
        self.ask("/conformance")

    def seconds(self):
        with open(f"/proc/{self.process.pid}/stat", encoding="utf-8") as file:
            fields = file.read().rsplit(")", 1)[1].split()
        return (int(fields[11]) + int(fields[12])) * TICK

    def memory(self, name):
        with open(f"/proc/{self.process.pid}/status", encoding="utf-8") as file:
            return int(re.search(rf"{name}:\s*(\d+)", file.read())[1]) * 1024

    def ask(self, target):
        """The status, the bytes of the body, the processor time and the peak over what was held before."""
        with open(f"/proc/{self.process.pid}/clear_refs", "w", encoding="utf-8") as file:
            file.write("5")
        held, begun = self.memory("VmRSS"), self.seconds()
        self.process.stdin.write(f"GET {target} HTTP/1.1\r\nHost: localhost\r\n\r\n".encode())
        self.process.stdin.flush()
        status, length, chunked = int(self.line().split()[1]), 0, False
        while line := self.line():
            name, _, value = line.partition(b":")
            length = int(value) if name.lower() == b"content-length" else length
            chunked = chunked or name.lower() == b"transfer-encoding"
        size = self.chunks() if chunked else len(self.process.stdout.read(length))
        return status, size, self.seconds() - begun, self.memory("VmHWM") - held

    def line(self):
        return self.process.stdout.readline().rstrip(b"\r\n")

    def chunks(self):
        size = 0
        while length := int(self.line(), 16):
            size += length
            self.process.stdout.read(length + 2)
        self.line()
        return size

    def end(self):
        self.process.stdin.close()
        self.process.stdout.close()
        self.process.wait()


def changed(draw, target, wide, high):
    """A target with some of its places changed by chance."""
    parts = re.split(r"(\d+\+\d+)", target)
    for _ in range(draw.choice([1, 10, 100])):
        place = draw.randrange(1, len(parts), 2) if len(parts) > 2 else 0
        if place:
            parts[place] = f"{draw.choice([0, wide, draw.randint(0, wide)])}+{draw.choice([0, high, draw.randint(0, high)])}"
    if draw.random() < 0.3:
        return re.sub(r"(corridor-width|within)=\d+", lambda it: f"{it[1]}={draw.choice([0, 1, 5, 50, max(wide, high)])}", "".join(parts))
    return "".join(parts)


def tell(feed, name, target, told):
    status, size, seconds, memory = told
    print(f"| {feed} | {name} | {len(target):,} | {status} | {size:,} | {seconds:.2f} | {max(memory, 0) / 1e6:.0f} |", flush=True)


def main():
    reader = argparse.ArgumentParser(description=__doc__, formatter_class=argparse.RawDescriptionHelpFormatter)
    reader.add_argument("--edr", default=EDR, help="the program")
    reader.add_argument("--only", default="", help="the feeds whose name has this")
    reader.add_argument("--search", type=int, default=0, help="how many targets by chance on each feed")
    asked, draw = reader.parse_args(), random.Random(SEED)
    print("| feed | target | bytes | status | bytes of the reply | seconds of processor time | MB over the edition |")
    print("|---|---|---|---|---|---|---|")
    with tempfile.TemporaryDirectory(prefix="dearest-") as room:
        for feed, (lines, wide, high) in FEEDS.items():
            if asked.only not in feed:
                continue
            path = os.path.join(room, "feed.jsonl")
            with open(path, "w", encoding="utf-8") as file:
                file.writelines(lines())
            replay = Replay(os.path.abspath(asked.edr), path)
            targets = known(wide, high, "stations" in feed)
            took = {}
            for name, target in targets.items():
                told = replay.ask(target)
                took[name] = told[2]
                tell(feed, name, target, told)
            best = max(targets, key=took.get)
            target, told = targets[best], (0, 0, took[best], 0)
            for _ in range(asked.search):
                other = changed(draw, draw.choice([target, *targets.values()]), wide, high)
                tried = replay.ask(other) if len(other) <= MOST_BYTES else (0, 0, 0, 0)
                if tried[2] > told[2]:
                    target, told = other, tried
            if told[0]:
                tell(feed, "dearest by chance", target, told)
            replay.end()


if __name__ == "__main__":
    if not sys.platform.startswith("linux"):
        sys.exit("it reads /proc, as Linux has it")
    main()
