#!/usr/bin/env python3
"""Measures what ./edr and ./edrd take over the programs that they run, by 100 calls of each in turn, with no words, which is refused.

Wanted: at most 3 milliseconds over the program, by the middle one of the calls. Run it from anywhere, on a machine that does nothing
else: bench/start/run.py"""
import os
import statistics
import subprocess
import time

TOP = os.path.join(os.path.dirname(os.path.abspath(__file__)), "..", "..")
MOST = 3


def took(program):
    """How many milliseconds a call takes."""
    began = time.perf_counter()
    subprocess.run([program], cwd=TOP, stderr=subprocess.DEVNULL)
    return 1000 * (time.perf_counter() - began)


def main():
    print("| call | milliseconds, least | middle | over the program |")
    print("|---|---|---|---|")
    for name in ("edr", "edrd"):
        calls = {f"release/{name}": [], f"./{name}": []}
        for _ in range(100):
            for program, times in calls.items():
                times.append(took(os.path.join(TOP, program) if program.startswith("release") else program))
        alone, over = (statistics.median(it) for it in calls.values())
        for (program, times), more in zip(calls.items(), ("", f"{over - alone:.2f}")):
            print(f"| {program} | {min(times):.2f} | {statistics.median(times):.2f} | {more} |")
        if over - alone > MOST:
            print(f"missed: at most {MOST} milliseconds over the program")


if __name__ == "__main__":
    main()
