#!/usr/bin/env python3
"""Says which declarations of a crate took the prover the most steps: a goal that stands high is searched, and an answer by hand
saves most of it.

Run it where `rt check` has proved the crate: it reads what that kept in the crate's `out/`, whose form is the kit's own and may
change. Steps don't go by the machine or by what runs beside it; a million of them take one to three seconds. What was proved
before a change, and is still so, is counted as it was then.
bench/proving/goals.py CRATE           the thirty dearest declarations
bench/proving/goals.py CRATE PATH ..   those of functions and files whose path has one of these words"""
import collections
import glob
import json
import os
import re
import sys

MOST = 30
RECORD = re.compile(rb'\{"aux".*?"toil":\[[^\]]*\]\}', re.DOTALL)


def records(crate):
    """The modules and declarations of a crate, and the steps of each."""
    for file in glob.glob(f"crates/{crate}/out/incremental/*/records/*.decls.oantt"):
        module = re.sub(r"^Rattle-\w+[-.]|\.decls\.oantt$", "", os.path.basename(file))
        with open(file, "rb") as it:
            for found in RECORD.findall(it.read()):
                try:
                    said = json.loads(found)
                except ValueError:
                    continue
                yield module, said["name"], sum(said["phases"])


def main():
    crate, words = sys.argv[1], sys.argv[2:]
    steps = collections.Counter()
    for module, name, took in records(crate):
        if not words or any(word in module for word in words):
            steps[module, name] += took
    if not steps:
        sys.exit(f"nothing is kept of {crate}: run `rt check` in crates/{crate} first")
    print("| millions of steps | module | declaration |")
    print("|---|---|---|")
    for (module, name), took in steps.most_common(MOST):
        print(f"| {took / 1e6:.1f} | {module} | {name} |")
    print(f"| {sum(steps.values()) / 1e6:.1f} | all | |")


if __name__ == "__main__":
    main()
