#!/usr/bin/python3
"""Tests tools/to_feed.py: python3 tools/test_to_feed.py [--edr PROGRAM] [--make FOLDER]

Makes two NetCDF and two GRIB files, makes a feed of each, checks it with `edr check`, and compares 1,000 values by chance of
each feed, and 25 answers of `edr ask`, with the nearest selection of xarray. Then each bad input is tried. PROGRAM is
release/edr where it can be run, else plain/edr.py; one that ends with .py is run by Python. With --make the four files are
made in FOLDER, and nothing is tried.
"""

import argparse
import sys
import tempfile
from pathlib import Path

from test_parts import bad_inputs, compared, programs, unpacking

TOP = Path(__file__).resolve().parent.parent


def _words() -> argparse.Namespace:
    parser = argparse.ArgumentParser(description=__doc__.splitlines()[0])
    parser.add_argument("--edr", metavar="PROGRAM", help="the program `edr`")
    parser.add_argument("--make", metavar="FOLDER", type=Path, help="only make the four files, in this folder")
    return parser.parse_args()


def _program(named: str | None) -> programs.Edr:
    built = TOP / "release/edr"
    path = named or str(built if built.exists() else TOP / "plain/edr.py")
    return programs.Edr([sys.executable, path] if path.endswith(".py") else [path])


def main() -> int:
    words = _words()
    if words.make:
        compared.make_files(words.make)
        return 0
    edr = _program(words.edr)
    with tempfile.TemporaryDirectory() as folder:
        trials = [*compared.trials(Path(folder), edr), ("unpacking", unpacking.trial), *bad_inputs.trials(Path(folder))]
        tried = [(name, _tried(name, trial)) for name, trial in trials]
    faults = [line for _, lines in tried for line in lines]
    print("\n".join(faults) or "all agree")
    print(f"{len(tried)} tried with {' '.join(edr.words)}, {len(faults)} at fault")
    return 1 if faults else 0


def _tried(name: str, trial) -> list[str]:
    try:
        said = trial()
    except AssertionError as fault:
        return [f"{name}: {fault}"]
    print(f"{name}: {said}")
    return []


if __name__ == "__main__":
    sys.exit(main())
