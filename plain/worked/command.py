"""Runs worked rows on the plain program, or on built ones.

    python3 plain/rows.py
    python3 plain/rows.py --edr release/edr --answers crates/edr_answers/out/edr_answers

The answers are written in these modules as texts, and not by the plain program. `--edr` runs the rows of commands on that program, and
`--answers` those of the reader of feeds on `edr_answers`; a file that ends with `.py` is run by Python. What differs is printed; the
last line is `N agree, M differ`, and the status is 1 where any differs.
"""

import argparse
import sys

from plain.profile.answers.offered import offer_nearest
from plain.worked import fetches, grids, runs, sessions, stations, validator

ROWS = {"grids": grids.rows, "stations": stations.rows, "sessions": sessions.rows}
LARGE = {"grids": grids.large_rows, "stations": stations.large_rows}
ABOUT = (*ROWS, "fetch", "validator")


def parsed_words() -> argparse.Namespace:
    """The words of the command."""
    parser = argparse.ArgumentParser(description=__doc__, formatter_class=argparse.RawDescriptionHelpFormatter)
    parser.add_argument("--edr", help="the program edr")
    parser.add_argument("--answers", help="the program edr_answers")
    parser.add_argument("--about", action="append", choices=ABOUT, help="may be given several times; without it all are run")
    parser.add_argument("--large", action="store_true", help="the rows of large replies and stations too")
    parser.add_argument("--nearest", action="store_true", help="the program offers position of stations")
    return parser.parse_args()


def differences(about: str, programs: runs.Programs, large: bool) -> tuple[int, list[str]]:
    """How many rows about something were run, and what is told of each that ends otherwise."""
    if about == "fetch":
        return fetches.differences(programs.edr) if programs.edr or not programs.answers else (0, [])
    if about == "validator":
        return validator.differences() if programs == runs.Programs(None, None) else (0, [])
    rows = ROWS[about]() + (LARGE[about]() if large and about in LARGE else [])
    return runs.differences(rows, programs)


def run_all(abouts: list[str], programs: runs.Programs, large: bool = False) -> tuple[int, int]:
    """Runs rows, and prints what differs; how many agree, and how many differ."""
    agree = differ = 0
    for about in abouts:
        count, told = differences(about, programs, large)
        for each in told:
            print(each)
        print(f"rows about {about}: {count - len(told)} agree, {len(told)} differ", file=sys.stderr)
        agree, differ = agree + count - len(told), differ + len(told)
    return agree, differ


def main() -> int:
    words = parsed_words()
    if words.nearest:
        offer_nearest()
    agree, differ = run_all(words.about or [*ABOUT], runs.Programs(words.edr, words.answers), words.large)
    print(f"{agree} agree, {differ} differ")
    return 1 if differ else 0
