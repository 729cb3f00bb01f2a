"""Compares the proved program with the plain one on random inputs.

    python3 plain/compare.py --edr release/edr --answers crates/edr_answers/out/edr_answers --seed 1 --count 1000

`--edr` names the program, which is asked by its words and its input (the kinds `ask`, `check`, `line`, `replay`, `show` and `fetch`);
`--answers` names `edr_answers`, which gives what the readers answer (all other kinds). With `--tried` in place of `--edr`, `rt try` runs
the crate `edr` without proof; it has no peers, so `fetch` is left out. Each kind gets `--count` inputs, which the seed, the kind and
their number decide. Every difference is printed with what reproduces it; the last line is `N agreed, M differ`, and the status is 1
where any differ.
"""

import argparse
from collections import Counter
from concurrent.futures import ProcessPoolExecutor
from functools import partial

from plain.comparison.kinds import ALL_ASKS, ALL_FETCHES, ALL_READERS, ASKS, LARGE, READERS, USUAL, Place, answerable
from plain.comparison.results import Result, Settings, compare
from plain.profile.answers.offered import offer_nearest

_AT_ONCE = 500  # inputs that a process takes at a time


def parsed_words() -> argparse.Namespace:
    """The words of the command."""
    parser = argparse.ArgumentParser(description=__doc__, formatter_class=argparse.RawDescriptionHelpFormatter)
    parser.add_argument("--edr", help="the program edr; a file that ends with .py is run by Python")
    parser.add_argument("--answers", help="the program edr_answers")
    parser.add_argument("--tried", action="store_true", help="run the crate edr by rt try, in one process")
    parser.add_argument("--seed", required=True)
    parser.add_argument("--count", type=int, default=1000, help="how many inputs of each kind")
    parser.add_argument("--kind", action="append", choices=[*ALL_ASKS, *ALL_FETCHES, *ALL_READERS], help="may be given several times")
    parser.add_argument("--only", type=int, help="compare the input of this number alone, and print it whole")
    parser.add_argument("--at-once", type=int, default=_AT_ONCE, help="how many inputs a process takes at a time")
    parser.add_argument("--nearest", action="store_true", help="the program offers position of stations")
    parser.add_argument("--processes", type=int, default=2)
    return parser.parse_args()


def kinds_of(words: argparse.Namespace) -> list[str]:
    """The kinds that are asked for, or those that the programs can answer."""
    if words.kind:
        return words.kind
    if words.tried:
        return [*ASKS, *READERS] if words.answers else [*ASKS]
    return answerable(USUAL, bool(words.edr), bool(words.answers))


def jobs_of(kinds: list[str], numbers: list[int], at_once: int = _AT_ONCE) -> list[list[Place]]:
    """The inputs of some kinds and numbers, cut into jobs."""
    jobs = []
    for kind in kinds:
        places = [Place(kind, number) for number in numbers]
        step = 1 if kind in LARGE else at_once
        jobs += [places[first : first + step] for first in range(0, len(places), step)]
    return jobs


def tried_jobs(jobs: list[list[Place]]) -> list[list[Place]]:
    """The jobs joined: `rt try` builds for each job, so it gets one for all asks."""
    places = [place for job in jobs for place in job]
    joined = [[place for place in places if (place.kind in ALL_ASKS) == is_ask] for is_ask in (False, True)]
    return [job for job in joined if job]


def compare_all(settings: Settings, jobs: list[list[Place]], processes: int, whole: bool = False) -> list[Result]:
    """Compares all inputs of some jobs, and prints what differs."""
    results = []
    with ProcessPoolExecutor(processes) as pool:
        for found in pool.map(partial(compare, settings), jobs):
            for result in filter(Result.differs, found):
                print_difference(result, settings.seed, whole)
            results += found
    return results


def print_difference(result: Result, seed: str, whole: bool) -> None:
    """Prints a difference, with what reproduces it."""
    length = None if whole else 1500
    print(f"differs: --kind {result.place.kind} --seed {seed} --only {result.place.number}")
    print(f"  input   {result.input[:length]}")
    print(f"  plain   {result.plain[:length]}")
    print(f"  program {result.program[:length]}")


def print_counts(results: list[Result]) -> None:
    """Prints how many inputs of each kind agreed, and what was answered to them."""
    for kind in dict.fromkeys(result.place.kind for result in results):
        of_kind = [result for result in results if result.place.kind == kind]
        differ = sum(result.differs() for result in of_kind)
        left_out = sum(result.program is None for result in of_kind)
        print(f"{kind}: {len(of_kind) - differ - left_out} agreed, {differ} differ, {left_out} left out")
        counts = Counter(result.word for result in of_kind).most_common()
        print("  answers: " + ", ".join(f"{count} {word}" for word, count in counts))


def counts_of(results: list[Result]) -> tuple[int, int]:
    """How many agreed, and how many differ."""
    differ = sum(map(Result.differs, results))
    return sum(result.program is not None for result in results) - differ, differ


def main() -> int:
    words = parsed_words()
    if words.nearest:
        offer_nearest()
    numbers = list(range(words.count)) if words.only is None else [words.only]
    jobs = jobs_of(kinds_of(words), numbers, words.at_once)
    processes = 1 if words.tried else words.processes
    settings = Settings(words.seed, words.edr, words.answers)
    results = compare_all(settings, tried_jobs(jobs) if words.tried else jobs, processes, whole=words.only is not None)
    print_counts(results)
    agreed, differ = counts_of(results)
    print(f"{agreed} agreed, {differ} differ")
    return 1 if differ else 0
