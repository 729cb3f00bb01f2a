"""Compares all that there is to compare, as a machine does at night.

    python3 plain/nightly.py --edr release/edr --answers crates/edr_answers/out/edr_answers --count 2000

`--count` random inputs of each kind are compared, and `--large` of each large kind, as by `compare.py`; the worked rows are run on the
plain program and on the built ones, as by `rows.py`; and `--count` replies of data are validated, as by `validate_replies.py`. The seed
is the date of the day, unless one is given. What differs is printed; the last line is `N agree, M differ`, and the status is 1 where
any differs.
"""

import argparse
from datetime import datetime, timezone

from plain.comparison.command import compare_all, counts_of, jobs_of, print_counts
from plain.comparison.kinds import LARGE, USUAL
from plain.comparison.results import Settings
from plain.valid.replies import print_invalid
from plain.worked.command import ABOUT, run_all
from plain.worked.runs import Programs


def parsed_words() -> argparse.Namespace:
    """The words of the command."""
    parser = argparse.ArgumentParser(description=__doc__, formatter_class=argparse.RawDescriptionHelpFormatter)
    parser.add_argument("--edr", required=True, help="the program edr")
    parser.add_argument("--answers", required=True, help="the program edr_answers")
    parser.add_argument("--seed", default=f"{datetime.now(timezone.utc):%Y%m%d}", help="the date of the day, unless it is given")
    parser.add_argument("--count", type=int, default=2000, help="how many inputs of each kind, and replies")
    parser.add_argument("--large", type=int, default=1, help="how many inputs of each large kind")
    parser.add_argument("--processes", type=int, default=2)
    return parser.parse_args()


def main() -> int:
    words = parsed_words()
    print(f"seed {words.seed}", flush=True)
    jobs = jobs_of(USUAL, list(range(words.count))) + jobs_of(LARGE, list(range(words.large)))
    results = compare_all(Settings(words.seed, words.edr, words.answers), jobs, words.processes)
    print_counts(results)
    invalid = print_invalid(words.edr, words.seed, words.count)
    counts = [
        counts_of(results),
        run_all([*ABOUT], Programs(None, None)),
        run_all([*ABOUT], Programs(words.edr, words.answers)),
        (words.count - invalid, invalid),
    ]
    differ = sum(differ for _, differ in counts)
    print(f"{sum(agree for agree, _ in counts)} agree, {differ} differ")
    return 1 if differ else 0
