"""Validates what the program answers to random targets, by the standard alone.

    python3 plain/validate_replies.py --edr release/edr --seed 1 --count 5000

The targets and their feeds are those of `compare.py`, half of the kind `ask` and half of the kind `line`, until so many were answered
with data. Each reply that isn't valid is printed with the target and the feed; the last line is `N valid, M aren't`.
"""

import argparse
import sys
from collections import Counter
from itertools import count
from typing import Iterator

from plain.comparison.inputs.asks import Ask
from plain.comparison.kinds import ASKS, Place
from plain.comparison.programs import endings
from plain.profile.refusals import Refused
from plain.profile.targets.pages import Query
from plain.profile.targets.read import read_target
from plain.valid.document import faults_of

_KINDS = ("ask", "line")
_AT_ONCE = 100


def asks(seed: str) -> Iterator[Ask]:
    """Words and inputs that ask for data, or nearly so, without end."""
    for number in count():
        for kind in _KINDS:
            found = ASKS[kind](Place(kind, number).draw(seed))
            if _asks_for_data(found):
                yield found


def _asks_for_data(found: Ask) -> bool:
    if len(found.words) != 2 or found.words[0] != b"ask":
        return False
    try:
        return isinstance(read_target(found.words[1]), Query)
    except Refused:
        return False


def replies(program: str, seed: str) -> Iterator[tuple[Ask, bytes]]:
    """The replies of data, each with what was asked, without end."""
    source = asks(seed)
    while True:
        some = [next(source) for _ in range(_AT_ONCE)]
        for found, ending in zip(some, endings(program, some)):
            if ending.status == 0:
                yield found, ending.output


def main() -> int:
    parser = argparse.ArgumentParser(description=__doc__, formatter_class=argparse.RawDescriptionHelpFormatter)
    parser.add_argument("--edr", required=True, help="the program edr")
    parser.add_argument("--seed", required=True)
    parser.add_argument("--count", type=int, default=5000, help="how many replies of data")
    words = parser.parse_args()
    bad = print_invalid(words.edr, words.seed, words.count)
    print(f"{words.count - bad} valid, {bad} aren't")
    return 1 if bad else 0


def print_invalid(program: str, seed: str, count_: int) -> int:
    """Prints which of so many replies of data aren't valid, and of what types all are; how many aren't valid."""
    feeds, types, bad = set(), Counter(), 0
    for number, (found, reply) in zip(range(count_), replies(program, seed)):
        feeds.add(found.input)
        types[reply[reply.rindex(b'"type":"') + 8 : -2].decode()] += 1
        types.update(name for name in _domain_types(reply))
        if faults := faults_of(reply):
            bad += 1
            print(f"reply {number} to {found.words[1]!r} of {found.input!r}:", *faults, sep="\n  ")
    print(f"{len(feeds)} feeds; " + ", ".join(f"{number} {name}" for name, number in types.most_common()))
    return bad


def _domain_types(reply: bytes) -> set[str]:
    """The domain types of a reply, each once."""
    return {piece[: piece.index(b'"')].decode() for piece in reply.split(b'"domainType":"')[1:]}
