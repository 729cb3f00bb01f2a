"""The kinds of inputs: how one is made, and what answers it."""

from dataclasses import dataclass
from typing import Callable

from plain.comparison import readers
from plain.comparison.inputs import large
from plain.comparison.inputs.asks import Ask, ask_input, large_ask_input
from plain.comparison.inputs.documents import document_text, shown_text
from plain.comparison.inputs.draws import Draw
from plain.comparison.inputs.feed_lines import feed_text
from plain.comparison.inputs.fetches import fetch_input, large_fetch_input
from plain.comparison.inputs.geometries import geometry_text
from plain.comparison.inputs.lines import line_input
from plain.comparison.inputs.sessions import replay_input
from plain.comparison.inputs.targets import target_text
from plain.comparison.inputs.texts import instant_text, levels_text, number_text, times_text

GROUP = 10  # so many inputs of `ask`, of `line` and of `replay` have one feed


@dataclass(frozen=True)
class Place:
    """An input, by its kind and number."""

    kind: str
    number: int

    def draw(self, seed: str) -> Draw:
        """The draw that the input is made with."""
        return Draw(f"{seed} {self.kind} {self.number}", group=f"{seed} {self.kind} group {self.number // GROUP}")


@dataclass(frozen=True)
class Reader:
    """A reader: how a text for it is made, what the plain program answers, and its mark in `edr_answers`."""

    make: Callable[[Draw], bytes]
    answer: Callable[[bytes], str]
    mark: str


def check_input(draw: Draw) -> Ask:
    """A feed, or nearly one, to be checked or summed up."""
    return Ask(draw.pick((b"check",), (b"check", b"--summary")), feed_text(draw))


def show_input(draw: Draw) -> Ask:
    """A document, or nearly one, whose table is asked for."""
    words = (b"show",) if draw.chance(0.995) else draw.pick((b"show", b""), (b"Show",), (b"show", b"show"), (b"show", b"--summary"))
    return Ask(words, shown_text(draw))


def large_show_input(draw: Draw) -> Ask:
    """A document of about as many bytes as may be shown."""
    return Ask((b"show",), large.long_document(draw))


# What the program is started with. Large kinds are slow, and are compared where they are asked for by name.
ASKS = {"ask": ask_input, "check": check_input, "line": line_input, "replay": replay_input, "show": show_input}
LARGE_ASKS = {"large-ask": large_ask_input, "large-show": large_show_input}
ALL_ASKS = ASKS | LARGE_ASKS

# What it is started with, and what its peer gives.
FETCHES = {"fetch": fetch_input}
LARGE_FETCHES = {"large-fetch": large_fetch_input}
ALL_FETCHES = FETCHES | LARGE_FETCHES

READERS = {
    "number": Reader(number_text, readers.number_answer, "n"),
    "instant": Reader(instant_text, readers.instant_answer, "i"),
    "times": Reader(times_text, readers.times_answer, "t"),
    "levels": Reader(levels_text, readers.levels_answer, "l"),
    "wkt": Reader(geometry_text, readers.geometry_answer, "w"),
    "document": Reader(document_text, readers.document_answer, "d"),
    "feed": Reader(feed_text, readers.feed_answer, "f"),
    "target": Reader(target_text, readers.target_answer, "q"),
}
LARGE_READERS = {
    "large-wkt": Reader(large.many_positions, readers.geometry_answer, "w"),
    "large-document": Reader(large.wide_document, readers.document_answer, "d"),
    "large-feed": Reader(large.large_feed, readers.feed_answer, "f"),
}
ALL_READERS = READERS | LARGE_READERS

USUAL = [*ASKS, *FETCHES, *READERS]
LARGE = [*LARGE_ASKS, *LARGE_FETCHES, *LARGE_READERS]


def answerable(kinds: list[str], edr: bool, answers: bool) -> list[str]:
    """Those of some kinds that `edr` and `edr_answers` can be asked, where they are there."""
    return [kind for kind in kinds if (answers if kind in ALL_READERS else edr)]
