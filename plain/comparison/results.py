"""What the plain program and the built ones answer to some inputs."""

import re
from dataclasses import dataclass, replace

from plain.comparison.inputs.asks import Ask
from plain.comparison.inputs.fetches import Fetch
from plain.comparison.kinds import ALL_ASKS, ALL_FETCHES, ALL_READERS, Place, Reader
from plain.comparison.peers import Peer
from plain.comparison.programs import endings, reader_answers
from plain.comparison.tried import tried_endings
from plain.profile.commands import Ending, held_files, run


@dataclass(frozen=True)
class Settings:
    """What all inputs of a comparison share. Where there is no program `edr`, `rt try` runs its crate."""

    seed: str
    edr: str | None
    answers: str | None


@dataclass(frozen=True)
class Result:
    """What the two programs answer to an input; the program's answer is None where it couldn't be asked."""

    place: Place
    input: str
    plain: str
    program: str | None
    word: str  # the kind of the plain answer

    def differs(self) -> bool:
        """Whether the two answers differ."""
        return self.program is not None and self.program != self.plain

    def shortened(self) -> "Result":
        """The result without its texts, where the answers agree."""
        return self if self.differs() else replace(self, input="", plain="", program=self.program and "")


def compare(settings: Settings, places: list[Place]) -> list[Result]:
    """Compares some inputs."""
    asks = [place for place in places if place.kind in ALL_ASKS]
    fetches = [place for place in places if place.kind in ALL_FETCHES]
    reads = [place for place in places if place.kind in ALL_READERS]
    results = _compare_asks(settings, asks) if asks else []
    results += _compare_fetches(settings, fetches) if fetches else []
    results += _compare_reads(settings, reads) if reads else []
    return [result.shortened() for result in results]


# What the program is started with


def _compare_asks(settings: Settings, places: list[Place]) -> list[Result]:
    asks = [ALL_ASKS[place.kind](place.draw(settings.seed)) for place in places]
    found = endings(settings.edr, asks) if settings.edr else tried_endings(asks)
    return [_ask_result(place, ask, ending) for place, ask, ending in zip(places, asks, found)]


def _ask_result(place: Place, ask: Ask, ending: Ending | None) -> Result:
    plain = run(list(ask.words), lambda: ask.input, held_files(dict(ask.files)))
    return Result(place, repr(ask), repr(plain), ending and repr(ending), _word(plain))


def _word(ending: Ending) -> str:
    return f"{ending.status} {ending.errors[:40].decode(errors='replace').strip()}" if ending.status else "0 " + _kind_of_output(ending)


def _kind_of_output(ending: Ending) -> str:
    """The type of a document and its domains, or the statuses of replies and whether the last one closes, or `table`, or `text`."""
    statuses = sorted(set(re.findall(rb"^HTTP/1\.1 ([0-9]{3}) ", ending.output, flags=re.MULTILINE)))
    if statuses or not ending.output:
        closes = b"\r\nConnection: close\r\n" in ending.output
        return b" ".join(statuses).decode() + (" closed" if closes else "")
    domain = re.search(rb'"domainType":"([A-Za-z]+)"', ending.output)
    if domain is None:
        return "table" if b"\t" in ending.output else "text"
    return ("several " if ending.output.endswith(b'"type":"CoverageCollection"}') else "") + domain[1].decode()


# What it is started with, and what its peer gives


def _compare_fetches(settings: Settings, places: list[Place]) -> list[Result]:
    peer = Peer()
    try:
        return [_fetch_result(settings, peer, place, ALL_FETCHES[place.kind](place.draw(settings.seed))) for place in places]
    finally:
        peer.close()


def _fetch_result(settings: Settings, peer: Peer, place: Place, fetch: Fetch) -> Result:
    """How both end with the peer, and what they ask it."""
    words = (*fetch.words[:1], *(peer.filled(word, fetch.length) for word in fetch.words[1:]))
    if len(words) == 2 and not peer.is_near(words[1]):
        words = (words[0], peer.filled(b"http://127.0.0.1:<port>/"))
    plain = peer.during(fetch.script, lambda: run(list(words), lambda: b"", held_files({})))
    found = peer.during(fetch.script, lambda: endings(settings.edr, [Ask(words, b"")])[0]) if settings.edr else None
    return Result(place, f"{words!r} {fetch.script!r}", repr(plain), found and repr(found), _word(plain[0]))


# Readers


def _compare_reads(settings: Settings, places: list[Place]) -> list[Result]:
    readers = [ALL_READERS[place.kind] for place in places]
    texts = [reader.make(place.draw(settings.seed)) for reader, place in zip(readers, places)]
    found = reader_answers(settings.answers, [(reader.mark, text) for reader, text in zip(readers, texts)])
    return [_read_result(*parts) for parts in zip(places, readers, texts, found)]


def _read_result(place: Place, reader: Reader, text: bytes, answer: bytes) -> Result:
    plain = reader.answer(text)
    return Result(place, repr(text), repr(plain.encode("utf-8")), repr(answer), _first_word(plain))


def _first_word(answer: str) -> str:
    word = re.split(r"[{ (]", answer)[0]
    if word.lstrip("-").isdigit():
        return "a time"
    return word or "a document"
