"""Words of `fetch`, and what the peer gives."""

from dataclasses import dataclass

from plain.comparison.inputs.draws import Draw
from plain.comparison.inputs.large import long_document
from plain.comparison.inputs.replies import Script, large_reply_script, reply_script
from plain.comparison.inputs.urls import plain_url, url_text
from plain.profile import limits


@dataclass(frozen=True)
class Fetch:
    """What the program is started with, and what its peer gives. The words have the names of `inputs.urls` in them."""

    words: tuple[bytes, ...]
    script: Script
    length: int | None = None  # of the URL, which is filled up with letters


def fetch_input(draw: Draw) -> Fetch:
    """A URL, and a reply."""
    url = url_text(draw) if draw.chance(0.4) else plain_url(draw)
    words, length = (b"fetch", url), None
    if draw.chance(0.005):
        words = draw.pick((b"fetch",), (b"fetch", url, b""), (b"Fetch", url), (b"fetch", b""), (b"fetch", url, url), (b"--fetch", url))
    elif draw.chance(0.02):
        words, length = (b"fetch", plain_url(draw)), limits.URL_BYTES + draw.pick(-1, 0, 0, 1, 1)
    return Fetch(words, reply_script(draw), length)


def large_fetch_input(draw: Draw) -> Fetch:
    """A reply with a body of about as many bytes as may be."""
    return Fetch((b"fetch", plain_url(draw)), large_reply_script(draw, long_document(draw)))
