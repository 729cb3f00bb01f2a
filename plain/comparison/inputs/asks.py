"""Words and inputs of `ask`."""

from dataclasses import dataclass
from functools import lru_cache

from plain.comparison.inputs.draws import Draw, damaged_bytes
from plain.comparison.inputs.edition_feeds import edition_feed, many_levels_feed, many_points_feed
from plain.comparison.inputs.feed_lines import feed_text
from plain.comparison.inputs.queries import target_of_edition
from plain.comparison.inputs.targets import target_text
from plain.profile.feeds.lines import FeedFault, read_feed

_TARGET_MARKS = b"&=?/%+ .()0123456789cdoprstgi-:TZ"


@dataclass(frozen=True)
class Ask:
    """What the program is started with."""

    words: tuple[bytes, ...]
    input: bytes
    files: tuple[tuple[bytes, bytes], ...] = ()  # the names and contents of the files beside it


def ask_input(draw: Draw) -> Ask:
    """A target asked of the feed of the draw's group, or nearly so."""
    if draw.chance(0.002):
        feed, target = many_points_feed(draw)
        return Ask((b"ask", target), feed)
    feed = _feed_of_group(draw.group)
    target = _target(draw, feed).replace(b"\0", b"0")
    words = (b"ask", target)
    if draw.chance(0.005):
        words = draw.pick((b"ask",), (), (b"ask", target, b""), (b"Ask", target), (target,), (target, b"ask"), (b"ask", b""))
    return Ask(words, feed)


@lru_cache(maxsize=2)
def _feed_of_group(group: str) -> bytes:
    draw = Draw(group)
    return feed_text(draw) if draw.chance(0.03) else edition_feed(draw)


def large_ask_input(draw: Draw) -> Ask:
    """A target whose reply is about as large as it may be."""
    feed, target = draw.pick(many_levels_feed, many_points_feed)(draw)
    return Ask((b"ask", target), feed)


def _target(draw: Draw, feed: bytes) -> bytes:
    """A target of the last edition, or any target."""
    try:
        edition = read_feed(feed)[-1]
    except FeedFault:
        edition = {}
    if draw.chance(0.02):
        return target_text(draw)
    target = target_of_edition(draw, edition)
    return damaged_bytes(draw, target, _TARGET_MARKS) if draw.chance(0.03) else target
