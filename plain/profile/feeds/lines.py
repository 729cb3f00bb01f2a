"""Feeds: lines of JSON that change collections and publish editions."""

from functools import lru_cache

from plain.profile import limits
from plain.profile.coverage_json.read import CoverageFault, read_coverage
from plain.profile.feeds.collections import (
    AddCollection,
    Change,
    ChangeFault,
    Collection,
    Collections,
    DropCollection,
    DropInstance,
    DropStation,
    SetBare,
    SetGrid,
    SetStation,
)
from plain.profile.json_text import NotJson, read_json
from plain.profile.names import is_name

PUBLISH = "publish"  # the step of a line that publishes; all others are changes


class FeedFault(Exception):
    """The first fault of a feed: its name, the line, and the fault of its coverage or change."""

    def __init__(self, name: str, line: int | None = None, inner: Exception | None = None):
        super().__init__(name, line, inner)
        self.name = name
        self.line = line
        self.inner = inner


@lru_cache(maxsize=2)  # many targets are asked of one feed
def read_feed(feed: bytes) -> list[Collections]:
    """The editions of a feed; the first has the number 1. Raises FeedFault."""
    lines = feed.split(b"\n")
    draft: Collections = {}
    editions: list[Collections] = []
    length = 0
    for number, line in enumerate(lines, 1):
        # a line that doesn't end within the limit of a feed tells nothing
        length += len(line) + (number < len(lines))
        if length > limits.FEED_BYTES:
            raise FeedFault("TooLong")
        for step in _steps(line, number):
            if step is PUBLISH:
                editions.append(draft)
            else:
                draft = _changed(draft, step, number)
    if not editions:
        raise FeedFault("NothingPublished")
    return editions


def _changed(draft: Collections, change: Change, number: int) -> Collections:
    try:
        return change.changed(draft)
    except ChangeFault as fault:
        raise FeedFault("Change", number, fault) from None


def _steps(line: bytes, number: int) -> list:
    """What a line does: a change, a publish, both, or nothing."""
    if len(line) > limits.LINE_BYTES:
        raise FeedFault("LineTooLong", number)
    if not line.strip(b" \t\r"):
        return []
    try:
        return steps_of(read_json(line))
    except NotJson:
        raise FeedFault("NotJson", number) from None
    except NotFeedLine:
        raise FeedFault("NotFeedLine", number) from None
    except CoverageFault as fault:
        raise FeedFault("Cov", number, fault) from None


class NotFeedLine(Exception):
    """The tree has none of the forms of a line."""


def steps_of(tree) -> list:
    """What the tree of a line does. Raises NotFeedLine, or else CoverageFault."""
    if type(tree) is not dict:
        raise NotFeedLine
    if tree.get("type") == "Coverage":
        return [SetBare(read_coverage(tree)), PUBLISH]
    if len(tree) != 1:
        raise NotFeedLine
    [(form, inner)] = tree.items()
    if form not in _FORMS or type(inner) is not dict:
        raise NotFeedLine
    return [_FORMS[form](inner)]


def _has_members(inner: dict, needed: str, optional: str = "") -> None:
    keys = set(inner)
    if not set(needed.split()) <= keys <= set(needed.split() + optional.split()):
        raise NotFeedLine


def _name(tree) -> str:
    if not is_name(_text(tree)):
        raise NotFeedLine
    return tree


def _text(tree) -> str:
    if type(tree) is not str:
        raise NotFeedLine
    return tree


def _collection(inner: dict) -> AddCollection:
    _has_members(inner, "id kind title crs", "vertical")
    if inner["kind"] not in ("grid", "station"):
        raise NotFeedLine
    vertical = _text(inner["vertical"]) if "vertical" in inner else None
    id_, title, crs = _name(inner["id"]), _text(inner["title"]), _text(inner["crs"])
    return AddCollection(Collection(id_, inner["kind"], title, crs, vertical, {}, {}))


def _grid(inner: dict) -> SetGrid:
    _has_members(inner, "collection instance coverage")
    collection, instance = _name(inner["collection"]), _name(inner["instance"])
    return SetGrid(collection, instance, read_coverage(inner["coverage"]))


def _station(inner: dict) -> SetStation:
    _has_members(inner, "collection id label coverage")
    collection, id_, label = _name(inner["collection"]), _name(inner["id"]), _text(inner["label"])
    return SetStation(collection, id_, label, read_coverage(inner["coverage"]))


def _drop(inner: dict) -> DropCollection | DropInstance | DropStation:
    if "station" in inner:
        _has_members(inner, "collection station")
        return DropStation(_name(inner["collection"]), _name(inner["station"]))
    _has_members(inner, "collection", "instance")
    if "instance" in inner:
        return DropInstance(_name(inner["collection"]), _name(inner["instance"]))
    return DropCollection(_name(inner["collection"]))


def _publish(inner: dict) -> str:
    _has_members(inner, "")
    return PUBLISH


_FORMS = {"collection": _collection, "grid": _grid, "station": _station, "drop": _drop, "publish": _publish}
