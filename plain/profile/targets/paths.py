"""The paths of targets."""

import re
from dataclasses import dataclass

from plain.profile.targets.pages import Description

QUERIES = ("position", "radius", "area", "cube", "trajectory", "corridor")

_ESCAPE = re.compile(rb"%([0-9A-Fa-f]{2})")


@dataclass(frozen=True)
class AskedQuery:
    """The query that a path names, and the ids in it."""

    query: str
    collection: str
    instance: str | None = None
    location: str | None = None


def decoded(text: bytes) -> bytes:
    """The text with each `%` and two hexadecimal digits as the byte that they stand for."""
    return _ESCAPE.sub(lambda found: bytes([int(found[1], 16)]), text)


def _path_parts(path: bytes) -> list[str] | None:
    """The decoded parts of a path; None where it doesn't begin with `/`, or a part is empty or no UTF-8."""
    front, *parts = path.split(b"/")
    if front or not parts:
        return None
    if not parts[-1]:
        parts.pop()
    if not all(parts):
        return None
    try:
        return [decoded(part).decode("utf-8") for part in parts]
    except UnicodeDecodeError:
        return None


def page_of_path(path: bytes) -> Description | AskedQuery | None:
    """What a path names, where it names a page."""
    match _path_parts(path):
        case []:
            return Description("Landing")
        case ["conformance"]:
            return Description("Conformance")
        case ["collections"]:
            return Description("Collections")
        case ["collections", collection]:
            return Description("Collection", (collection,))
        case ["collections", collection, "instances"]:
            return Description("Instances", (collection,))
        case ["collections", collection, "instances", instance]:
            return Description("Instance", (collection, instance))
        case ["collections", collection, "locations"]:
            return Description("Locations", (collection,))
        case ["collections", collection, "locations", location]:
            return AskedQuery("location", collection, location=location)
        case ["collections", collection, query] if query in QUERIES:
            return AskedQuery(query, collection)
        case ["collections", collection, "instances", instance, query] if query in QUERIES:
            return AskedQuery(query, collection, instance)
    return None
