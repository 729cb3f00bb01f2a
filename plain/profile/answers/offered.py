"""Which queries the kinds of collections offer.

Position of stations, which is answered from the station nearest to the point, is no query of the profile. It is offered where the
environment has `PLAIN_NEAREST=1`, for a comparison with a product that offers it.
"""

import os

from plain.profile.targets.pages import Query

_OF_GRIDS = ("position", "radius", "area", "cube", "trajectory", "corridor")
_OF_STATIONS = ("radius", "area", "cube", "corridor", "location")


def nearest_is_offered() -> bool:
    """Whether the station nearest to a point is offered."""
    return os.environ.get("PLAIN_NEAREST") == "1"


def offer_nearest() -> None:
    """Offers it, here and in the programs that are started."""
    os.environ["PLAIN_NEAREST"] = "1"


def is_offered(query: Query, kind: str) -> bool:
    """Whether collections of a kind offer a query."""
    name = type(query.shape).__name__.lower()
    if kind == "grid":
        return name in _OF_GRIDS
    if query.instance is not None:
        return False
    if name == "position":
        return nearest_is_offered() and query.shape.geometry.tag == "POINT"
    return name in _OF_STATIONS
