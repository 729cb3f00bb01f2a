"""Tables of documents (the profile's section "Tables"): a line for each value of each range."""

from itertools import product
from typing import Iterator

from plain.profile.coverage_json.coverages import COMPOSITE, Coverage, Document, Domain
from plain.profile.times import write_instant

_ABSENT = "-"


def write_table(document: Document) -> str:
    """The lines of all coverages, one after the other."""
    return "".join(line for coverage in document.coverages for line in _lines(coverage))


def _lines(coverage: Coverage) -> Iterator[str]:
    for parameter, values in zip(coverage.parameters, coverage.ranges):
        for place, value in zip(places(coverage.domain), values):
            cells = [parameter.id, _time(place.get("t")), *(_number(place.get(name)) for name in "zyx"), _number(value)]
            yield "\t".join(cells) + "\n"


def places(domain: Domain) -> Iterator[dict[str, int]]:
    """The places of a domain, the last axis fastest: their coordinates, along axes and in tuples, by their names."""
    for values in product(*domain.axes.values()):
        place = dict(zip(domain.axes, values))
        place |= zip(domain.coordinates, place.pop(COMPOSITE, ()))
        yield place


def _time(time: int | None) -> str:
    return _ABSENT if time is None else write_instant(time)


def _number(number: int | None) -> str:
    return _ABSENT if number is None else str(number)
