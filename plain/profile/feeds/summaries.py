"""What is told of a feed: how many editions it has, and what each of them has."""

from plain.profile.feeds.collections import Collections


def count_line(editions: list[Collections]) -> str:
    """How many editions there are."""
    return f"ok: {len(editions)} editions\n"


def summary_line(number: int, collections: Collections) -> str:
    """What the edition of a number has."""
    coverages = [coverage for collection in collections.values() for coverage in collection.coverages()]
    samples = [value for coverage in coverages for values in coverage.ranges for value in values]
    present = [value for value in samples if value is not None]
    instances = sum(len(collection.instances) for collection in collections.values())
    stations = sum(len(collection.stations) for collection in collections.values())
    return (
        f"edition {number}: collections {len(collections)}, instances {instances}, stations {stations}, "
        f"samples {len(samples)}, present {len(present)}, sum {sum(present)}\n"
    )


def summary_lines(editions: list[Collections]) -> str:
    """What each edition has."""
    return "".join(summary_line(place + 1, collections) for place, collections in enumerate(editions))
