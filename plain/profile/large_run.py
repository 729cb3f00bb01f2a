"""One large run: what the feed that is made of a number has, and what its edition answers to four targets."""

from plain.profile.answers.checks import checked_reply
from plain.profile.answers.chunks import needed_by
from plain.profile.feeds.collections import Collections
from plain.profile.feeds.lines import read_feed
from plain.profile.feeds.made import made_feed
from plain.profile.feeds.summaries import summary_line
from plain.profile.targets.read import read_target

TARGETS = (
    b"/collections/grid/cube?bbox=0,0,103900,47900",
    b"/collections/grid/position?coords=POINT(6400+6400)",
    b"/collections/sites/locations/s07",
    b"/collections/grid/corridor?coords=LINESTRING(0+0,103900+0)&corridor-width=0&width-units=m",
)


def work_text(number: int) -> str:
    """The summary of the edition, and the line of each target."""
    [edition] = read_feed(made_feed(number).encode("utf-8"))
    return summary_line(1, edition) + "".join(target_line(target, edition) for target in TARGETS)


def target_line(target: bytes, edition: Collections) -> str:
    """How many values the document of a target has, how many are present, their sum, and how many chunks are opened for it."""
    document = checked_reply(read_target(target), edition).document()
    values = [value for coverage in document.coverages for values in coverage.ranges for value in values]
    present = [value for value in values if value is not None]
    opened = len(needed_by(target, edition))
    return f"{target.decode('utf-8')}: values {len(values)}, present {len(present)}, sum {sum(present)}, opened {opened}\n"
