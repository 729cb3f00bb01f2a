"""Rows of `ask` over grids, by what they are about; each module gives its rows."""

from plain.worked.grids import areas, editions, frames, large, levels, lines, pages, parameters, places, refusals, several, targets, times
from plain.worked.runs import Row


def rows() -> list[Row]:
    """All rows but the large ones."""
    found = refusals.rows() + targets.rows() + places.rows() + levels.rows() + several.rows() + times.rows()
    found += parameters.rows() + pages.rows() + editions.rows() + areas.rows() + frames.rows() + lines.rows()
    return [each.row() for each in found]


def large_rows() -> list[Row]:
    """Replies of 2,000,000 values and of 5,000 coverages, and of one more."""
    return [each.row() for each in large.rows()]
