"""Rows about stations, by what they are about; each module gives its rows."""

from plain.worked.runs import Row
from plain.worked.stations import blocks, feeds, levels, lines, pages, places


def rows() -> list[Row]:
    """All rows but the large ones, each once."""
    found = feeds.rows() + places.rows() + levels.rows() + lines.rows() + pages.rows() + blocks.rows()
    return list(dict.fromkeys(found))


def large_rows() -> list[Row]:
    """Stations of 4,000,000 values, lines at their limit, and replies of 2,000,000 values."""
    return list(dict.fromkeys(feeds.large_rows() + blocks.large_rows()))
