"""Which nodes of a file's grid the feed takes: all of them on whole metres, or the nearest one for each node of a new grid."""

from dataclasses import dataclass
from functools import lru_cache

import numpy
import pyproj

from . import limits
from .faults import Refused
from .grids import FileGrid

NODES_AT_ONCE = 500_000  # how many places are brought from one system to another at once
WHOLE = 0.51  # metres: how far a node may be moved to a whole metre
FINE = 1e-6  # of a step of an axis: how far outside its ends a place is still taken, since places are reckoned in floating numbers


@dataclass(frozen=True)
class Taking:
    """The axes of the feed in whole metres, ascending, and for each of its nodes the row and column of the file."""

    x: numpy.ndarray
    y: numpy.ndarray
    rows: numpy.ndarray  # within the window; of the shape (y, x) or (y, 1)
    columns: numpy.ndarray  # of the shape (y, x) or (1, x)
    window: tuple[slice, slice]  # the rows and the columns of the file that are read
    outside: numpy.ndarray | None  # the nodes that lie beyond the file's grid

    def of(self, planes: numpy.ndarray) -> numpy.ndarray:
        """The values of the feed's nodes from planes of the window."""
        return planes[:, self.rows, self.columns]

    @property
    def nodes(self) -> int:
        return len(self.x) * len(self.y)


def taking_of(name: str, grid: FileGrid, feed_system, asked, teller) -> Taking:
    """What the feed takes of a grid: as it is, or by --regrid."""
    if asked.regrid is None:
        return _as_it_is(name, grid, feed_system, asked.box, teller)
    return _regridded(name, grid, feed_system, asked.regrid, asked.box, teller)


@lru_cache(maxsize=8)
def _between(one, other):
    return pyproj.Transformer.from_crs(one, other, always_xy=True)


def _parts(count: int, across: int):
    """Cuts so many rows of a length into parts of not too many places."""
    height = max(1, NODES_AT_ONCE // max(1, across))
    return (slice(start, min(start + height, count)) for start in range(0, count, height))


def _placed(grid: FileGrid, feed_system, part: slice):
    """The x and y in the feed's system of the nodes of some rows; those that have no place there are infinite."""
    x, y = numpy.meshgrid(grid.x, grid.y[part])
    return _between(grid.system, feed_system).transform(x, y)


class _Extremes:
    """The least and the greatest x and y of each column and each row, over all rows that were added."""

    def __init__(self, rows: int, columns: int):
        self.x_low, self.x_high = numpy.full(columns, numpy.inf), numpy.full(columns, -numpy.inf)
        self.y_low, self.y_high = numpy.empty(rows), numpy.empty(rows)

    def add(self, part: slice, x: numpy.ndarray, y: numpy.ndarray) -> None:
        self.x_low = numpy.minimum(self.x_low, x.min(axis=0))
        self.x_high = numpy.maximum(self.x_high, x.max(axis=0))
        self.y_low[part], self.y_high[part] = y.min(axis=1), y.max(axis=1)

    def box(self) -> tuple[float, float, float, float]:
        return self.x_low.min(), self.y_low.min(), self.x_high.max(), self.y_high.max()


def _extremes(grid: FileGrid, feed_system) -> _Extremes:
    found = _Extremes(len(grid.y), len(grid.x))
    for part in _parts(len(grid.y), len(grid.x)):
        found.add(part, *_placed(grid, feed_system, part))
    return found


def _as_it_is(name: str, grid: FileGrid, feed_system, box, teller) -> Taking:
    """All nodes of the file in the box, where they stand in rows and columns of the feed's system."""
    found = _extremes(grid, feed_system)
    x, x_apart = _whole(found.x_low, found.x_high)
    y, y_apart = _whole(found.y_low, found.y_high)
    if not max(x_apart, y_apart) <= WHOLE:
        raise Refused(_not_in_rows(name, grid, feed_system))
    x, y = _checked_axis(name, "x", x), _checked_axis(name, "y", y)
    if max(x_apart, y_apart) > 0.001:
        teller.note(f"nodes were moved to whole metres, by at most {max(x_apart, y_apart):.2f} m along an axis")
    left, low, right, high = box or (x.min(), y.min(), x.max(), y.max())
    columns = _ordered(x, left, right)
    rows = _ordered(y, low, high)
    if not len(columns) or not len(rows):
        raise Refused(f"{name}: none of its nodes lies in --box; its grid is {x.min()},{y.min()},{x.max()},{y.max()}")
    return _taking(grid, x[columns], y[rows], rows[:, None], columns[None, :], None)


def _whole(low: numpy.ndarray, high: numpy.ndarray) -> tuple[numpy.ndarray, float]:
    """The whole metres in the middle of what each row or column spans, and how far its nodes lie from them at most."""
    middle = numpy.rint((low + high) / 2)
    apart = numpy.maximum(numpy.abs(low - middle), numpy.abs(high - middle))
    return middle, float(apart.max())


def _checked_axis(name: str, axis: str, values: numpy.ndarray) -> numpy.ndarray:
    if numpy.abs(values).max() > limits.COORDINATE:
        raise Refused(f"{name}: its {axis} goes beyond 100,000,000 metres, which a feed doesn't have; another --crs would help")
    steps = numpy.diff(values)
    if not (numpy.all(steps > 0) or numpy.all(steps < 0)):
        raise Refused(f"{name}: its nodes lie less than a metre apart along {axis}, and a feed has whole metres; --regrid METRES would take fewer")
    return values.astype(numpy.int64)


def _ordered(values: numpy.ndarray, low: int, high: int) -> numpy.ndarray:
    """The places of the values between two bounds, in ascending order of the values."""
    inside = numpy.flatnonzero((values >= low) & (values <= high))
    return inside[numpy.argsort(values[inside], kind="stable")]


def _not_in_rows(name: str, grid: FileGrid, feed_system) -> str:
    is_in = f"its grid is in `{_told(grid.system)}`" if not grid.in_degrees else "its grid is in longitudes and latitudes"
    step = _step(grid, feed_system)
    about = f"; nodes lie about {step:,} m apart, so --regrid {step}" if step else "; --regrid METRES"
    return (
        f"{name}: {is_in}, and its nodes don't stand in rows and columns of `{feed_system.name}`{about} "
        f"would take the nearest of them for each node of a new grid"
    )


def _told(system) -> str:
    """The name of a projected system, or else that of its projection."""
    return system.name if system.name not in ("unknown", "undefined") else system.coordinate_operation.method_name


def _step(grid: FileGrid, feed_system) -> int | None:
    """How far apart nodes in the middle of the grid lie, to two digits, or none where that can't be told."""
    middle = (len(grid.y) // 2, len(grid.x) // 2)
    if min(middle) < 1:
        return None
    rows, columns = [middle[0], middle[0], middle[0] - 1], [middle[1], middle[1] - 1, middle[1]]
    x, y = _between(grid.system, feed_system).transform(grid.x[columns], grid.y[rows])
    apart = float(numpy.hypot(x[1:] - x[0], y[1:] - y[0]).min())
    if not 1 <= apart < limits.COORDINATE:
        return None
    unit = 10 ** max(0, len(str(int(apart))) - 2)
    return int(apart // unit * unit)


def _taking(grid: FileGrid, x, y, rows, columns, outside) -> Taking:
    """A taking by places on the ascending axes of the grid, with the window of the file that has them all."""
    rows, columns = grid.y_order[rows], grid.x_order[columns]
    top, left = int(rows.min()), int(columns.min())
    window = slice(top, int(rows.max()) + 1), slice(left, int(columns.max()) + 1)
    return Taking(x, y, rows - top, columns - left, window, outside)


def _regridded(name: str, grid: FileGrid, feed_system, metres: int, box, teller) -> Taking:
    """The nearest node of the file for each node of a new grid."""
    x, y = _new_axes(name, metres, box or _whole_box(name, grid, feed_system))
    rows = numpy.empty((len(y), len(x)), dtype=numpy.int64)
    columns, outside = numpy.empty_like(rows), numpy.empty(rows.shape, dtype=bool)
    back = _between(feed_system, grid.system)
    furthest = 0.0
    for part in _parts(len(y), len(x)):
        teller.progress(f"new grid: row {part.start + 1} of {len(y)}")
        new_x, new_y = numpy.meshgrid(x.astype(float), y[part].astype(float))
        rows[part], columns[part], outside[part] = _nearest_nodes(grid, *back.transform(new_x, new_y))
        furthest = max(furthest, _furthest(grid, feed_system, rows[part], columns[part], outside[part], new_x, new_y))
    if outside.all():
        raise Refused(f"{name}: no node of the new grid lies within the file's grid; --box of another part would help, or a smaller --regrid")
    _note_losses(teller, grid, metres, rows, columns, outside, furthest)
    return _taking(grid, x, y, rows, columns, outside if outside.any() else None)


def _whole_box(name: str, grid: FileGrid, feed_system) -> tuple[float, float, float, float]:
    box = _extremes(grid, feed_system).box()
    if not numpy.all(numpy.isfinite(box)) or max(abs(side) for side in box) > limits.COORDINATE:
        raise Refused(
            f"{name}: parts of its grid have no place in `{feed_system.name}`; "
            f"--box MINX,MINY,MAXX,MAXY in metres would say which part to take"
        )
    return box


def _new_axes(name: str, metres: int, box) -> tuple[numpy.ndarray, numpy.ndarray]:
    left, low, right, high = box
    axes = []
    for first, last in ((left, right), (low, high)):
        start, stop = int(-(-first // metres)), int(last // metres)
        if stop < start:
            raise Refused(f"{name}: no whole multiple of {metres} m lies in its grid or --box; a smaller --regrid would help")
        axes.append(range(start * metres, stop * metres + 1, metres))
    if len(axes[0]) * len(axes[1]) > limits.NODES:
        raise Refused(
            f"{name}: the new grid would have {len(axes[0]):,} by {len(axes[1]):,} nodes, and a feed has {limits.NODES:,} at most; "
            f"a larger --regrid or a smaller --box would help"
        )
    x, y = (numpy.array(axis, dtype=numpy.int64) for axis in axes)
    if max(abs(int(value)) for axis in (x, y) for value in (axis[0], axis[-1])) > limits.COORDINATE:
        raise Refused("--box: a coordinate of a feed is at most 100,000,000 metres; a smaller box would help")
    return x, y


def nearest(axis: numpy.ndarray, wanted: numpy.ndarray) -> tuple[numpy.ndarray, numpy.ndarray]:
    """The places of the values of an ascending axis that are nearest, of two the lower; and what lies beyond its ends."""
    middles = (axis[:-1] + axis[1:]) / 2
    slack = FINE * (axis[-1] - axis[0]) / max(1, len(axis) - 1)
    beyond = ~((wanted >= axis[0] - slack) & (wanted <= axis[-1] + slack))
    return numpy.searchsorted(middles + slack, wanted, side="left"), beyond


def _nearest_nodes(grid: FileGrid, x: numpy.ndarray, y: numpy.ndarray):
    """For each place in the file's system the nearest row and column, and whether it lies beyond the grid."""
    rows, above = nearest(grid.y, y)
    axis = _around(grid.x) if grid.in_degrees else grid.x
    if grid.in_degrees:
        start = axis[0] - FINE
        x = start + numpy.mod(x - start, 360)
    columns, beside = nearest(axis, x)
    return rows, columns % len(grid.x), above | beside


def _around(longitudes: numpy.ndarray) -> numpy.ndarray:
    """Longitudes that go round the earth with their first one added at the end."""
    if len(longitudes) < 3:
        return longitudes
    gap = 360 - (longitudes[-1] - longitudes[0])
    closes = 0 < gap <= 1.01 * float(numpy.diff(longitudes).max())
    return numpy.append(longitudes, longitudes[0] + 360) if closes else longitudes


def _furthest(grid: FileGrid, feed_system, rows, columns, outside, x, y) -> float:
    """How far in metres the nodes of the file that are taken lie at most from those of the new grid."""
    inside = ~outside
    taken_x, taken_y = _between(grid.system, feed_system).transform(grid.x[columns[inside]], grid.y[rows[inside]])
    away = numpy.hypot(taken_x - x[inside], taken_y - y[inside])
    return float(away.max()) if away.size else 0.0


def _note_losses(teller, grid: FileGrid, metres: int, rows, columns, outside, furthest: float) -> None:
    inside = ~outside
    taken = len(numpy.unique(rows[inside] * len(grid.x) + columns[inside]))
    teller.note(
        f"a new grid of {rows.shape[1]} by {rows.shape[0]} nodes, {metres} m apart, each with the value of the nearest node of the file, "
        f"at most {furthest:,.0f} m away; it takes {taken:,} of the file's {len(grid.x) * len(grid.y):,} nodes"
    )
    if outside.any():
        teller.note(f"{int(outside.sum()):,} of its {outside.size:,} nodes lie beyond the file's grid and have no value")
