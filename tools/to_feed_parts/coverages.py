"""The coverage of one forecast run: its fields are read plane by plane and written into one line."""

from dataclasses import dataclass
from decimal import Decimal

import numpy

from . import lines
from .faults import READ, Fault, Refused
from .fields import Field
from .grids import FileGrid
from .levels import Levels, single_levels
from .lines import Spool
from .roles import text_of
from .samples import Packing, Scaler, unit_text
from .takings import Taking
from .timing import Run, Timing

VALUES_AT_ONCE = 1_000_000  # of the file's window, unless one plane of it has more


@dataclass(frozen=True)
class Layout:
    """A field with what stands along each of its dimensions, and how its values become whole numbers."""

    field: Field
    grid: FileGrid
    timing: Timing
    levels: Levels
    scaler: Scaler
    unit: str  # of the whole numbers


@dataclass(frozen=True)
class Plan:
    """What all runs of the file have in common: layouts that are alike, and the nodes that are taken."""

    layouts: list[Layout]
    taking: Taking
    code: int
    vertical: str | None


def label_of(field: Field) -> str:
    """The long name, with what the feed doesn't say elsewhere: a single level, and over what values are summed or meant."""
    attributes = field.attributes
    label = text_of(attributes, "long_name") or text_of(attributes, "standard_name") or field.name
    said = single_levels(field)
    methods = text_of(attributes, "cell_methods")
    step = text_of(attributes, "GRIB_stepType")
    said += [methods] if methods else [step] if step not in ("", "instant") else []
    return f"{label} ({', '.join(said)})" if said else label


def layout_of(field: Field, grid: FileGrid, timing: Timing, levels: Levels, scales: dict[str, Decimal]) -> Layout:
    step = scales.get(field.name, scales.get(field.id, scales.get("")))
    unit = text_of(field.attributes, "units")
    scaler = Scaler(field.id, unit, step, Packing.of(field.variable))
    return Layout(field, grid, timing, levels, scaler, unit_text(unit, step))


def check_alike(layouts: list[Layout]) -> None:
    """All parameters of a line have one grid, the same times and the same levels."""
    first = layouts[0]
    for layout in layouts[1:]:
        if not layout.grid.is_like(first.grid):
            raise Refused(_unlike(first.field, layout.field, "are on different grids"))
        if layout.timing.runs != first.timing.runs:
            raise Refused(_unlike(first.field, layout.field, "have different times"))
        if layout.levels.heights != first.levels.heights:
            raise Refused(_unlike(first.field, layout.field, "have different levels"))


def _unlike(first: Field, other: Field, how: str) -> str:
    return (
        f"{other.name}: it and {first.name} {how}, and all parameters of a collection have the same; "
        f"take them in two runs with --parameter {first.name} and --parameter {other.name}, into two collections"
    )


def write_run(plan: Plan, run: Run, collection: str, instance: str, spool: Spool, teller) -> None:
    """Writes the line that sets one run as an instance of the collection."""
    first = plan.layouts[0]
    spool.write(f'{{"grid":{{"collection":{lines.compact(collection)},"instance":{lines.compact(instance)},"coverage":')
    axes = plan.taking.x.tolist(), plan.taking.y.tolist(), first.levels.heights, run.times
    domain = lines.domain(*axes, plan.code, plan.vertical)
    parameters = {each.field.id: lines.parameter(label_of(each.field), each.unit) for each in plan.layouts}
    spool.write(f'{{"type":"Coverage","domain":{lines.compact(domain)},"parameters":{lines.compact(parameters)},"ranges":{{')
    for place, layout in enumerate(plan.layouts):
        spool.write(("," if place else "") + lines.compact(layout.field.id) + ":")
        _write_range(plan.taking, layout, run, instance, spool, teller)
    spool.write("}}}}")
    spool.end_line()


def _write_range(taking: Taking, layout: Layout, run: Run, instance: str, spool: Spool, teller) -> None:
    levels = layout.levels
    names = ["t", "z", "y", "x"] if levels.heights else ["t", "y", "x"]
    counts = {"t": len(run.times), "z": levels.count, "y": len(taking.y), "x": len(taking.x)}
    spool.write(lines.range_head(names, [counts[name] for name in names]))
    done, count = 0, len(run.times) * levels.count
    for times, heights in _blocks(run.places, levels.places or (0,), _planes_at_once(taking, layout)):
        teller.progress(f"{instance}: {layout.field.id}, {100 * done // count} %")
        planes = _read(taking, layout, run, times, heights)
        whole, missing = layout.scaler.whole(taking.of(planes), taking.outside)
        spool.write("," if done else "")
        for text in lines.value_texts(whole, missing):
            spool.write(text, layout.field.name)
        done += len(planes)
    spool.write("]}")


def _planes_at_once(taking: Taking, layout: Layout) -> int:
    """How many planes are read at once: of GRIB the whole plane is read, whatever the window."""
    rows, columns = taking.window
    read = (rows.stop - rows.start) * (columns.stop - columns.start)
    if "GRIB_gridType" in layout.field.attributes:
        read = len(layout.grid.x) * len(layout.grid.y)
    return max(1, VALUES_AT_ONCE // max(taking.nodes, read))


def _blocks(times, levels, most: int):
    """The planes in their order, in blocks that can be read at once: those of some times, or of some levels of one time."""
    if len(levels) == 1:
        for part in _parts(times, most):
            yield part, levels
    else:
        for time in times:
            for part in _parts(levels, most):
                yield (time,), part


def _parts(places, most: int):
    """Cuts places into parts that follow each other in the file, not too long."""
    start = 0
    for end in range(1, len(places) + 1):
        if end == len(places) or places[end] != places[end - 1] + 1 or end - start == most:
            yield places[start:end]
            start = end


def _read(taking: Taking, layout: Layout, run: Run, times, levels) -> numpy.ndarray:
    """The planes of some times and levels, as they stand in the file: an array of planes, rows and columns."""
    variable, grid, timing = layout.field.variable, layout.grid, layout.timing
    wanted = {each: 0 for each in variable.dims}
    wanted[grid.y_dimension], wanted[grid.x_dimension] = taking.window
    if timing.run_dimension:
        wanted[timing.run_dimension] = run.place
    order = [grid.y_dimension, grid.x_dimension]
    for dimension, places in ((layout.levels.dimension, levels), (timing.time_dimension, times)):
        if dimension:
            wanted[dimension] = slice(places[0], places[-1] + 1)
            order.insert(0, dimension)
    try:
        planes = variable.isel(wanted).transpose(*order).values
    except MemoryError:
        raise
    except Exception as error:  # whatever the libraries say of a damaged file
        raise Fault(READ, f"{layout.field.name}: reading it failed: {error}") from None
    return planes.reshape(-1, *planes.shape[-2:])
