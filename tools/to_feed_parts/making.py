"""Makes the feed: the fields of the file are laid out, and a line is written for each forecast run."""

import numpy

from . import fields, grids, levels, limits, lines, sources, systems, takings, timing
from .coverages import Layout, Plan, check_alike, layout_of, write_run
from .faults import Refused
from .instants import written
from .lines import Spool
from .roles import text_of
from .telling import Teller


def make_feed(asked, teller: Teller) -> None:
    """Writes the feed that is asked for, whole or not at all."""
    teller.progress(f"opening {asked.file}")
    datasets = sources.open_sources(asked.file)
    with numpy.errstate(all="ignore"):
        _write(datasets, asked, teller)


def _write(datasets: list, asked, teller: Teller) -> None:
    plan = _plan(datasets, asked, teller)
    runs = plan.layouts[0].timing.runs
    _check_ids(runs, asked)
    spool = Spool(asked.output)
    try:
        if not asked.no_collection:
            title = asked.title if asked.title is not None else text_of(datasets[0].attrs, "title") or asked.collection
            spool.write(lines.collection_line(asked.collection, title, asked.crs, asked.vertical))
            spool.end_line()
        for each in runs:
            write_run(plan, each, asked.collection, _instance(each, asked, teller), spool, teller)
        spool.write('{"publish":{}}')
        spool.end_line()
        spool.hand_over()
    finally:
        spool.close()
    for layout in plan.layouts:
        for text in layout.scaler.losses.notes(layout.field.id, layout.scaler.step, text_of(layout.field.attributes, "units")):
            teller.note(text)


def _plan(datasets: list, asked, teller: Teller) -> Plan:
    """The layouts of all fields that are taken, and the nodes that are taken of their grid."""
    system = systems.feed_system(asked.crs)
    found = fields.fields_of(fields.taken_at(datasets, asked.at))
    _check_scales(found, asked)
    layouts = _layouts(fields.chosen(found, asked.parameter), asked, teller)
    check_alike(layouts)
    first = layouts[0]
    taking = takings.taking_of(first.field.name, first.grid, system, asked, teller)
    _check_nodes(first, taking)
    _check_names(layouts)
    return Plan(layouts, taking, asked.crs, asked.vertical)


def _layouts(chosen: list, asked, teller: Teller) -> list[Layout]:
    """A layout of each field. Where no field was named, those without a grid or a time are passed over, unless all are."""
    gridded = [(field, grids.grid_of(field, asked.file_crs)) for field in chosen]
    for field in [field for field, grid in gridded if grid is None]:
        if asked.parameter:
            raise Refused(f"{field.name}: it has no axes of longitude and latitude, nor x and y in metres; another --parameter would help")
        teller.note(f"{field.name}: it isn't on a grid, and is passed over")
    gridded = [(field, grid) for field, grid in gridded if grid is not None]
    if not gridded:
        raise Refused(f"{asked.file}: it has no variable on a grid of longitude and latitude, or of x and y in metres, with such axes by the CF conventions")
    layouts = [_layout(field, grid, asked, teller, len(gridded) > 1 and not asked.parameter) for field, grid in gridded]
    if not any(layouts):
        layouts = [_layout(*gridded[0], asked, teller, False)]
    return [layout for layout in layouts if layout]


def _layout(field, grid, asked, teller: Teller, may_pass: bool) -> Layout | None:
    """The layout of a field, or none where it has no time and may be passed over."""
    if may_pass and asked.time is None and not timing.has_time(field):
        teller.note(f"{field.name}: it has no time axis, and is passed over")
        return None
    for dimension, size in field.variable.sizes.items():
        if size == 0:
            raise Refused(f"{field.name}: it has no values along `{dimension}`; a file that has some would help, or another --parameter")
    held = timing.timing_of(field, asked.time, asked.times)
    known = {grid.x_dimension, grid.y_dimension, held.run_dimension, held.time_dimension}
    heights = levels.levels_of(field, known, teller)
    interval = timing.interval_note(field)
    if interval:
        teller.note(interval)
    return layout_of(field, grid, held, heights, asked.scale)


def _check_scales(found: list, asked) -> None:
    known = {field.name for field in found} | set(asked.parameter.values())
    for name in asked.scale:
        if name and name not in known:
            raise Refused(f"--scale {name}: the file has no variable `{name}` on a grid; it has {', '.join(sorted(known)) or 'none at all'}")


def _check_names(layouts: list[Layout]) -> None:
    for layout in layouts:
        if not limits.is_name(layout.field.id):
            raise Refused(f"{layout.field.name}: its name can't be the id of a parameter; --parameter NAME=ID would give another")


def _check_nodes(first: Layout, taking) -> None:
    times = max(len(run.times) for run in first.timing.runs)
    nodes = taking.nodes * times * first.levels.count
    if nodes > limits.NODES:
        upright = f"{first.levels.count} levels, " if first.levels.heights else ""
        raise Refused(
            f"{first.field.name}: it has {nodes:,} values for a forecast run ({times} times, {upright}"
            f"{len(taking.y):,} rows, {len(taking.x):,} columns), and a feed takes {limits.NODES:,} at most; "
            f"fewer times (--times), a smaller --box or a larger --regrid would help"
        )


def _check_ids(runs, asked) -> None:
    if asked.instance is not None and len(runs) > 1:
        raise Refused(
            f"--instance: the file has {len(runs)} forecast runs, and each needs an id of its own; "
            f"leave it out, and each has its reference time, or take one run by --at"
        )


def _instance(run, asked, teller: Teller) -> str:
    if asked.instance is not None:
        return asked.instance
    if run.reference is None:
        teller.note(f"the file tells no reference time; the instance has its first time as id, {written(run.times[0])}")
        return written(run.times[0])
    return written(run.reference)
