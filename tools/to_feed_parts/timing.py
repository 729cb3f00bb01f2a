"""The times of a field: its forecast runs, each an instance of the feed, and the times of each."""

from dataclasses import dataclass
from fractions import Fraction

import numpy

from . import roles
from .faults import Refused
from .fields import Field
from .instants import Clock, duration, whole_seconds, written
from .roles import text_of


@dataclass(frozen=True)
class Run:
    """One forecast run: where it stands along the dimension of runs, its times, and where these stand in the file."""

    reference: int | None  # its reference time
    place: int | None
    times: tuple[int, ...]  # ascending
    places: tuple[int, ...]


@dataclass(frozen=True)
class Timing:
    """The runs of a field, and the dimensions along which runs and times stand, where they stand along one."""

    run_dimension: str | None
    time_dimension: str | None
    runs: tuple[Run, ...]


def timing_of(field: Field, given: int | None, kept: tuple[int, int] | None) -> Timing:
    """The runs of a field with their times, of which those between two instants are kept."""
    run_dimension = field.dimension_of(roles.REFERENCE)
    time_dimension = field.dimension_of(roles.TIME, roles.LEAD)
    if run_dimension and not time_dimension:
        run_dimension, time_dimension = None, run_dimension
    places = range(field.variable.sizes[run_dimension]) if run_dimension else [None]
    runs = [_run(field, run_dimension, time_dimension, place, given) for place in places]
    kept_runs = tuple(_between(run, kept) for run in runs)
    _check_any(field, kept_runs)
    return Timing(run_dimension, time_dimension, tuple(run for run in kept_runs if run.times))


def _check_any(field: Field, runs: tuple[Run, ...]) -> None:
    if not any(run.times for run in runs):
        raise Refused(f"{field.name}: none of its times lies within --times")


def _between(run: Run, kept: tuple[int, int] | None) -> Run:
    low, high = kept or (min(run.times), max(run.times))
    pairs = [(time, place) for time, place in zip(run.times, run.places) if low <= time <= high]
    return Run(run.reference, run.place, tuple(time for time, _ in pairs), tuple(place for _, place in pairs))


def _run(field: Field, run_dimension, time_dimension, place, given: int | None) -> Run:
    references = _references(field, run_dimension, time_dimension)
    reference = references[place or 0] if references else None
    times = _times(field, run_dimension, time_dimension, place, reference)
    if times is None:
        times = _given(field, given)
    elif given is not None:
        raise Refused(f"{field.name}: it has times of its own in the file; leave out --time")
    pairs = sorted(zip(times, range(len(times))))
    _check_distinct(field, [time for time, _ in pairs])
    return Run(reference, place, tuple(time for time, _ in pairs), tuple(each for _, each in pairs))


def _given(field: Field, given: int | None) -> list[int]:
    if given is None:
        raise Refused(
            f"{field.name}: it has no time axis (a coordinate with units such as `hours since 2024-06-01`); "
            f"--time 2024-01-01T00:00:00Z would give it one time"
        )
    return [given]


def _check_distinct(field: Field, times: list[int]) -> None:
    for first, second in zip(times, times[1:]):
        if first == second:
            raise Refused(
                f"{field.name}: the time {written(first)} stands twice in the file, and a feed has each once; "
                f"take one of the two out of the file first"
            )


def _clock(field: Field, name: str) -> Clock:
    attributes = field.coordinates[name].attrs
    return Clock(name, text_of(attributes, "units"), text_of(attributes, "calendar"))


def _instants(field: Field, name: str, values) -> list[int]:
    return _clock(field, name).instants(numpy.atleast_1d(values).ravel().tolist())


def _references(field: Field, run_dimension, time_dimension) -> list[int]:
    """The reference times along the dimension of runs, or the only one, or none."""
    for name in field.named(roles.REFERENCE):
        dimensions = field.coordinates[name].dims
        if dimensions == ((run_dimension,) if run_dimension else ()):
            return _instants(field, name, field.values(name))
    return []


def _times(field: Field, run_dimension, time_dimension, place, reference) -> list[int] | None:
    """The times of a run: as the file has them, or else its reference time with the lead times."""
    wanted = tuple(each for each in field.variable.dims if each in (run_dimension, time_dimension))
    for name in sorted(field.named(roles.TIME), key=lambda each: -len(field.coordinates[each].dims)):
        held = field.coordinates[name]
        if (time_dimension is None or time_dimension in held.dims) and set(held.dims) <= set(wanted):
            return _instants(field, name, held.isel({run_dimension: place}) if run_dimension in held.dims else held.values)
    return _led(field, time_dimension, reference)


def _led(field: Field, time_dimension, reference) -> list[int] | None:
    """Reference times with lead times, of which one of the two may be single. A single reference time alone tells no time."""
    if time_dimension is None and not field.named(roles.LEAD):
        return None
    references = [reference] if reference is not None else _along(field, roles.REFERENCE, time_dimension)
    if references is None:
        return None
    leads = _leads(field, time_dimension)
    if len(references) > 1 and len(leads) == 1:
        return [whole_seconds(field.name, each, Fraction(start) + leads[0]) for each, start in enumerate(references)]
    return [whole_seconds(field.name, each, Fraction(references[0]) + lead) for each, lead in enumerate(leads)]


def _along(field: Field, role: str, dimension) -> list[int] | None:
    for name in field.named(role):
        if field.coordinates[name].dims == ((dimension,) if dimension else ()):
            return _instants(field, name, field.values(name))
    return None


def _leads(field: Field, time_dimension) -> list[Fraction]:
    """The lead times in seconds; without any, a single one of nothing."""
    for name in field.named(roles.LEAD):
        held = field.coordinates[name]
        if held.dims in ((), (time_dimension,)):
            return _durations(name, held)
    return [Fraction(0)]


def _durations(name: str, held) -> list[Fraction]:
    unit = duration(text_of(held.attrs, "units"))
    if unit is None:
        raise Refused(
            f"{name}: its unit is `{text_of(held.attrs, 'units')}`, which isn't a fixed number of seconds; "
            f"write the lead times in hours, minutes or seconds first"
        )
    numbers = numpy.atleast_1d(numpy.asarray(held.values)).tolist()
    if any(number != number for number in numbers):
        raise Refused(f"{name}: one of its lead times is missing, and each time of a feed has a value")
    return [Fraction(number) * unit for number in numbers]


def has_time(field: Field) -> bool:
    """Whether a field has times; a single reference time of the file isn't one."""
    along = field.dimension_of(roles.TIME, roles.LEAD, roles.REFERENCE)
    return bool(along or field.named(roles.TIME) or field.named(roles.LEAD))


def interval_note(field: Field) -> str | None:
    """What is said of times that stand for intervals."""
    for name in field.named(roles.TIME):
        bounds = field.dataset.variables.get(text_of(field.coordinates[name].attrs, "bounds"))
        if bounds is not None:
            part = _part_of_interval(field.values(name), numpy.asarray(bounds.values))
            return f"{name}: each time of the file stands for an interval; the feed has {part} alone"
    step = text_of(field.attributes, "GRIB_stepType")
    if step and step != "instant":
        return f"{field.id}: its values are over intervals ({step}); the feed has the end of each alone"
    return None


def _part_of_interval(times, bounds) -> str:
    """Which part of its interval each time is."""
    if bounds.ndim and bounds.shape[-1] == 2 and bounds.shape[:-1] == times.shape:
        if numpy.array_equal(bounds[..., 1], times):
            return "its end"
        if numpy.array_equal(bounds[..., 0], times):
            return "its start"
    return "a time within it"
