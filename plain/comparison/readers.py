"""What the readers answer, in the plain notation that `edr_answers` has too."""

from plain.profile.answers.chunks import BLOCK
from plain.profile.coverage_json.read import CoverageFault, read_document
from plain.profile.coverage_json.written import write_document
from plain.profile.feeds.collections import Collection, Collections, Station
from plain.profile.feeds.lines import FeedFault, read_feed
from plain.profile.levels import At, Between, Levels, Listed, Series, read_levels
from plain.profile.limits import COORDINATE
from plain.profile.refusals import NUMBERS, Refused
from plain.profile.targets.pages import Area, Corridor, Cube, Description, Location, Position, Query, Radius, Shape, Trajectory
from plain.profile.targets.read import read_target
from plain.profile.times import Times, read_instant, read_times, write_instant
from plain.profile.well_known_text import WktFault, read_wkt, write_wkt
from plain.profile.whole_numbers import NotWhole, TooLarge, whole_number


def number_answer(text: bytes) -> str:
    """What is read as a whole number of a size up to 100,000,000."""
    try:
        return f"Value({whole_number(text, COORDINATE)})"
    except NotWhole:
        return "NotWhole"
    except TooLarge:
        return "TooLarge"


def instant_answer(text: bytes) -> str:
    """The time, and its written form."""
    time = read_instant(text)
    return "None" if time is None else f"{time} {write_instant(time)}"


def _has_around(has, *numbers: int) -> str:
    """Whether there are the number before, the number itself and the one after, for each of some numbers."""
    return "".join("1" if has(near) else "0" for number in numbers for near in (number - 1, number, number + 1))


def times_answer(text: bytes) -> str:
    """The times of a request, and whether they have those round their ends."""
    times = read_times(text)
    return "None" if times is None else _times_with_ends(times)


def _times_with_ends(times: Times) -> str:
    return f"{_times_notation(times)} {_has_around(times.has, *_ends(times))}"


def _times_notation(times: Times) -> str:
    if times.single:
        return f"At({times.first})"
    if times.first is None and times.last is None:
        return "All"
    return f"Between({_optional(times.first)}, {_optional(times.last)})"


def _optional(number: int | None) -> str:
    return "None" if number is None else f"Some({number})"


def _ends(times: Times) -> list[int]:
    if times.single:
        return [times.first]
    if times.first is None and times.last is None:
        return [0]
    return [times.first or 0, times.last or 0]


def levels_answer(text: bytes) -> str:
    """The levels of a request, and whether they have those round each of them."""
    levels = read_levels(text)
    return "NotLevels" if levels is None else _levels_notation(levels)


def _levels_notation(levels: Levels) -> str:
    match levels:
        case At(level):
            return f"At {level} {_has_around(levels.has, level)}"
        case Between(least, greatest):
            return f"Between {least} {greatest} {_has_around(levels.has, least, greatest)}"
        case Listed(listed):
            return "List " + "".join(f"{level} {_has_around(levels.has, level)} " for level in listed)
        case Series(count, first, step):
            return f"Series {count} {first} {step} {_has_around(levels.has, first, first + step, levels.last())}"


def geometry_answer(text: bytes) -> str:
    """The written form of a geometry, or its fault."""
    try:
        return write_wkt(read_wkt(text))
    except WktFault as fault:
        return str(fault)


def document_answer(text: bytes) -> str:
    """The written form of a document, or its fault."""
    try:
        return write_document(read_document(text))
    except CoverageFault as fault:
        return str(fault)


def feed_answer(text: bytes) -> str:
    """The editions of a feed, or its fault."""
    try:
        editions = read_feed(text)
    except FeedFault as fault:
        return _feed_fault_notation(fault)
    return "".join(_edition_notation(number, edition) for number, edition in enumerate(editions, 1))


def _feed_fault_notation(fault: FeedFault) -> str:
    name = fault.name if fault.line is None else f"{fault.name}({fault.line})"
    return name if fault.inner is None else f"{name} {fault.inner}"


def _edition_notation(number: int, edition: Collections) -> str:
    collections = [edition[id_] for id_ in sorted(edition)]
    return f"edition {number}" + "".join(map(_collection_notation, collections)) + "\n"


def _collection_notation(collection: Collection) -> str:
    head = f"\n collection {collection.id}: {collection.title}; {collection.crs}; {_or_dash(collection.vertical)}; "
    for parameter in collection.parameters():
        head += f"{parameter.id},{parameter.language},{parameter.label},{_or_dash(parameter.unit)}; "
    head += "".join(_instance_notation(id_, collection.instances[id_]) for id_ in sorted(collection.instances))
    return head + _stations_notation(collection) if collection.kind == "station" else head


def _stations_notation(collection: Collection) -> str:
    """The stations, and then their samples, block by block."""
    stations = [(id_, collection.stations[id_]) for id_ in sorted(collection.stations)]
    text = "".join(_station_notation(id_, station) for id_, station in stations) + "\n  blocks: "
    for _, station in stations:
        for values in station.coverage.ranges:
            text += "".join(_numbers(values[first : first + BLOCK]) + "; " for first in range(0, len(values), BLOCK))
    return text


def _station_notation(id_: str, station: Station) -> str:
    axes = station.coverage.domain.axes
    text = f"\n  station {id_}: {station.label}; {_numbers(station.spot())}; "
    for name in ("t", "z"):
        text += _numbers(axes[name]) + "; " if name in axes else "- ; "
    return text


def _or_dash(text: str | None) -> str:
    return "-" if text is None else text


def _instance_notation(id_: str, grid) -> str:
    axes = grid.domain.axes
    text = f"\n  instance {id_}: "
    for name in ("t", "z", "y", "x"):
        text += _numbers(axes[name]) + "; " if name in axes else "- ; "
    return text + "".join(_numbers(values) for values in grid.ranges)


def _numbers(numbers) -> str:
    return "".join("- " if number is None else f"{number} " for number in numbers)


def target_answer(text: bytes) -> str:
    """The page of a target, or the number of its refusal."""
    try:
        page = read_target(text)
    except Refused as refused:
        return f"refused {NUMBERS[refused.name]}"
    return _description_notation(page) if isinstance(page, Description) else _query_notation(page)


def _description_notation(page: Description) -> str:
    return f"{page.name}({','.join(page.ids)})" if page.ids else page.name


def _query_notation(query: Query) -> str:
    parts = [
        f"Ask ({query.collection})",
        _bracketed_or_dash(query.instance),
        _shape_notation(query.shape),
        "-" if query.times is None else _times_with_ends(query.times),
        "-" if query.levels is None else _levels_notation(query.levels),
        "-" if query.parameters is None else "".join(map(_bracketed_or_dash, query.parameters)),
        _bracketed_or_dash(query.crs),
    ]
    return "; ".join(parts)


def _bracketed_or_dash(text: str | None) -> str:
    return "-" if text is None else f"({text})"


def _shape_notation(shape: Shape) -> str:
    match shape:
        case Position(geometry):
            return f"Position({write_wkt(geometry)})"
        case Radius(geometry, within):
            return f"Radius({write_wkt(geometry)},{within})"
        case Area(geometry):
            return f"Area({write_wkt(geometry)})"
        case Cube(least, greatest, levels):
            return f"Cube({','.join(map(str, least + greatest + (levels or ())))})"
        case Trajectory(geometry):
            return f"Trajectory({write_wkt(geometry)})"
        case Corridor(geometry, width, height):
            return f"Corridor({write_wkt(geometry)},{width},{'-' if height is None else height})"
        case Location(id_):
            return f"Location({id_})"
