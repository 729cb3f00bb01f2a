"""Stations: the lines of a feed about them, what is answered of them, and the form of a row."""

from dataclasses import dataclass, replace
from datetime import datetime, timedelta

from plain.worked.grids.texts import A, B, DEEP, FLAT, LEVEL, TIME, TZYX, AskRow, axes_of, bare_range, collected, range_along, steps, text, values
from plain.worked.runs import Row

PARAMETERS = {"a": A, "b": B}


def answered(output: str, *targets: str, feed: str) -> list[Row]:
    """Rows of one output."""
    return [Row(("ask", target), feed, 0, output) for target in targets]


def refused(number: int, *targets: str, feed: str) -> list[Row]:
    """Rows of one refusal."""
    return [AskRow(feed, target, refusal=number).row() for target in targets]


def by_nearest(without: list[Row], offered: list[Row]) -> list[Row]:
    """Rows that hold where position of stations isn't offered, and those where it is."""
    return [replace(row, nearest=False) for row in without] + [replace(row, nearest=True) for row in offered]


def moment(number: int) -> str:
    """The time so many hours behind the first one."""
    return (datetime(2024, 1, 1) + timedelta(hours=number)).strftime("%Y-%m-%dT%H:%M:%SZ")


def axis(numbers) -> str:
    """The axis of some levels in a reply."""
    is_even = len(numbers) > 2 and len({after - before for before, after in zip(numbers, numbers[1:])}) == 1
    return steps(numbers[0], numbers[-1], len(numbers)) if is_even else values(*numbers)


def listed_samples(samples) -> str:
    """Samples as JSON; None is a missing one."""
    return ",".join("null" if each is None else str(each) for each in samples)


def named(samples: dict) -> str:
    """The parameters of some ranges."""
    return ",".join(PARAMETERS[name] for name in samples)


@dataclass(frozen=True)
class Site:
    """A station: its id, its place, its times as hours, and its samples in the order t, z; its levels where it has some, and its label."""

    id: str
    x: int
    y: int
    times: list[int]
    samples: dict[str, list]
    levels: tuple[int, ...] = ()
    label: str = "Label"

    def coverage(self, kind: str = "") -> str:
        """Its coverage in a feed: where it has several levels a Grid, and else a PointSeries, unless a kind is given."""
        kind = kind or ("Grid" if len(self.levels) > 1 else "PointSeries")
        t, z = [moment(each) for each in self.times], list(self.levels)
        axes = f'"x":{values(self.x)},"y":{values(self.y)},"t":{values(*t)}' + (f',"z":{values(*z)}' if z else "")
        along = '"t"' if kind == "PointSeries" else TZYX if z else '"t","y","x"'
        shape = f"{len(t)}" if kind == "PointSeries" else f"{len(t)}," + (f"{len(z)},1,1" if z else "1,1")
        form = f'"type":"NdArray","dataType":"integer","axisNames":[{along}],"shape":[{shape}]'
        ranges = ",".join(f'"{name}":{{{form},"values":[{listed_samples(each)}]}}' for name, each in self.samples.items())
        domain = f'{{"type":"Domain","domainType":"{kind}","axes":{{{axes}}},"referencing":{DEEP if z else FLAT}}}'
        return f'{{"type":"Coverage","domain":{domain},"parameters":{{{named(self.samples)}}},"ranges":{{{ranges}}}}}'

    def line(self, collection: str = "sites", coverage: str = "") -> str:
        """The line that sets it."""
        return station_line(collection, self.id, self.label, coverage or self.coverage())

    def reply(self, times: list[int] | None = None, names: str = "", levels: tuple[int, ...] | None = None) -> str:
        """What is answered of it: some of its times, parameters and levels, without which all."""
        times, levels = self.times if times is None else times, self.levels if levels is None else levels
        numbers = {level: number for number, level in enumerate(self.levels or (0,))}
        places = [self.times.index(t) * len(numbers) + numbers[z] for t in times for z in levels or (0,)]
        taken = {name: [samples[place] for place in places] for name, samples in self.samples.items() if name in (names or "ab")}
        axes = axes_of(self.x, self.y, values(*map(moment, times)), axis(levels) if levels else "")
        return covered_site(self.id, axes, len(times), len(levels), taken, DEEP if levels else FLAT)


def covered_site(id_: str, axes: str, times: int, levels: int, taken: dict[str, list], referencing: str) -> str:
    """A coverage of a reply, by how many times and levels it has."""
    if levels < 2:
        kind, along, shape = ("Point", "", "") if times == 1 else ("PointSeries", TIME, f"{times}")
    else:
        kind, along, shape = ("VerticalProfile", LEVEL, f"{levels}") if times == 1 else ("Grid", TZYX, f"{times},{levels},1,1")
    listed = {name: listed_samples(samples) for name, samples in taken.items()}
    ranges = ",".join(f'"{name}":{range_along(along, shape, each) if along else bare_range(each)}' for name, each in listed.items())
    domain = f'{{"axes":{axes},"domainType":"{kind}","referencing":{referencing},"type":"Domain"}}'
    return f'{{"domain":{domain},"id":{text(id_)},"parameters":{{{named(taken)}}},"ranges":{{{ranges}}},"type":"Coverage"}}'


def station_line(collection: str, id_: str, label: str, coverage: str) -> str:
    """The line that sets a station."""
    return f'{{"station":{{"collection":{text(collection)},"id":{text(id_)},"label":{text(label)},"coverage":{coverage}}}}}'


def sites_line(id_: str = "sites", title: str = "Title", vertical: str | None = None, crs: str = "local") -> str:
    """The line that adds a collection of stations."""
    more = "" if vertical is None else f',"vertical":{text(vertical)}'
    return f'{{"collection":{{"id":{text(id_)},"kind":"station","title":{text(title)},"crs":{text(crs)}{more}}}}}'


def drop_line(id_: str, collection: str = "sites") -> str:
    """The line that drops a station."""
    return f'{{"drop":{{"collection":{text(collection)},"station":{text(id_)}}}}}'


def within(metres: int | str, point: str = "0 0", unit: str = "m") -> str:
    """The target of a disc."""
    return f"/collections/sites/radius?coords=POINT({point})&within={metres}&within-units={unit}"


def area(geometry: str) -> str:
    """The target of polygons."""
    return f"/collections/sites/area?coords={geometry}"


def cube(box: str) -> str:
    """The target of a box."""
    return f"/collections/sites/cube?bbox={box}"


def location(id_: str, more: str = "") -> str:
    """The target of one station, with a query text perhaps."""
    return f"/collections/sites/locations/{id_}" + (f"?{more}" if more else "")


def at(first: int, last: int | None = None) -> str:
    """The times of a query text: one hour, or all from one to another."""
    return f"datetime={moment(first)}" + (f"/{moment(last)}" if last is not None else "")


def all_of(sites: dict[str, Site], taken: dict[str, list[int] | None], names: str = "") -> str:
    """The collection of some stations, with the times of each; None is all of them."""
    return collected(*[sites[id_].reply(times, names) for id_, times in taken.items()])


def by_id(*sites: Site) -> dict[str, Site]:
    """Stations by their ids."""
    return {site.id: site for site in sites}
