"""The fields of a file: its variables on a grid, with what stands along each of their dimensions."""

from dataclasses import dataclass, replace

import numpy

from . import roles
from .faults import Refused
from .instants import Clock, read, written
from .roles import role_of, text_of

_BESIDE = ("coordinates", "bounds", "climatology", "grid_mapping", "cell_measures")


@dataclass(frozen=True)
class Field:
    """A variable of a data set. Its id is that of the parameter in the feed."""

    name: str
    id: str
    variable: object  # the data array, not yet read
    coordinates: dict  # the coordinates that it has, by their names
    dataset: object

    @property
    def attributes(self) -> dict:
        return self.variable.attrs

    def along(self, dimension: str) -> str | None:
        """The name of the coordinate along a dimension: that of its own name, else another of this dimension alone."""
        if dimension in self.coordinates and self.coordinates[dimension].dims == (dimension,):
            return dimension
        found = [name for name, held in self.coordinates.items() if held.dims == (dimension,)]
        return found[0] if found else None

    def role(self, dimension: str) -> str:
        name = self.along(dimension)
        return role_of(name, self.coordinates[name].attrs) if name else roles.OTHER

    def dimension_of(self, *wanted: str) -> str | None:
        """The first dimension with one of the roles."""
        return next((each for each in self.variable.dims if self.role(each) in wanted), None)

    def named(self, role: str) -> list[str]:
        """The coordinates of a role, whatever dimensions they have."""
        return [name for name, held in self.coordinates.items() if role_of(name, held.attrs) == role]

    def values(self, name: str) -> numpy.ndarray:
        """The values of a coordinate."""
        return numpy.asarray(self.coordinates[name].values)


def _coordinates(dataset, name: str) -> dict:
    """Those of the variable's dimensions, those it lists, and single times of the data set, which files often don't list."""
    variable = dataset[name]
    listed = text_of(variable.attrs, "coordinates").split() + text_of(dataset.attrs, "coordinates").split()
    names = [*variable.dims, *listed, *variable.coords]
    names += [each for each, held in dataset.variables.items() if not held.dims and _tells_time(each, held)]
    held = {each: dataset.variables[each] for each in names if each in dataset.variables and each != name}
    return {each: one for each, one in held.items() if set(one.dims) <= set(variable.dims) and one.dtype.kind in "iuf"}


def _tells_time(name: str, variable) -> bool:
    return role_of(name, variable.attrs) in (roles.TIME, roles.REFERENCE, roles.LEAD)


def _names_beside(dataset) -> set:
    """The variables that only serve others: bounds, coordinates, grid mappings and the like."""
    names = set(dataset.dims) | set(dataset.coords)
    for variable in dataset.variables.values():
        for key in _BESIDE:
            names |= set(text_of(variable.attrs, key).replace(":", " ").split())
    return names


def fields_of(datasets: list) -> list[Field]:
    """The variables of numbers that have two dimensions or more and don't only serve others."""
    found = []
    for dataset in datasets:
        beside = _names_beside(dataset)
        for name in dataset.data_vars:
            variable = dataset[name]
            is_field = variable.ndim >= 2 or "GRIB_gridType" in variable.attrs
            if name not in beside and is_field and variable.dtype.kind in "iuf":
                found.append(Field(str(name), str(name), variable, _coordinates(dataset, name), dataset))
    return _told_apart(found)


def _told_apart(fields: list[Field]) -> list[Field]:
    """Fields of one name, which a GRIB file has on several kinds of levels or over several kinds of steps, get longer names."""
    for key in ("GRIB_typeOfLevel", "GRIB_stepType"):
        names = [field.name for field in fields]
        fields = [_longer(field, key) if names.count(field.name) > 1 else field for field in fields]
    names = [field.name for field in fields]
    for name in names:
        if names.count(name) > 1:
            raise Refused(
                f"{name}: the file has several sets of it that don't fill one grid of times and levels; "
                f"take the messages of one of them into a file first, as `grib_copy -w` does"
            )
    return fields


def _longer(field: Field, key: str) -> Field:
    name = f"{field.name}_{text_of(field.attributes, key) or 'undefined'}"
    return replace(field, name=name, id=name)


def taken_at(datasets: list, asked: list) -> list:
    """The data sets at one value of each dimension that --at names."""
    for name, value in asked:
        if not any(name in dataset.dims or _is_single(dataset, name) for dataset in datasets):
            known = sorted({str(each) for dataset in datasets for each in dataset.dims})
            raise Refused(f"--at {name}={value}: the file has no dimension `{name}`; it has {', '.join(known)}")
        datasets = [_at(dataset, name, value) for dataset in datasets]
    return datasets


def _is_single(dataset, name: str) -> bool:
    return name in dataset.coords and not dataset.variables[name].dims


def _at(dataset, name: str, value: str):
    """A data set at one value of a dimension; one that doesn't have it stays as it is."""
    if name not in dataset.dims and not _is_single(dataset, name):
        return dataset
    held = dataset.variables.get(name)
    numbers = numpy.arange(dataset.sizes[name]) if held is None else numpy.atleast_1d(held.values)
    place = _place(numbers, _wanted(held, name, value))
    if place is None:
        shown = ", ".join(_shown(held, name, numbers[:12])) + (", .." if len(numbers) > 12 else "")
        raise Refused(f"--at {name}={value}: `{name}` has no such value; it has {shown}")
    return dataset.isel({name: place}) if name in dataset.dims else dataset


def _shown(held, name: str, numbers: numpy.ndarray) -> list[str]:
    """Values of a dimension for a person: times as instants."""
    if held is not None and role_of(name, held.attrs) in (roles.TIME, roles.REFERENCE):
        clock = Clock(name, text_of(held.attrs, "units"), text_of(held.attrs, "calendar"))
        return [written(seconds) for seconds in clock.instants(numbers.tolist())]
    return [format(each, "g") if numbers.dtype.kind in "iuf" else str(each) for each in numbers.tolist()]


def _place(numbers: numpy.ndarray, wanted: float | None) -> int | None:
    """The place of a number, as near as the numbers are held."""
    if wanted is None or numbers.dtype.kind not in "iuf":
        return None
    held = numpy.finfo(numbers.dtype).eps if numbers.dtype.kind == "f" else 0
    away = numpy.abs(numbers.astype(float) - wanted)
    place = int(numpy.argmin(away))
    return place if away[place] <= 4 * held * abs(wanted) + 1e-9 else None


def _wanted(held, name: str, value: str) -> float | None:
    """The number of a value as it stands in the file: an instant is given as text."""
    try:
        return float(value)
    except ValueError:
        pass
    seconds = read(value)
    units = text_of(held.attrs, "units") if held is not None else ""
    if seconds is None or role_of(name, held.attrs) not in (roles.TIME, roles.REFERENCE):
        return None
    return Clock(name, units, text_of(held.attrs, "calendar")).number_of(seconds)


def chosen(fields: list[Field], asked: dict) -> list[Field]:
    """The fields that --parameter names, under their ids, or all."""
    if not asked:
        return fields
    by_name = {field.name: field for field in fields}
    for name in asked:
        if name not in by_name:
            raise Refused(f"{name}: the file has no such variable on a grid; it has {', '.join(by_name) or 'none at all'}")
    return [replace(by_name[name], id=identifier) for name, identifier in asked.items()]
