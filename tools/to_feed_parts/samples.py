"""Samples: what stands in the file is unpacked, missing ones are found, and the rest scaled to whole numbers."""

from dataclasses import dataclass
from decimal import Decimal

import numpy

from . import limits
from .faults import Refused
from .roles import text_of

_DEFAULT_FILLS = {  # of NetCDF, by the kinds and sizes of its types; types of one byte have none
    "i2": -32_767, "u2": 65_535, "i4": -2_147_483_647, "u4": 4_294_967_295,
    "i8": -9_223_372_036_854_775_806, "u8": 18_446_744_073_709_551_614, "f4": 9.969209968386869e36, "f8": 9.969209968386869e36,
}


def _listed(attributes, key: str, count: int | None = None) -> list:
    """The numbers of an attribute; none where it has no numbers, or not so many."""
    values = numpy.atleast_1d(numpy.asarray(attributes.get(key, [])))
    if values.dtype.kind not in "iuf" or (count is not None and len(values) != count):
        return []
    return list(values)


@dataclass(frozen=True)
class Packing:
    """How the numbers of a variable stand in the file, by the CF conventions."""

    kind: numpy.dtype
    factor: float | None  # none where the numbers aren't packed
    offset: float
    fills: tuple
    low: object | None  # the range of valid values
    high: object | None
    range_is_unpacked: bool
    precision: float  # of one number, by how it is held

    @staticmethod
    def of(variable) -> "Packing":
        attributes = variable.attrs
        kind = variable.dtype
        if kind.kind == "i" and text_of(attributes, "_Unsigned").lower() == "true":
            kind = numpy.dtype(f"u{kind.itemsize}")
        factor, offset = _listed(attributes, "scale_factor", 1), _listed(attributes, "add_offset", 1)
        fills = _listed(attributes, "_FillValue") + _listed(attributes, "missing_value")
        if not _listed(attributes, "_FillValue") and variable.dtype.str[1:] in _DEFAULT_FILLS and "GRIB_paramId" not in attributes:
            fills.append(_DEFAULT_FILLS[variable.dtype.str[1:]])
        low, high = _valid_range(attributes)
        if kind.kind == "u":
            low, high = (_as_held(bound, kind) if bound is not None else None for bound in (low, high))
        is_packed = bool(factor or offset)
        return Packing(
            kind, float(factor[0]) if factor else (1.0 if is_packed else None), float(offset[0]) if offset else 0.0,
            tuple(_as_held(fill, kind) for fill in fills), low, high,
            is_packed and _is_wider(low if low is not None else high, kind), _precision(kind, factor + offset),
        )


def _valid_range(attributes) -> tuple:
    both = _listed(attributes, "valid_range", 2)
    if both:
        return both[0], both[1]
    low, high = _listed(attributes, "valid_min", 1), _listed(attributes, "valid_max", 1)
    return low[0] if low else None, high[0] if high else None


def _is_wider(bound, kind: numpy.dtype) -> bool:
    """Whether a bound of a valid range has decimals where the file holds whole numbers: then it is about unpacked values."""
    return bound is not None and kind.kind in "iu" and numpy.asarray(bound).dtype.kind == "f"


def _as_held(fill, kind: numpy.dtype):
    """A fill value as the variable holds it: a signed one turned to unsigned, a wide one to a narrow one."""
    if kind.kind == "u" and fill < 0:
        return int(fill) % (1 << (8 * kind.itemsize))
    return numpy.asarray(fill).astype(kind)[()] if kind.kind == "f" else fill


def _precision(kind: numpy.dtype, packing: list) -> float:
    kinds = [kind] + [numpy.asarray(each).dtype for each in packing]
    held = [numpy.finfo(each).eps for each in kinds if each.kind == "f"]
    return float(max(held, default=numpy.finfo(float).eps))


def unpacked(raw: numpy.ndarray, packing: Packing) -> tuple[numpy.ndarray, numpy.ndarray]:
    """The numbers, and which of them are missing."""
    raw = raw.view(packing.kind.newbyteorder(raw.dtype.byteorder)) if packing.kind.kind != raw.dtype.kind else raw
    missing = numpy.isnan(raw) if raw.dtype.kind == "f" else numpy.zeros(raw.shape, dtype=bool)
    for fill in packing.fills:
        missing |= raw == fill
    numbers = raw if packing.factor is None else raw.astype(float) * packing.factor + packing.offset
    ranged = numbers if packing.range_is_unpacked else raw
    if packing.low is not None:
        missing |= ranged < packing.low
    if packing.high is not None:
        missing |= ranged > packing.high
    return numbers, missing


@dataclass
class Losses:
    """What was lost of one parameter."""

    values: int = 0
    missing: int = 0
    rounded: int = 0
    most: float = 0.0  # in steps

    def notes(self, name: str, step: Decimal, unit: str) -> list[str]:
        """What is said of the losses."""
        unit = "" if unit in ("", "1") else f" {unit}"
        notes = []
        if self.missing:
            notes.append(f"{name}: {self.missing:,} of {self.values:,} values are missing")
        if self.rounded:
            most = f"{self.most * float(step):.3g}{unit}"
            notes.append(f"{name}: {self.rounded:,} of {self.values:,} values were rounded to steps of {plain(step)}{unit}, by at most {most}")
        return notes


def plain(step: Decimal) -> str:
    """A step as a plain decimal."""
    text = format(step.normalize(), "f")
    return text.rstrip("0").rstrip(".") if "." in text else text


def unit_text(unit: str, step: Decimal | None) -> str:
    """The unit of the feed's whole numbers."""
    if step is None or step == 1:
        return unit
    return plain(step) if unit in ("", "1") else f"{plain(step)} {unit}"


class Scaler:
    """Turns the numbers of one parameter into whole steps, and keeps what is lost."""

    def __init__(self, name: str, unit: str, step: Decimal | None, packing: Packing):
        self._name, self._unit, self._asked = name, unit, step
        self.step = step if step is not None else Decimal(1)
        self._packing = packing
        self.losses = Losses()

    def whole(self, raw: numpy.ndarray, outside: numpy.ndarray | None) -> tuple[numpy.ndarray, numpy.ndarray]:
        """The whole steps of numbers as they stand in the file, and which are missing."""
        numbers, missing = unpacked(raw, self._packing)
        beyond = missing if outside is None else missing | outside
        numbers = numpy.where(beyond, numbers.dtype.type(0), numbers)
        self._check_finite(numbers)
        steps = self._steps(numbers)
        self._check_size(numbers, steps)
        whole = numpy.rint(steps) if steps.dtype.kind == "f" else steps
        self._count(numbers, steps, whole, missing if outside is None else missing & ~outside, outside)
        return whole.astype(numpy.int64), beyond

    def _steps(self, numbers: numpy.ndarray) -> numpy.ndarray:
        if self.step == 1:
            return numbers if numbers.dtype.kind in "iu" else numbers.astype(float)
        inverse = 1 / self.step
        if inverse == inverse.to_integral_value() and inverse * self.step == 1:
            return numbers.astype(float) * float(inverse)
        return numbers.astype(float) / float(self.step)

    def _check_finite(self, numbers: numpy.ndarray) -> None:
        if numbers.dtype.kind == "f" and not numpy.all(numpy.isfinite(numbers)):
            raise Refused(f"{self._name}: one of its values is infinite; mark such values as missing (_FillValue) first")

    def _check_size(self, numbers: numpy.ndarray, steps: numpy.ndarray) -> None:
        large = (steps > limits.SAMPLE) | (steps < -limits.SAMPLE)
        if not large.any():
            return
        most = max(abs(float(steps.min())), abs(float(steps.max())))
        helpful = self.step
        while most * float(self.step / helpful) > limits.SAMPLE:
            helpful *= 10
        value = self._with_unit(format(numbers[large].ravel()[0], "g"))
        raise Refused(
            f"{self._name}: its value {value} in steps of {self._with_unit(plain(self.step))} is a number of more than 53 bits, "
            f"which a feed doesn't hold; --scale {self._name}={plain(helpful)} would fit"
        )

    def _with_unit(self, number: str) -> str:
        return number if self._unit in ("", "1") else f"{number} {self._unit}"

    def _count(self, numbers, steps, whole, missing, outside) -> None:
        change = numpy.abs(steps - whole) if steps.dtype.kind == "f" else numpy.zeros(1)
        counts = change > numpy.maximum(2 * self._packing.precision * numpy.abs(steps), 1e-9)
        if self._asked is None and counts.any():
            raise Refused(self._not_whole(numbers[counts].ravel()))
        self.losses.values += missing.size - (0 if outside is None else int(outside.sum()) * (missing.size // outside.size))
        self.losses.missing += int(missing.sum())
        self.losses.rounded += int(counts.sum())
        self.losses.most = max(self.losses.most, float(change[counts].max()) if counts.any() else 0.0)

    def _not_whole(self, numbers: numpy.ndarray) -> str:
        step = self._fitting(numbers)
        value = self._with_unit(format(numbers[0], "g"))
        return (
            f"{self._name}: its value {value} is no whole number, and a feed has whole numbers; "
            f"--scale {self._name}={step} would count in steps of {self._with_unit(step)}"
        )

    def _fitting(self, numbers: numpy.ndarray) -> str:
        """The largest step of some tenths in which these numbers are whole; else one that keeps about four digits."""
        for digits in range(1, 7):
            steps = numbers.astype(float) * 10**digits
            near = numpy.maximum(2 * self._packing.precision * numpy.abs(steps), 1e-9)
            if numpy.all(numpy.abs(steps - numpy.rint(steps)) <= near) and numpy.all(near < 0.05):
                return plain(Decimal(1).scaleb(-digits))
        most = float(numpy.abs(numbers).max())
        return plain(Decimal(1).scaleb(max(-12, int(numpy.floor(numpy.log10(most))) - 3)))
