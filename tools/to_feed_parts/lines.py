"""Lines of a feed, written to a file of their own first, so that a run that is refused writes nothing."""

import json
import os
import tempfile

import numpy

from . import limits
from .faults import WRITE, Fault, Refused
from .instants import written

VALUES_AT_ONCE = 200_000  # that are turned to text
CRS = "http://www.opengis.net/def/crs/EPSG/0/"


def compact(value) -> str:
    return json.dumps(value, ensure_ascii=False, separators=(",", ":"))


class Spool:
    """Holds the lines until all are there."""

    def __init__(self, output: str | None):
        self._output = output
        folder = os.path.dirname(os.path.abspath(output)) if output else None
        try:
            self._file = tempfile.NamedTemporaryFile(prefix=".to_feed.", dir=folder, delete=False)
        except OSError as error:
            raise Fault(WRITE, f"no file can be made for the feed in {folder or tempfile.gettempdir()}: {error.strerror}") from None
        self._line = self._all = 0

    def write(self, text: str, about: str = "the file") -> None:
        """Adds to the line what is about a variable."""
        some = text.encode("utf-8")
        self._line += len(some)
        self._all += len(some)
        if self._line > limits.LINE:
            raise Refused(
                f"{about}: with it the line of a forecast run has more than 16,777,216 bytes, which a feed doesn't take; "
                f"fewer variables (--parameter), fewer times (--times), a smaller --box, a larger --regrid or a larger --scale would help"
            )
        self._put(some)

    def end_line(self) -> None:
        self._all += 1
        if self._all > limits.FEED:
            raise Refused("the feed would have more than 1,073,741,824 bytes; fewer times (--times) or variables (--parameter) would help")
        self._put(b"\n")
        self._line = 0

    def _put(self, some: bytes) -> None:
        try:
            self._file.write(some)
        except OSError as error:
            raise Fault(WRITE, f"the feed can't be written: {error.strerror}") from None

    def hand_over(self) -> None:
        """Gives all lines to the output: a file gets its name, and standard output the bytes."""
        try:
            self._file.flush()
            if self._output:
                os.chmod(self._file.name, 0o666 & ~_mask())
                os.replace(self._file.name, self._output)
            else:
                self._file.seek(0)
                _give(self._file)
        except OSError as error:
            raise Fault(WRITE, f"the feed can't be written: {error.strerror}") from None

    def close(self) -> None:
        self._file.close()
        if os.path.exists(self._file.name):
            os.unlink(self._file.name)


def _give(file) -> None:
    """Writes a file to standard output, past Python's buffer, which would be flushed once more at the end after a fault."""
    while some := file.read(1_048_576):
        left = memoryview(some)
        while left:
            left = left[os.write(1, left):]


def _mask() -> int:
    mask = os.umask(0)
    os.umask(mask)
    return mask


def collection_line(identifier: str, title: str, code: int, vertical: str | None) -> str:
    collection = {"id": identifier, "kind": "grid", "title": title, "crs": f"{CRS}{code}"}
    return compact({"collection": collection | ({"vertical": vertical} if vertical is not None else {})})


def _axis(values: list[int]) -> dict:
    """An axis by its ends where its values are equally far apart, else by its values."""
    steps = {second - first for first, second in zip(values, values[1:])}
    if len(values) >= 3 and len(steps) == 1:
        return {"start": values[0], "stop": values[-1], "num": len(values)}
    return {"values": values}


def domain(x: list[int], y: list[int], heights, times, code: int, vertical: str | None) -> dict:
    axes = {"x": _axis(x), "y": _axis(y), "t": {"values": [written(time) for time in times]}}
    referencing = [
        {"coordinates": ["x", "y"], "system": {"type": "ProjectedCRS", "id": f"{CRS}{code}"}},
        {"coordinates": ["t"], "system": {"type": "TemporalRS", "calendar": "Gregorian"}},
    ]
    if heights:
        axes["z"] = _axis(list(heights))
        system = {"type": "VerticalCRS"} | ({"id": vertical} if vertical is not None else {})
        referencing.insert(1, {"coordinates": ["z"], "system": system})
    return {"type": "Domain", "domainType": "Grid", "axes": axes, "referencing": referencing}


def parameter(label: str, unit: str) -> dict:
    described = {"type": "Parameter", "observedProperty": {"label": {"en": label}}}
    return described | ({"unit": {"symbol": unit}} if unit else {})


def range_head(names: list[str], shape: list[int]) -> str:
    """What stands in a range before its values."""
    head = compact({"type": "NdArray", "dataType": "integer", "axisNames": names, "shape": shape})
    return head[:-1] + ',"values":['


def value_texts(whole: numpy.ndarray, missing: numpy.ndarray):
    """The values of some planes, with commas between them, in pieces that each but the first begin with a comma."""
    whole, missing = whole.ravel(), missing.ravel()
    for start in range(0, len(whole), VALUES_AT_ONCE):
        values = whole[start:start + VALUES_AT_ONCE].tolist()
        for place in numpy.flatnonzero(missing[start:start + VALUES_AT_ONCE]).tolist():
            values[place] = "null"
        yield ("," if start else "") + ",".join(map(str, values))
