"""Numbers as they stand in a file, and what they are: packing, fill values and valid ranges by the CF conventions."""

import numpy
import xarray

from to_feed_parts.samples import Packing, unpacked

ROWS = (  # the numbers in the file, their type, the attributes, and the values, none where one is missing
    ([1, 2, -32_767], "i2", {}, [1, 2, None]),
    ([1, 250], "u1", {}, [1, 250]),
    ([1, -1, -2], "i1", {"_Unsigned": "true", "_FillValue": numpy.int8(-1)}, [1, None, 254]),
    ([1.0, 9.969209968386869e36, numpy.nan], "f4", {}, [1.0, None, None]),
    ([-999.0, 9.969209968386869e36], "f4", {"_FillValue": numpy.float32(-999)}, [None, float(numpy.float32(9.969209968386869e36))]),
    ([1, 2, 3, 4], "i2", {"valid_range": numpy.array([2, 3], "i2")}, [None, 2, 3, None]),
    ([1, 2, 3], "i4", {"missing_value": numpy.array([2, 3])}, [1, None, None]),
    ([10, 20, 30], "i2", {"scale_factor": 0.5, "valid_max": 10.0}, [5.0, 10.0, None]),
    ([10, 20, 30], "i2", {"scale_factor": 0.5, "valid_max": numpy.int16(20)}, [5.0, 10.0, None]),
    ([0, 100], ">i2", {"scale_factor": 0.25, "add_offset": 1.0}, [1.0, 26.0]),
    ([1, 2], "i2", {"add_offset": 273.0, "_FillValue": numpy.int16(2)}, [274.0, None]),
)


def trial() -> str:
    for numbers, kind, attributes, wanted in ROWS:
        held = numpy.array(numbers, dtype=kind)
        values, missing = unpacked(held, Packing.of(xarray.Variable(("place",), held, attributes)))
        found = [None if absent else value for value, absent in zip(values.tolist(), missing.tolist())]
        assert found == wanted, f"{numbers} of {kind} with {attributes} are {found} and not {wanted}"
    return f"{len(ROWS)} rows agree"
