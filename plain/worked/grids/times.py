"""Times."""

from plain.worked.grids.texts import (
    A,
    POSITION,
    PUBLISH,
    AskRow,
    T0,
    T1,
    TIME,
    TYX,
    axes_of,
    bare_range,
    collection,
    covered,
    feed,
    grid,
    instance,
    range_along,
    values,
)
from plain.worked.grids.usual import answered, refused

MOMENTS = [T0, T1, "2024-01-01T12:30:15Z", "2024-02-29T23:59:59Z"]
MOMENT_SAMPLES = ["1", "2", "3", "null"]


def timed(*places: int) -> str:
    """The reply with some of the moments."""
    axes = axes_of(0, 0, values(*[MOMENTS[place] for place in places]))
    some = ",".join(MOMENT_SAMPLES[place] for place in places)
    if len(places) == 1:
        return covered("Point", axes, f'"a":{bare_range(some)}', A)
    return covered("PointSeries", axes, f'"a":{range_along(TIME, str(len(places)), some)}', A)


def time_rows() -> list[AskRow]:
    """Instants and intervals."""
    moments = grid(f'"x":{values(0)},"y":{values(0)},"t":{values(*MOMENTS)}', TYX, "4,1,1", {"a": ",".join(MOMENT_SAMPLES)}, A)
    of_moments = feed(collection("g"), instance("g", "1", moments), PUBLISH)
    at = POSITION + "POINT(0 0)&datetime="
    taken = {
        (0,): [
            T0, "2024-01-01T00:00Z", "2024-01-01t00:00:00z", "2024-01-01T00:00:00.000Z", "2024-01-01T02:00:00+02:00", "2024-01-01T02:00 02:00",
            "2024-01-01T02:00:00%2B02:00", "2023-12-31T19:00-05:00", "2024-01-01T23:59+23:59", "2023-12-31T00:01:00-23:59", "2024-01-01T00:00-00:00",
            f"../{T0}", f"/{T0}", f"{T0}/{T0}", f"0000-01-01T00:00Z/{T0}", "../2024-01-01T00:59:59Z", "2023-12-31T23:59:59Z/2024-01-01T00:00:01Z",
        ],
        (1,): [T1, "2024-01-01T00:00:01Z/2024-01-01T12:30:14Z", "2024-01-01T01:00:00Z/2024-01-01T03:00%2B02:00", "2024-01-01T05:30+04:30"],
        (2,): ["2024-01-01T12:30:15Z", "2024-01-01T12:30:15.0Z", "2024-01-01T01:00:01Z/2024-02-29T23:59:58Z"],
        (3,): [
            "2024-02-29T23:59:59Z", "2024-02-29T23:59:59Z/..", "2024-03-01T00:59:59+01:00", "2024-02-29T23:59:59Z/", "2024-01-01T12:30:16Z/..",
            "2024-02-01T00:00Z/9999-12-31T23:59:59Z",
        ],
        (0, 1): [f"{T0}/{T1}", f"../{T1}", f"/{T1}", "../2024-01-01T12:30:14Z", "2024-01-01T00:00Z%2F2024-01-01T01:00Z"],
        (1, 2): ["2024-01-01T00:30Z/2024-01-01T12:30:15Z", f"{T1}/2024-02-29T23:59Z"],
        (1, 2, 3): [f"{T1}/..", f"{T1}/", "2024-01-01T00:00:01Z/.."],
        (0, 1, 2, 3): ["../..", "/", "../", "/..", f"{T0}/..", "..%2F..", "0000-01-01T00:00:00Z/9999-12-31T23:59:59Z", "../2024-02-29T23:59:59Z"],
    }  # fmt: skip
    none = ["2024-01-01T00:00:01Z", "2024-01-01T00:30Z", "2023-12-31T23:59:59Z", "2024-03-01T00:00:00Z", "../2023-12-31T23:59:59Z", "2024-03-01T00:00Z/.."]
    none += ["2024-01-01T00:00:01Z/2024-01-01T00:59:59Z", "9999-12-31T23:59:59Z", "0000-01-01T00:00:00Z", "2024-01-01T00:00:00+00:01"]
    bad = ["", "..", "2024-06-01", "2024-01-01T00Z", "2024-01-01T00:00:00", f"{T1}/{T0}", f"{T0}/{T1}/{T1}", "2024-01-01T24:00:00Z", "2024-01-01T00:60Z"]
    bad += ["2016-12-31T23:59:60Z", "2023-02-29T00:00:00Z", "2024-01-01T00:00:00.5Z", "2024-01-01T00:00:00.Z", "2024-01-01T00:00.0Z", "2024-13-01T00:00Z"]
    bad += ["2024-00-01T00:00Z", "2024-01-00T00:00Z", "2024-04-31T00:00Z", "2100-02-29T00:00Z", "10000-01-01T00:00:00Z", "-001-01-01T00:00:00Z", "x"]
    bad += ["9999-12-31T23:59:59-00:01", "0000-01-01T00:00:00+00:01", "2024-01-01T00:00+24:00", "2024-01-01T00:00+00:60", "2024-06-01 00:00:00Z", "../../.."]
    bad += ["2024-01-01T00:00:00+0100", "2024-01-01T00:00:00+01", "2024-01-01T00:00:00%E2%88%9201:00", f"{T0},{T1}", f"{T0}/...", f" {T0}", f"{T0} ", "P1D"]
    bad += [f"{T0}/x", f"./{T0}", f"{T0}/P1D", "2024-01-01T0:00Z", "24-01-01T00:00Z", "2024-1-01T00:00Z"]
    return [
        *[AskRow(of_moments, at + each, timed(*places)) for places, some in taken.items() for each in some],
        *answered(timed(0, 1, 2, 3), POSITION + "POINT(0 0)", feed=of_moments),
        *refused(25, *[at + each for each in none], feed=of_moments),
        *refused(14, *[at + each for each in bad], feed=of_moments),
    ]


def limit_time_rows() -> list[AskRow]:
    """Data at the first and the last time that there is."""
    first, last = "0000-01-01T00:00:00Z", "9999-12-31T23:59:59Z"
    both = grid(f'"x":{values(0)},"y":{values(0)},"t":{values(first, last)}', TYX, "2,1,1", {"a": "-9007199254740991,0"}, A)
    of_both = feed(collection("g"), instance("g", "1", both), PUBLISH)
    at = POSITION + "POINT(0 0)"
    series_of_both = covered("PointSeries", axes_of(0, 0, values(first, last)), f'"a":{range_along(TIME, "2", "-9007199254740991,0")}', A)
    earlier = covered("Point", axes_of(0, 0, values(first)), f'"a":{bare_range("-9007199254740991")}', A)
    later = covered("Point", axes_of(0, 0, values(last)), f'"a":{bare_range("0")}', A)
    return [
        *answered(series_of_both, at, at + "&datetime=../..", at + f"&datetime={first}/{last}", feed=of_both),
        *answered(earlier, at + f"&datetime={first}", at + "&datetime=/9999-12-31T23:59:58Z", at + "&datetime=0000-01-01T01:00+01:00", feed=of_both),
        *answered(later, at + f"&datetime={last}", at + "&datetime=0000-01-01T00:00:01Z/..", at + "&datetime=9999-12-31T22:59:59-01:00", feed=of_both),
    ]


def rows() -> list[AskRow]:
    """All of them."""
    return time_rows() + limit_time_rows()
