"""Feeds of several editions, and feeds at fault."""

from plain.worked.grids.pages import EMPTY_COLLECTIONS, EMPTY_INSTANCES, page
from plain.worked.grids.texts import A, B, PUBLISH, AskRow, T0, TYX, collection, feed, grid, instance, values
from plain.worked.grids.usual import GRID, alone, answered, refused


def edition_rows() -> list[AskRow]:
    """Feeds of several editions, of which the last is asked."""

    def sample(number: int) -> str:
        return grid(f'"x":{values(0)},"y":{values(0)},"t":{values(T0)}', TYX, "1,1,1", {"a": str(number)}, A)

    at = "/position?coords=POINT(0 0)"
    newest, first, second = f"/collections/g{at}", f"/collections/g/instances/1{at}", f"/collections/g/instances/2{at}"
    start = feed(collection("g"), instance("g", "1", sample(1)), PUBLISH)
    two = start + feed(instance("g", "2", sample(2)), PUBLISH)
    replaced = two + feed(instance("g", "1", sample(9)), PUBLISH)
    pending = start + feed(instance("g", "2", sample(2)), '{"drop":{"collection":"g"}}')
    dropped = two + feed('{"drop":{"collection":"g"}}', PUBLISH)
    renewed = dropped + feed(collection("g", "New", "other"), PUBLISH)
    without_second = two + feed('{"drop":{"collection":"g","instance":"2"}}', PUBLISH)
    without_first = two + feed('{"drop":{"collection":"g","instance":"1"}}', PUBLISH)
    emptied = start + feed('{"drop":{"collection":"g","instance":"1"}}', PUBLISH)
    by_bytes = feed(collection("g"), *[instance("g", id_, sample(number)) for number, id_ in enumerate(["9", "10", "A", "a", "Z", "å", "b"])], PUBLISH)
    digits = feed(collection("g"), *[instance("g", id_, sample(number)) for number, id_ in enumerate(["10", "9", "100", "89"])], PUBLISH)
    bare = feed(sample(4), sample(5))
    bare_and_more = feed(sample(4), " \t\r", instance("grid", "0", sample(6)), PUBLISH, sample(7))[:-1]
    return [
        *answered(alone(0, 0, "1"), newest, first, feed=start) + refused(19, second, feed=start),
        *answered(alone(0, 0, "2"), newest, second, feed=two) + answered(alone(0, 0, "1"), first, feed=two),
        *answered(alone(0, 0, "2"), newest, second, feed=replaced) + answered(alone(0, 0, "9"), first, feed=replaced),
        *answered(alone(0, 0, "1"), newest, first, feed=pending) + refused(19, second, feed=pending),
        *refused(18, newest, first, "/collections/g", "/collections/g/instances", "/collections/g/locations", feed=dropped),
        *answered(EMPTY_COLLECTIONS, "/collections", feed=dropped),
        *answered(page("/collections/g", '"g"', '"New"', crs='"other"'), "/collections/g", feed=renewed),
        *refused(19, newest, first, "/collections/g/instances/1", feed=renewed) + answered(EMPTY_INSTANCES, "/collections/g/instances", feed=renewed),
        *answered(alone(0, 0, "1"), newest, first, feed=without_second) + refused(19, second, "/collections/g/instances/2", feed=without_second),
        *answered(alone(0, 0, "2"), newest, second, feed=without_first) + refused(19, first, feed=without_first),
        *refused(19, newest, first, newest + "&crs=x&z=0&parameter-name=a", feed=emptied),
        *answered(page("/collections/g", '"g"'), "/collections/g", feed=emptied),
        *answered(alone(0, 0, "5"), newest, feed=by_bytes) + answered(alone(0, 0, "1"), f"/collections/g/instances/10{at}", feed=by_bytes),
        *answered(alone(0, 0, "1"), newest, feed=digits) + answered(alone(0, 0, "2"), f"/collections/g/instances/100{at}", feed=digits),
        *answered(alone(0, 0, "5"), f"/collections/grid{at}", f"/collections/grid/instances/1{at}", feed=bare),
        *answered(alone(0, 0, "7"), f"/collections/grid{at}", f"/collections/grid/instances/1{at}", feed=bare_and_more),
        *answered(alone(0, 0, "6"), f"/collections/grid/instances/0{at}", feed=bare_and_more),
        *refused(18, newest, feed=bare),
    ]


def fault_rows() -> list[AskRow]:
    """Feeds at fault, which is told before anything of the target."""
    other = grid(f'"x":{values(0)},"y":{values(0)},"t":{values(T0)}', TYX, "1,1,1", {"b": "1"}, B)
    faults = {
        "NothingPublished": ["", "\n \t\r\n", feed(collection("g"))],
        "NotJson line 1": ["{", feed("{", PUBLISH)],
        "NotFeedLine line 1": [feed('{"publish":{},"a":1}'), "[]", feed('{"drop":{"collection":"g","a":1}}')],
        "Change line 1": [feed('{"drop":{"collection":"g"}}', "{")],
        "Change line 2": [feed(collection("g"), collection("g"))],
        "Cov line 1": [feed('{"type":"Coverage"}')],
        "Change line 5": [GRID + feed(instance("g", "2", other), PUBLISH)],
        "Change line 6": [GRID + feed("", '{"drop":{"collection":"bare","instance":"1"}}')],
    }
    targets = ["/", "x", "/collections/g/position?coords=POINT(0 0)", "/collections/g/position?colour=red"]
    return [AskRow(each, target, fault=fault) for fault, some in faults.items() for each in some for target in targets]


def rows() -> list[AskRow]:
    """All of them."""
    return edition_rows() + fault_rows()
