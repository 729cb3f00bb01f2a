"""Large inputs, near the limits of lines, nodes, positions and documents."""

from plain.comparison.inputs.draws import Draw
from plain.comparison.inputs.geometries import many_positions_text
from plain.comparison.inputs.texts import time
from plain.profile import limits
from plain.profile.times import write_instant


def _grid(axes: str, names: str, shape: str, values: str) -> str:
    return (
        '{"type":"Coverage","domain":{"type":"Domain","domainType":"Grid","axes":{' + axes + '},"referencing":[{"coordinates":'
        '["x","y"],"system":{"type":"ProjectedCRS","id":"local"}}]},"parameters":{"a":{"observedProperty":{"label":{"en":"a"}}}},'
        '"ranges":{"a":{"type":"NdArray","dataType":"integer","axisNames":[' + names + '],"shape":[' + shape + '],"values":['
        + values + "]}}}"
    )


def _span(name: str, num: int) -> str:
    return f'"{name}":{{"start":0,"stop":{num - 1},"num":{num}}}'


def grid_text(draw: Draw) -> bytes:
    """A grid of about 4,000,000 nodes."""
    x, y, t = draw.pick((2000, 2000, 1), (2_000_001, 2, 1), (4_000_000, 1, 1), (1_000_000, 1, 4), (2_000_001, 1, 2), (1999, 2001, 1))
    first = time(draw) // 2
    times = ",".join(f'"{write_instant(first + place)}"' for place in range(t))
    axes = _span("x", x) + "," + _span("y", y) + f',"t":{{"values":[{times}]}}'
    values = ",".join([draw.choice("0123456789")] * (x * y * t + draw.pick(0, 0, 0, 1, -1)))
    return _grid(axes, '"t","y","x"', f"{t},{y},{x}", values).encode()


def long_line(draw: Draw) -> bytes:
    """A line at or near its greatest length."""
    text = draw.pick(b"", b'{"publish":{}}', b'{"drop":{"collection":"a"}}', b"{", small_grid())
    length = limits.LINE_BYTES + draw.pick(-1, 0, 0, 1, 1)
    return text + b" " * (length - len(text))


def small_grid() -> bytes:
    """A grid of one node."""
    axes = '"x":{"values":[0]},"y":{"values":[0]},"t":{"values":["2024-01-01T00:00:00Z"]}'
    return _grid(axes, "", "", "5").encode()


def large_feed(draw: Draw) -> bytes:
    """A feed with a large line."""
    lines = [draw.pick(small_grid(), b'{"publish":{}}', b"")]
    lines.insert(draw.randint(0, 1), long_line(draw) if draw.chance(0.6) else grid_text(draw))
    return b"\n".join(lines) + draw.pick(b"", b"\n", b"\r\n")


def wide_document(draw: Draw) -> bytes:
    """A document with a long axis, in one form or the other."""
    num = draw.pick(3_999_999, 4_000_000, 4_000_001, 100_000)
    step = draw.pick(1, -1, 25)
    values = ",".join(str(place * step) for place in range(num))
    listed = f'"x":{{"values":[{values}]}}'
    spanned = f'"x":{{"start":0,"stop":{(num - 1) * step},"num":{num}}}'
    axes = draw.pick(listed, spanned) + ',"y":{"values":[0]}'
    return _grid(axes, '"x"', f"{num}", ",".join("5" if draw.chance(0.00001) else "7" for _ in range(num))).encode()


def long_document(draw: Draw) -> bytes:
    """A document, or nearly one, of about as many bytes as are read."""
    text = draw.pick(small_grid(), small_grid(), small_grid(), b"{", b"[]")
    blanks = b" " * (limits.BODY_BYTES + draw.pick(-1, 0, 0, 1, 1) - len(text))
    return draw.pick(text + blanks, blanks + text)


def many_positions(draw: Draw) -> bytes:
    """A geometry of about 10,000 positions."""
    return many_positions_text(draw)
