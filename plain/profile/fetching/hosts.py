"""Hosts of URLs (URL Standard, section 3)."""

import re
from urllib.parse import unquote_to_bytes

from plain.profile.fetching.domain_names import ascii_name

_FORBIDDEN = re.compile(r"[\x00-\x20#/:<>?@\[\\\]^|%\x7f]")  # in a name

_HEXADECIMAL = re.compile(r"0[xX]([0-9A-Fa-f]*)")
_OCTAL = re.compile(r"0([0-7]+)")
_DECIMAL = re.compile(r"0|[1-9][0-9]*")

_IPV6_PIECE = re.compile(r"[0-9A-Fa-f]{1,4}")
_DOTTED = re.compile(r"(0|[1-9][0-9]{0,2})\.(0|[1-9][0-9]{0,2})\.(0|[1-9][0-9]{0,2})\.(0|[1-9][0-9]{0,2})")

_MANY_DIGITS = 20  # more than an address has


def read_host(text: str) -> str | None:
    """The host that a text of a URL stands for, as it is written in one; None where it is none."""
    if text.startswith("["):
        pieces = _read_ipv6(text[1:-1]) if text.endswith("]") else None
        return None if pieces is None else f"[{_write_ipv6(pieces)}]"
    name = ascii_name(unquote_to_bytes(text).decode("utf-8", "replace"))
    if not name or _FORBIDDEN.search(name):
        return None
    return _read_ipv4(name) if _ends_in_a_number(name) else name


# Addresses of version 4


def _parts(name: str) -> list[str]:
    """The parts of a name, without an empty one at the end."""
    parts = name.split(".")
    return parts[:-1] if len(parts) > 1 and not parts[-1] else parts


def _ends_in_a_number(name: str) -> bool:
    last = _parts(name)[-1]
    return re.fullmatch(r"[0-9]+", last) is not None or _ipv4_number(last) is not None


def _ipv4_number(part: str) -> int | None:
    """The number that a part is, in one of three bases; a large one is kept as one beyond every limit."""
    for form, base in ((_HEXADECIMAL, 16), (_OCTAL, 8), (_DECIMAL, 10)):
        found = form.fullmatch(part)
        if found is not None:
            digits = found[found.lastindex or 0].lstrip("0")
            return int(digits or "0", base) if len(digits) < _MANY_DIGITS else 2**64
    return None


def _read_ipv4(name: str) -> str | None:
    numbers = [_ipv4_number(part) for part in _parts(name)]
    if len(numbers) > 4 or None in numbers:
        return None
    *front, last = numbers
    if any(number > 255 for number in front) or last >= 256 ** (5 - len(numbers)):
        return None
    address = last + sum(number * 256 ** (3 - place) for place, number in enumerate(front))
    return ".".join(str(byte) for byte in address.to_bytes(4, "big"))


# Addresses of version 6


def _read_ipv6(text: str) -> list[int] | None:
    """The eight pieces of an address, of which `::` leaves out one or more that are 0."""
    halves = text.split("::")
    if len(halves) > 2:
        return None
    listed = [half.split(":") if half else [] for half in halves]
    listed[-1] = _with_pieces_of_dotted(listed[-1])
    if not all(_IPV6_PIECE.fullmatch(piece) for half in listed for piece in half):
        return None
    numbers = [[int(piece, 16) for piece in half] for half in listed]
    missing = 8 - sum(map(len, numbers))
    if len(halves) == 1:
        return numbers[0] if missing == 0 else None
    return numbers[0] + [0] * missing + numbers[1] if missing > 0 else None


def _with_pieces_of_dotted(pieces: list[str]) -> list[str]:
    """The pieces, with an address of version 4 at their end as two of them."""
    found = _DOTTED.fullmatch(pieces[-1]) if pieces else None
    if found is None or any(int(part) > 255 for part in found.groups()):
        return pieces
    first, second, third, fourth = map(int, found.groups())
    return [*pieces[:-1], f"{first * 256 + second:x}", f"{third * 256 + fourth:x}"]


def _write_ipv6(pieces: list[int]) -> str:
    """The pieces in hexadecimal, with `::` for the first of the longest runs of two or more that are 0."""
    runs = [(length, -first) for first in range(8) for length in range(2, 9 - first) if not any(pieces[first : first + length])]
    if not runs:
        return _joined(pieces)
    length, first = max(runs)
    return f"{_joined(pieces[:-first])}::{_joined(pieces[length - first :])}"


def _joined(pieces: list[int]) -> str:
    return ":".join(f"{piece:x}" for piece in pieces)
