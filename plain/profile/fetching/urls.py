"""URLs that are fetched, and the request for one (the profile's section of that name; URL Standard, section 4.4)."""

import re
from dataclasses import dataclass

from plain.profile import limits
from plain.profile.fetching.hosts import read_host

_BLANKS = "".join(map(chr, range(33)))  # at the ends
_PORT = 80
_LAST_PORT = 65_535

# The scheme and slashes; the authority, the path, the query and the fragment. A `\` is a slash.
_URL = re.compile(r"[Hh][Tt][Tt][Pp]:[/\\]*([^/\\?#]*)([^?#]*)(?:\?([^#]*))?(?:#.*)?", re.DOTALL)
_AUTHORITY = re.compile(r"(?:.*@)?(\[.*\]|[^:@]*)(?::([0-9]*))?", re.DOTALL)

_DOT = re.compile(r"\.|%2[Ee]")
_TWO_DOTS = re.compile(r"(?:\.|%2[Ee]){2}")

# Beside these, control bytes and all bytes above 126 are escaped.
_ESCAPED_IN_PATH = ' "#<>?^`{}'
_ESCAPED_IN_QUERY = " \"#<>'"


@dataclass(frozen=True)
class Url:
    """The parts of a URL that count: its host as it is written, its port, and its path and query."""

    host: str
    port: int
    target: str

    def request(self) -> bytes:
        """The request for it."""
        host = self.host if self.port == _PORT else f"{self.host}:{self.port}"
        lines = [f"GET {self.target} HTTP/1.1", f"Host: {host}", "Connection: close", ""]
        return "".join(line + "\r\n" for line in lines).encode("ascii")

    def peer(self) -> tuple[str, int]:
        """The host without brackets, and the port."""
        return self.host.strip("[]"), self.port


def read_url(written: bytes) -> Url | None:
    """The URL that a word is, or None where it is none that is fetched."""
    if len(written) > limits.URL_BYTES:
        return None
    try:
        text = written.decode("utf-8")
    except UnicodeDecodeError:
        return None
    parts = _URL.fullmatch(re.sub(r"[\t\n\r]", "", text.strip(_BLANKS)))
    authority = _AUTHORITY.fullmatch(parts[1]) if parts else None
    if authority is None:
        return None
    host, port = read_host(authority[1]), _read_port(authority[2] or "")
    if host is None or port is None:
        return None
    return Url(host, port, _written_path(parts[2]) + ("" if parts[3] is None else "?" + _escaped(parts[3], _ESCAPED_IN_QUERY)))


def _read_port(digits: str) -> int | None:
    significant = digits.lstrip("0")
    if not digits:
        return _PORT
    return int(significant or "0") if len(significant) <= 5 and int(significant or "0") <= _LAST_PORT else None


def _written_path(path: str) -> str:
    """The path, without parts of one or two dots, and with escapes."""
    kept: list[str] = []
    parts = re.split(r"[/\\]", path)[1:] or [""]
    for place, part in enumerate(parts, 1):
        if _TWO_DOTS.fullmatch(part):
            kept = kept[:-1]
        if not _DOT.fullmatch(part) and not _TWO_DOTS.fullmatch(part):
            kept.append(_escaped(part, _ESCAPED_IN_PATH))
        elif place == len(parts):
            kept.append("")
    return "/" + "/".join(kept)


def _escaped(text: str, marks: str) -> str:
    return "".join(chr(byte) if 32 <= byte <= 126 and chr(byte) not in marks else f"%{byte:02X}" for byte in text.encode("utf-8"))
