"""Names: the ids of collections, instances and parameters; bytes that are text."""

from plain.profile import limits


def is_name(text: str) -> bool:
    """Whether a text is a name: 1 to 128 bytes without control bytes and commas."""
    written = text.encode("utf-8")
    if not 1 <= len(written) <= limits.NAME_BYTES:
        return False
    return all(byte >= 32 and byte != 127 and byte != ord(",") for byte in written)


def is_utf8(text: bytes) -> bool:
    """Whether some bytes are UTF-8."""
    try:
        text.decode("utf-8")
    except UnicodeDecodeError:
        return False
    return True
