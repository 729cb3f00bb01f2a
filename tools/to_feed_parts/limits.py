"""The limits of a feed, as docs/PROFILE.md states them."""

COORDINATE = 100_000_000  # metres, the size of a coordinate or a level
SAMPLE = 9_007_199_254_740_991  # the size of a sample: 53 bits
NAME = 128  # bytes
NODES = 4_000_000  # of a grid, over its times and levels, for each parameter
LINE = 16_777_216  # bytes, its line feed not counted
FEED = 1_073_741_824  # bytes


def is_name(text: str) -> bool:
    """Whether a text can be the id of a collection, an instance or a parameter."""
    try:
        written = text.encode("utf-8")
    except UnicodeEncodeError:
        return False
    return 1 <= len(written) <= NAME and all(byte >= 32 and byte not in (127, 44) for byte in written)
