"""The limits of the profile."""

COORDINATE = 100_000_000  # metres, of the size of x, y and z; of levels too
EARLIEST_TIME = -62_167_219_200  # 0000-01-01T00:00:00Z
LATEST_TIME = 253_402_300_799  # 9999-12-31T23:59:59Z
SAMPLE = 9_007_199_254_740_991
NAME_BYTES = 128
NODES = 4_000_000  # of a grid, for each parameter
SPANNED_VALUES = 4_000_000  # of an axis that is given by start, stop and num
POSITIONS = 10_000  # of a geometry
LINE_BYTES = 16_777_216  # the line feed isn't counted
FEED_BYTES = 1_073_741_824
REPLY_VALUES = 2_000_000  # of all ranges of a reply, missing and unselected ones too
REPLY_COVERAGES = 5_000
HEAD_BYTES = 16_384  # of a request or a reply, the empty lines before it and the one at its end too
HEAD_FIELDS = 64
REQUESTS = 1_000  # of a connection
BODY_BYTES = 67_108_864  # of a reply that the client reads, and of a document that is shown
URL_BYTES = 65_536  # of a URL that is fetched
CHUNK_LINE_BYTES = 16_384  # of the line before a chunk that the client reads, its end too


def is_coordinate(number: int) -> bool:
    """Whether a number is a coordinate or a level."""
    return -COORDINATE <= number <= COORDINATE


def is_time(number: int) -> bool:
    """Whether a number is a time, in seconds since 1970-01-01T00:00:00Z."""
    return EARLIEST_TIME <= number <= LATEST_TIME


def is_sample(number: int) -> bool:
    """Whether a number is a sample."""
    return -SAMPLE <= number <= SAMPLE
