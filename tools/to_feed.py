#!/usr/bin/python3
"""Makes a feed of a NetCDF or GRIB file: python3 tools/to_feed.py FILE --crs CODE [options] > feed.jsonl

`--help` tells the options. tools/README.md has an example.
"""

import sys

from to_feed_parts.running import run

if __name__ == "__main__":
    sys.exit(run(sys.argv[1:]))
