"""The words of the command."""

import argparse
import re
import sys
from decimal import Decimal, InvalidOperation
from pathlib import Path

from . import instants, limits
from .faults import WORDS

ABOUT = """\
Makes a feed, which edrd serves, of a forecast or an analysis in a NetCDF or GRIB file.

The feed is written on standard output, or in the file of --output: one line that
adds the collection, one line for each forecast run of the file, and a publish.
What the feed leaves out of the file is told on standard error, in lines that
begin with `note:`. Where no feed can be made, one sentence says which variable
is in the way and what would help, and nothing is written."""

EXAMPLES = """\
examples:
  A regional forecast in longitudes and latitudes, on a grid of 2,500 metres in
  UTM zone 33, temperatures in tenths of a kelvin:
    to_feed.py forecast.grib2 --crs 25833 --regrid 2500 --scale t2m=0.1 > forecast.jsonl

  A NetCDF file that is in UTM zone 33 already needs no new grid:
    to_feed.py waves.nc --crs 25833 --parameter hs=wave_height --scale 0.01 --output waves.jsonl

  One pressure level, over a part of a global file:
    to_feed.py era5.grib --crs 3035 --regrid 25000 --box 2500000,1400000,6000000,5400000 \\
        --parameter t --at isobaricInhPa=850 --scale 0.1 > europe850.jsonl

Check a feed with `edr check < FEED`.

what is taken:
  Axes by the CF conventions: longitude and latitude, or x and y of a projection;
  a time, or a reference time with lead times; heights in metres as levels. Packed
  values are unpacked; missing ones stay missing. The feed has whole numbers, so a
  value with decimals needs --scale; it is rounded to the nearest, and notes tell
  how many were changed and by how much.

exit status:
  0  done
  1  the words above can't be read
  2  no feed can be made of the file as asked; the sentence says why
  3  reading the file failed
  4  writing the feed failed
  5  there is too little memory
  9  the file can't be opened
 10  a Debian package is missing; the sentence names it
With every status but 0 and 4 nothing was written."""


class _Parser(argparse.ArgumentParser):
    def error(self, message):
        self.print_usage(sys.stderr)
        self.exit(WORDS, f"to_feed: {message}\n")


def _code(text: str) -> int:
    found = re.fullmatch(r"(?:EPSG:)?(\d{1,6})", text, re.IGNORECASE)
    if not found:
        raise argparse.ArgumentTypeError(f"`{text}` is no EPSG code, such as 25833")
    return int(found[1])


def _metres(text: str) -> int:
    if not re.fullmatch(r"\d{1,8}", text) or int(text) == 0:
        raise argparse.ArgumentTypeError(f"`{text}` isn't a whole number of metres from 1 on")
    return int(text)


def _box(text: str) -> tuple[int, int, int, int]:
    parts = text.split(",")
    if len(parts) != 4 or not all(re.fullmatch(r"[+-]?\d{1,9}", part.strip()) for part in parts):
        raise argparse.ArgumentTypeError(f"`{text}` isn't MINX,MINY,MAXX,MAXY in whole metres")
    left, low, right, high = (int(part) for part in parts)
    if left > right or low > high:
        raise argparse.ArgumentTypeError(f"`{text}` has a minimum above its maximum; it is MINX,MINY,MAXX,MAXY")
    return left, low, right, high


def _scale(text: str) -> tuple[str, Decimal]:
    name, sign, number = text.rpartition("=")
    try:
        scale = Decimal(number)
    except InvalidOperation:
        scale = Decimal(0)
    if (sign and not name) or not scale.is_finite() or not Decimal("1e-12") <= scale <= Decimal("1e12"):
        raise argparse.ArgumentTypeError(f"`{text}` is neither a step such as 0.1 nor NAME=0.1")
    return name, scale


def _parameter(text: str) -> tuple[str, str]:
    name, sign, identifier = text.partition("=")
    if not name or not limits.is_name(identifier if sign else name):
        raise argparse.ArgumentTypeError(f"`{text}` is neither NAME nor NAME=ID; an ID has 1 to 128 bytes and no comma")
    return name, identifier if sign else name


def _at(text: str) -> tuple[str, str]:
    name, _, value = text.partition("=")
    if not name or not value:
        raise argparse.ArgumentTypeError(f"`{text}` isn't NAME=VALUE, such as isobaricInhPa=850")
    return name, value


def _name(text: str) -> str:
    if not limits.is_name(text):
        raise argparse.ArgumentTypeError(f"`{text}` is no id: it needs 1 to 128 bytes, no comma and no control character")
    return text


def _instant(text: str) -> int:
    seconds = instants.read(text)
    if seconds is None:
        raise argparse.ArgumentTypeError(f"`{text}` is no instant, such as 2024-01-01T00:00:00Z")
    return seconds


def _times(text: str) -> tuple[int, int]:
    first, sign, last = text.partition("/")
    if not sign:
        raise argparse.ArgumentTypeError(f"`{text}` isn't FROM/TO, such as 2024-01-01T00:00:00Z/..")
    sides = (
        instants.FIRST if first in ("", "..") else _instant(first),
        instants.LAST if last in ("", "..") else _instant(last),
    )
    if sides[0] > sides[1]:
        raise argparse.ArgumentTypeError(f"`{text}` ends before it begins")
    return sides


def _parser() -> argparse.ArgumentParser:
    parser = _Parser(
        prog="to_feed.py", description=ABOUT, epilog=EXAMPLES, formatter_class=argparse.RawDescriptionHelpFormatter,
        allow_abbrev=False, usage="to_feed.py FILE --crs CODE [options] > feed.jsonl",
    )
    parser.add_argument("file", metavar="FILE", help="a NetCDF or GRIB file; it is only read")
    _add_places(parser)
    _add_values(parser)
    _add_times(parser)
    _add_ids(parser)
    return parser


def _add_places(parser) -> None:
    group = parser.add_argument_group("places")
    group.add_argument("--crs", required=True, type=_code, metavar="CODE", help="the EPSG code of the feed's system, projected and in metres, such as 25833")
    group.add_argument("--regrid", type=_metres, metavar="METRES", help="a new grid with nodes at the whole multiples of METRES; each takes the value of the nearest node of the file, and none beyond the file's grid. Needed where the file's grid has other rows and columns than those of CODE")
    group.add_argument("--box", type=_box, metavar="MINX,MINY,MAXX,MAXY", help="only the nodes in this box, its borders included, in metres of CODE")
    group.add_argument("--file-crs", type=_code, metavar="CODE", help="the EPSG code of the file's own x and y, where the file doesn't say it")


def _add_values(parser) -> None:
    group = parser.add_argument_group("values")
    group.add_argument("--parameter", action="append", default=[], type=_parameter, metavar="NAME[=ID]", help="a variable to take, perhaps under another id; may stand several times. Without it all variables on the grid are taken")
    group.add_argument("--scale", action="append", default=[], type=_scale, metavar="[NAME=]STEP", help="the feed counts in steps of this size: with 0.1 the value 271.3 K is 2713 in the unit `0.1 K`. With NAME= for one variable, else for all; may stand several times")
    group.add_argument("--at", action="append", default=[], type=_at, metavar="NAME=VALUE", help="one value of a dimension that a feed doesn't have, such as isobaricInhPa=850, or number=0 of an ensemble; may stand several times")


def _add_times(parser) -> None:
    group = parser.add_argument_group("times")
    group.add_argument("--times", type=_times, metavar="FROM/TO", help="only the times from FROM to TO, both included; `..` leaves a side open")
    group.add_argument("--time", type=_instant, metavar="INSTANT", help="the time of a file that has none, such as 2024-01-01T00:00:00Z")


def _add_ids(parser) -> None:
    group = parser.add_argument_group("ids and output")
    group.add_argument("--collection", type=_name, metavar="ID", help="the collection's id; else the file's name without its ending")
    group.add_argument("--title", metavar="TEXT", help="its title; else the title in the file, or the id")
    group.add_argument("--instance", type=_name, metavar="ID", help="the id of a file's one forecast run; else its reference time, or the first time where the file tells none. A service answers from the greatest id unless another is asked, so ids should ascend with time")
    group.add_argument("--vertical", metavar="TEXT", help="the text that names the system of heights, where the file has levels")
    group.add_argument("--no-collection", action="store_true", help="leave out the line that adds the collection, for lines that go behind an earlier feed of it")
    group.add_argument("--output", metavar="FILE", help="write the feed here, whole or not at all, in place of standard output")


def _joined(words: list[str]) -> list[str]:
    """Words with `--box` and a value that begins with a minus sign joined, which else would look like an option."""
    joined: list[str] = []
    for word in words:
        if joined and joined[-1] == "--box" and re.match(r"-\d", word):
            joined[-1] = f"--box={word}"
        else:
            joined.append(word)
    return joined


def read_words(words: list[str]) -> argparse.Namespace:
    """What the words ask for; with words that can't be read, the program ends with status 1."""
    parser = _parser()
    asked = parser.parse_args(_joined(words))
    if asked.collection is None:
        asked.collection = Path(asked.file).stem
        if not limits.is_name(asked.collection):
            parser.error(f"`{asked.collection}` can't be the collection's id; --collection gives another")
    asked.scale, asked.parameter = dict(asked.scale), dict(asked.parameter)
    if len(set(asked.parameter.values())) < len(asked.parameter):
        parser.error("two of --parameter give the same id")
    return asked
