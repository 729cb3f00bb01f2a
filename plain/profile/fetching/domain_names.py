"""Domain names in ASCII (URL Standard, section 3.3; UTS 46, section 4; RFC 3492; RFC 5893).

What UTS 46 maps and allows is taken from Python's Unicode data, by the rules that its table is made from: NFKC and case folding, without
the deviations. So a letter that Unicode got later is none here; and a zero width non-joiner is allowed behind a virama alone.
"""

import re
from unicodedata import bidirectional, category, combining, normalize

_DOTS = str.maketrans({dot: "." for dot in "\u3002\uff0e\uff61"})
_DEVIATIONS = "\u00df\u03c2\u200c\u200d"  # they are mapped by folding, and kept here
_JOINERS = "\u200c\u200d"
_IGNORED = re.compile("[\u00ad\u034f\u180b-\u180d\u180f\u200b\u2060\u2064\ufe00-\ufe0f\ufeff\U0001bca0-\U0001bca3\U000e0100-\U000e01ef]")
_NEVER_MAPPED = "\ufffd"  # what stands for a character that isn't allowed
_NEVER = ("Cc", "Cf", "Cs", "Co", "Cn", "Zl", "Zp")  # categories, beyond ASCII


def ascii_name(name: str) -> str | None:
    """The name in ASCII and in small letters, or None where it can't be had."""
    if name.isascii():
        return name.lower()
    labels = [_told_label(label) for label in _mapped(name).split(".")]
    if any(label is None or not _is_valid(label) for label in labels):
        return None
    if any(_is_right_to_left(label) for label in labels) and not all(map(_meets_bidi_rule, labels)):
        return None
    return ".".join(label if label.isascii() else "xn--" + label.encode("punycode").decode("ascii") for label in labels)


def _mapped(name: str) -> str:
    name = _IGNORED.sub("", name).translate(_DOTS)
    return normalize("NFC", "".join(map(_mapped_character, name)))


def _mapped_character(character: str) -> str:
    if character in _DEVIATIONS:
        return character
    # what folding makes of some characters is folded to others only when it was composed
    mapped = normalize("NFKC", normalize("NFKC", normalize("NFKC", character).casefold()).casefold())
    return _NEVER_MAPPED if "." in mapped and character != "." else mapped


def _told_label(label: str) -> str | None:
    """The label that stands in punycode, or the label itself."""
    if not label.startswith("xn--"):
        return label
    written = label.removeprefix("xn--")
    try:
        told = written.encode("ascii").decode("punycode")
    except UnicodeError:
        return None
    if told.isascii() or told.encode("punycode").decode("ascii") != written:
        return None
    return told if _mapped(told) == told else None


def _is_valid(label: str) -> bool:
    if label and category(label[0]).startswith("M"):
        return False
    return all(_is_allowed(label, place) for place, character in enumerate(label) if not character.isascii())


def _is_allowed(label: str, place: int) -> bool:
    if label[place] in _JOINERS:
        return place > 0 and combining(label[place - 1]) == 9  # a virama
    return category(label[place]) not in _NEVER and label[place] != _NEVER_MAPPED


# The bidi rule


def _is_right_to_left(label: str) -> bool:
    return any(bidirectional(character) in ("R", "AL", "AN") for character in label)


def _meets_bidi_rule(label: str) -> bool:
    kinds = [bidirectional(character) for character in label]
    while kinds and kinds[-1] == "NSM":
        kinds.pop()
    if not kinds:
        return True
    neutral = {"ES", "CS", "ET", "ON", "BN", "NSM"}
    if kinds[0] == "L":
        return set(kinds) <= {"L", "EN"} | neutral and kinds[-1] in ("L", "EN")
    if kinds[0] not in ("R", "AL"):
        return False
    is_mixed = "EN" in kinds and "AN" in kinds
    return set(kinds) <= {"R", "AL", "AN", "EN"} | neutral and kinds[-1] in ("R", "AL", "EN", "AN") and not is_mixed
