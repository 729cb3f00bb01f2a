"""What `--why` says behind the line of an ending: the fault of a coverage or of a change, or what is wrong with a reply."""

import re

from plain.profile.faults import NamedFault
from plain.profile.fetching.replies import BadReply, NotData

_ABOUT_TEXTS = {"UnsupportedDomain", "UnsupportedSystem", "UnsupportedRange", "ParametersDiffer"}


def explained(fault: Exception | None) -> str:
    """What is said of a fault, with what stands before it; nothing where there is no more to say."""
    match fault:
        case BadReply():
            return f": place {fault.place}"
        case NotData():
            return "".join(f" {text}" for text in _shown(fault.code))
        case NamedFault():
            return f": {_fault_words(fault)}"
    return ""


def _fault_words(fault: NamedFault) -> str:
    """The name of a fault, and the member, the place, the counts or the text that it is about."""
    about = [word for text in fault.about for word in _shown(text)] if fault.name in _ABOUT_TEXTS else map(_word, fault.about)
    return " ".join((fault.name.removesuffix("At"), *about))


def _word(about: str | int) -> str:
    """A number, or a member as CoverageJSON spells it."""
    if type(about) is int:
        return str(about)
    return "type" if about == "Kind" else about[:1].lower() + about[1:]


def _shown(text: str) -> list[str]:
    """A text that was read, where it is 1 to 64 visible characters of ASCII."""
    return [text] if re.fullmatch("[!-~]{1,64}", text) else []
