"""One run: what the words ask is done, or a sentence says why not."""

from . import faults
from .faults import Fault
from .sources import needs
from .telling import Teller
from .words import read_words

PACKAGES = {"numpy": "python3-numpy", "xarray": "python3-xarray", "pyproj": "python3-pyproj"}


def run(words: list[str]) -> int:
    """Does what the words ask, and answers the status."""
    asked = read_words(words)
    teller = Teller()
    try:
        for module, package in PACKAGES.items():
            needs(module, package)
        from .making import make_feed  # needs the packages

        make_feed(asked, teller)
    except Fault as fault:
        teller.say(str(fault))
        return fault.status
    except MemoryError:
        teller.say("there is too little memory; fewer variables (--parameter), a smaller --box or a larger --regrid would help")
        return faults.MEMORY
    except KeyboardInterrupt:
        teller.say("stopped")
        return 130
    teller.write_notes()
    return faults.DONE
