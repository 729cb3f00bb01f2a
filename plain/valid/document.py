"""Whether a text is valid CoverageJSON, by the standard alone (OGC 21-069r2, CoverageJSON 1.0).

    python3 plain/validate.py < FILE
    python3 plain/validate.py FILE..

It knows nothing of the product or of its profile: decimals, degrees, text values and domain types that the profile leaves out are
valid here. Each rule that is broken is a line, `WHERE: WHAT`; the status is 1 where there is one.

What can't be seen in the text alone isn't looked at: whether a URL leads to a domain or a range, whether an id is a common one, and
whether the coordinates of a reference system stand in the order that the system has them in. Members that the standard doesn't name
are extensions, and are passed over.
"""

import json
import sys

from plain.valid.coverages import check_collection, check_coverage
from plain.valid.domains import check_domain
from plain.valid.faults import Faults
from plain.valid.ranges import check_array, check_tiled_array


def faults_of(text: bytes) -> list[str]:
    """What is wrong with a text; nothing where it is valid."""
    faults = Faults()
    try:
        tree = json.loads(text.decode("utf-8"), object_pairs_hook=_members_once, parse_constant=_no_constant)
    except ValueError as fault:
        faults.add("document", f"is no JSON of UTF-8 with each member once ({fault})")
        return faults.lines
    check_document(faults, tree)
    return faults.lines


def _members_once(members: list[tuple]) -> dict:
    """An object, whose members have different names."""
    names = [name for name, _ in members]
    for name in names:
        if names.count(name) > 1:
            raise ValueError(f"the member {name!r} stands twice")
    return dict(members)


def _no_constant(text: str):
    raise ValueError(f"{text} is no number")


def check_document(faults: Faults, tree) -> None:
    """CoverageJSON objects: a coverage, a collection, a domain, or a range."""
    if not faults.is_object("document", tree):
        return
    checks = {
        "Coverage": lambda: check_coverage(faults, "coverage", tree, {}),
        "CoverageCollection": lambda: check_collection(faults, tree),
        "Domain": lambda: check_domain(faults, "domain", tree, {}),
        "NdArray": lambda: check_array(faults, "range", tree, None),
        "TiledNdArray": lambda: check_tiled_array(faults, "range", tree),
    }
    kind = tree.get("type")
    if faults.needs("document.type", isinstance(kind, str) and kind in checks, "is none of the types of CoverageJSON objects"):
        checks[kind]()


# The command


def main() -> int:
    texts = [(name, open(name, "rb").read()) for name in sys.argv[1:]] or [("", sys.stdin.buffer.read())]
    lines = [f"{name}: {line}" if name else line for name, text in texts for line in faults_of(text)]
    print("\n".join(lines) if lines else "valid")
    return 1 if lines else 0
