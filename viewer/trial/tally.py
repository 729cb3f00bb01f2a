"""What was checked, and what differed."""


class Tally:
    def __init__(self):
        self.passed = 0
        self.failed = 0

    def check(self, name: str, holds: bool, told: object = ""):
        """Counts a check, and prints one that failed."""
        if holds:
            self.passed += 1
        else:
            self.failed += 1
            print(f"FAILED {name}: {told}", flush=True)

    def equal(self, name: str, found: object, wanted: object):
        self.check(name, found == wanted, f"found {found!r}, wanted {wanted!r}")

    def quiet(self, name: str, page, but: str | None = None):
        """Checks that the console told no error, but those with a text."""
        faults = [fault for fault in page.faults() if but is None or but not in fault]
        self.check(f"{name}: no error on the console", not faults, faults)
