"""Faults that have a name."""


class NamedFault(Exception):
    """A fault: its name, and what it is about."""

    def __init__(self, name: str, *about):
        super().__init__(name, *about)
        self.name = name
        self.about = about

    def __str__(self) -> str:
        return f"{self.name}({', '.join(map(str, self.about))})" if self.about else self.name
