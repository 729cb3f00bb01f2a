"""What the heads of requests and of replies have in common, as they are drawn."""

from plain.comparison.inputs.draws import Draw


class Head:
    """A head: the bytes in front of it, its first line, its fields, and the ends of its lines."""

    def __init__(self, draw: Draw):
        self.draw = draw
        self.front = b""
        self.end = b"\r\n"
        self.mixes_ends = False
        self.lines: list[bytes] = []

    def first_line(self) -> bytes:
        raise NotImplementedError

    def add(self, name: bytes, value: bytes) -> None:
        """Adds a field somewhere."""
        blank = self.draw.pick(b" ", b" ", b" ", b"", b"\t", b"  \t ")
        after = self.draw.pick(b"", b"", b"", b" ", b"\t ")
        self.put(self.draw.pick(name, name, name.lower(), name.upper()) + b":" + blank + value + after)

    def put(self, line: bytes) -> None:
        self.lines.insert(self.draw.randint(0, len(self.lines)), line)

    def head(self) -> bytes:
        lines = [self.first_line(), *self.lines, b""]
        if not self.mixes_ends:
            return self.front + b"".join(line + self.end for line in lines)
        draw = Draw(repr(lines))  # the same ends each time
        return self.front + b"".join(line + draw.pick(b"\r\n", b"\n") for line in lines)
