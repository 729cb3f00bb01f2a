"""Draws that all inputs are made of."""

from random import Random


class Draw(Random):
    """Random numbers, with a few more ways to draw. `group` is the seed that some inputs have in common."""

    def __init__(self, seed: str, group: str = ""):
        super().__init__(seed)
        self.group = group

    def __new__(cls, seed: str, group: str = ""):
        return super().__new__(cls, seed)

    def chance(self, part: float) -> bool:
        """True in so many of all cases, 0 to 1."""
        return self.random() < part

    def pick(self, *choices):
        """One of some choices."""
        return self.choice(choices)

    def near(self, *numbers: int) -> int:
        """One of some numbers, or one that is less than 3 away from it."""
        return self.choice(numbers) + self.pick(0, 0, 0, -1, 1, -2, 2)

    def digits(self, least: int, most: int) -> str:
        """From so many to so many digits."""
        return "".join(self.choice("0123456789") for _ in range(self.randint(least, most)))


def damaged_bytes(draw: Draw, text: bytes, marks: bytes) -> bytes:
    """A text with one damage: bytes cut off, taken out, put in, doubled, exchanged, or one written over."""
    at = draw.randint(0, len(text))
    put_in = bytes([draw.choice(marks)]) if draw.chance(0.9) else bytes([draw.randrange(256)])
    way = draw.randrange(8)
    if way == 0:
        return text[:at]
    if way == 1:
        return text[at:]
    if way == 2:
        return text[:at] + put_in + text[at:]
    if way == 3:
        return text[:at] + put_in + text[at + 1 :]
    if way == 4:
        return text[:at] + text[at : at + 1] + text[at:]
    if way == 5:
        return text[:at] + text[at + 1 : at + 2] + text[at : at + 1] + text[at + 2 :]
    length = draw.randint(1, 4)
    return text[:at] + text[at + length :]
