"""Faults that end a run, and the status that each ends it with."""

DONE, WORDS, REFUSED, READ, WRITE, MEMORY, OPEN, PACKAGE = 0, 1, 2, 3, 4, 5, 9, 10


class Fault(Exception):
    """Ends the run with a status; its text is a sentence for the person at the terminal."""

    def __init__(self, status: int, sentence: str):
        super().__init__(sentence)
        self.status = status


class Refused(Fault):
    """No feed can be made of the file as asked: what is wrong with which variable, and what would help."""

    def __init__(self, sentence: str):
        super().__init__(REFUSED, sentence)
