"""The form of a worked row, and how rows are run on the plain program or on built ones."""

from dataclasses import dataclass

from plain.comparison.inputs.asks import Ask
from plain.comparison.programs import endings, reader_answers
from plain.comparison.readers import feed_answer
from plain.profile.answers.offered import nearest_is_offered
from plain.profile.commands import Ending, held_files, run


@dataclass(frozen=True)
class Row:
    """What a program is started with, and how it should end.

    The word `feed` is no command: its output is what the reader of feeds answers to the input, in the notation of `edr_answers`, which
    names the fault of a change, as `check` doesn't.
    """

    words: tuple[str, ...]
    input: str
    status: int
    output: str
    errors: str = ""
    files: tuple[tuple[str, str], ...] = ()
    nearest: bool | None = None  # whether it holds where position of stations is offered, or where it isn't; None is both

    def ask(self) -> Ask:
        """What the program is started with, in bytes."""
        files = tuple((name.encode("utf-8"), content.encode("utf-8")) for name, content in self.files)
        return Ask(tuple(word.encode("utf-8") for word in self.words), self.input.encode("utf-8"), files)

    def wanted(self) -> Ending:
        """How it should end."""
        return Ending(self.status, self.output.encode("utf-8"), self.errors.encode("utf-8"))

    def is_of_reader(self) -> bool:
        """Whether it is about the reader of feeds, and no command."""
        return self.words == ("feed",)

    def holds(self) -> bool:
        """Whether it holds with what is offered."""
        return self.nearest in (None, nearest_is_offered())


@dataclass(frozen=True)
class Programs:
    """The built programs that rows are run on. Where both are absent, they are run on the plain one."""

    edr: str | None
    answers: str | None

    def can_run(self, row: Row) -> bool:
        """Whether a row can be run on them."""
        needed = self.answers if row.is_of_reader() else self.edr
        return needed is not None or self == Programs(None, None)

    def ending(self, row: Row) -> Ending:
        """How a row's run ends."""
        ask = row.ask()
        if row.is_of_reader():
            return Ending(0, reader_answers(self.answers, [("f", ask.input)])[0] if self.answers else feed_answer(ask.input).encode("utf-8"))
        if self.edr:
            return endings(self.edr, [ask])[0]
        return run(list(ask.words), lambda: ask.input, held_files(dict(ask.files)))


def differences(rows: list[Row], programs: Programs) -> tuple[int, list[str]]:
    """How many of the rows were run, and what is told of each that ends otherwise."""
    runs = [(row, programs.ending(row)) for row in rows if row.holds() and programs.can_run(row)]
    return len(runs), [_told(row, ending) for row, ending in runs if ending != row.wanted()]


def _told(row: Row, ending: Ending) -> str:
    ask = row.ask()
    lines = [
        f"differs: {_shortened(b' '.join(ask.words))}",
        f"  input {_shortened(ask.input)!r}",
        f"  is    {ending.status} {_shortened(ending.output + ending.errors)!r}",
        f"  want  {row.status} {_shortened((row.output + row.errors).encode('utf-8'))!r}",
    ]
    return "\n".join(lines)


def _shortened(some: bytes) -> str:
    return some.decode("utf-8", "replace") if len(some) <= 1000 else f"{some[:1000].decode('utf-8', 'replace')}... ({len(some)} bytes)"
