"""What is told on standard error: progress where it is a terminal, and notes of what the feed leaves out."""

import sys


class Teller:
    """Shows progress on one line, and gathers notes, which are written at the end."""

    def __init__(self, stream=None):
        self._stream = stream or sys.stderr
        self._shows = self._stream.isatty()
        self._notes: list[str] = []

    def progress(self, text: str) -> None:
        if self._shows:
            self._stream.write(f"\r\x1b[K{text}")
            self._stream.flush()

    def clear(self) -> None:
        if self._shows:
            self._stream.write("\r\x1b[K")
            self._stream.flush()

    def note(self, text: str) -> None:
        """Keeps a note; the same note is written once."""
        if text not in self._notes:
            self._notes.append(text)

    def write_notes(self) -> None:
        self.clear()
        for text in self._notes:
            self._stream.write(f"note: {text}\n")

    def say(self, text: str) -> None:
        self.clear()
        self._stream.write(f"to_feed: {text}\n")
