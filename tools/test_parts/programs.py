"""The programs that are tried: to_feed.py and edr."""

import os
import subprocess
import sys
import tempfile
from dataclasses import dataclass
from pathlib import Path

import to_feed_parts.making  # read once, here, and not in each child
from to_feed_parts.running import run as run_to_feed

TO_FEED = Path(__file__).resolve().parent.parent / "to_feed.py"


@dataclass(frozen=True)
class Ended:
    status: int
    output: bytes
    errors: str


def run(words: list, given: bytes = b"") -> Ended:
    ended = subprocess.run([str(word) for word in words], input=given, capture_output=True, timeout=600)
    return Ended(ended.returncode, ended.stdout, ended.stderr.decode("utf-8", "replace"))


def to_feed(*words) -> Ended:
    """What to_feed.py does for words, in a child of this process, which has read the libraries already."""
    with tempfile.TemporaryFile() as output, tempfile.TemporaryFile() as errors:
        sys.stdout.flush()
        child = os.fork()
        if child == 0:
            _become([str(word) for word in words], output.fileno(), errors.fileno())
        status = os.waitstatus_to_exitcode(os.waitpid(child, 0)[1])
        output.seek(0)
        errors.seek(0)
        return Ended(status, output.read(), errors.read().decode("utf-8", "replace"))


def _become(words: list[str], output: int, errors: int) -> None:
    os.dup2(output, 1)
    os.dup2(errors, 2)
    status = 99  # of a fault that nobody foresaw
    try:
        status = run_to_feed(words)
    except SystemExit as end:
        status = end.code
    finally:
        if status == 99:
            import traceback

            traceback.print_exc()
        sys.stdout.flush()
        sys.stderr.flush()
        os._exit(status)


@dataclass(frozen=True)
class Edr:
    words: list

    def check(self, feed: bytes) -> str:
        ended = run([*self.words, "check"], feed)
        assert ended.status == 0, f"edr check ends with {ended.status}: {ended.errors}"
        return ended.output.decode()

    def ask(self, target: str, feed: bytes) -> Ended:
        return run([*self.words, "ask", target], feed)
