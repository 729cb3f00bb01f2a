"""Runs the built programs that are compared."""

import os
import shutil
import subprocess
import sys
import tempfile
from pathlib import Path

from plain.comparison.inputs.asks import Ask
from plain.profile.commands import Ending

_LENGTH_DIGITS = 8


class NoAnswer(Exception):
    """A program ended without answering all inputs."""


# Readers: edr_answers answers many cases at a time


Case = tuple[str, bytes]  # the mark of a reader, and a text


def reader_answers(program: str, cases: list[Case]) -> list[bytes]:
    """What the program answers to some cases.

    It reads a mark, eight digits of a length and a text for each, and writes eight digits, an answer and a line end.
    """
    done = subprocess.run([program], input=_written(cases), capture_output=True)
    return _cut_answers(done.stdout, len(cases), done.stderr)


def _written(cases: list[Case]) -> bytes:
    return b"".join(mark.encode() + b"%08d" % len(text) + text for mark, text in cases)


def _cut_answers(output: bytes, count: int, errors: bytes) -> list[bytes]:
    answers, at = [], 0
    while at < len(output) and len(answers) < count:
        length = int(output[at : at + _LENGTH_DIGITS])
        at += _LENGTH_DIGITS
        answers.append(output[at : at + length])
        at += length + 1
    if len(answers) != count:
        raise NoAnswer(f"{len(answers)} answers to {count} cases: {errors[-400:].decode(errors='replace')}")
    return answers


# The program edr: a process for each input


def command_of(program: str) -> list[bytes]:
    """The words that start a program; a file that ends with `.py` is run by Python."""
    path = os.path.abspath(shutil.which(program) or program)
    return [os.fsencode(word) for word in ([sys.executable, path] if path.endswith(".py") else [path])]


def endings(program: str, asks: list[Ask]) -> list[Ending]:
    """How `edr` ends for some words and inputs. It is started in a folder that has the files of the input."""
    command = command_of(program)
    return [_ending(command, ask) for ask in asks]


def _ending(command: list[bytes], ask: Ask) -> Ending:
    with tempfile.TemporaryDirectory() as folder:
        for name, content in ask.files:
            Path(folder, os.fsdecode(name)).write_bytes(content)
        done = subprocess.run([*command, *ask.words], input=ask.input, capture_output=True, cwd=folder)
    return Ending(done.returncode, done.stdout, done.stderr)
