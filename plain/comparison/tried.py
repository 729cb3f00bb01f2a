"""Runs the crate edr by `rt try`, without proof."""

import re
import subprocess
import tempfile
from pathlib import Path

from plain.comparison.inputs.asks import Ask
from plain.profile.commands import Ending

_CRATE = Path(__file__).resolve().parents[2] / "crates" / "edr"


def tried_endings(asks: list[Ask]) -> list[Ending | None]:
    """How `edr` ends for some words and inputs; None where `rt try` can't tell."""
    with tempfile.TemporaryDirectory() as folder:
        for number, ask in enumerate(asks):
            # arguments are given one a line, and braces stand for the case's file
            if _is_triable(ask):
                Path(folder, f"{number:06}").write_bytes(ask.input)
                Path(folder, f"{number:06}.args").write_bytes(b"".join(word + b"\n" for word in ask.words))
        done = subprocess.run(["rt", "try", "--cases", folder], cwd=_CRATE, capture_output=True)
    outputs = re.split(rb"^== ([0-9]{6})\n", done.stdout, flags=re.MULTILINE)[1:]
    output_of = {int(number): output for number, output in zip(outputs[::2], outputs[1::2])}
    lines = re.split(rb"^case=([0-9]{6}) run=ended status=([0-9]+).*\n", done.stderr, flags=re.MULTILINE)
    found: list[Ending | None] = [None] * len(asks)
    for errors, number, status in zip(lines[::3], lines[1::3], lines[2::3]):
        place = int(number)
        found[place] = Ending(int(status), output_of.get(place, b"").removesuffix(b"\n"), errors)
    return found


def _is_triable(ask: Ask) -> bool:
    has_plain_words = all(word and b"\n" not in word and b"\r" not in word and b"{" not in word for word in ask.words)
    return bool(ask.words) and has_plain_words and not ask.files
