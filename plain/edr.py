"""Starts plain/profile/commands.py, which says what it does."""

import sys
from pathlib import Path

sys.path[0] = str(Path(__file__).resolve().parents[1])

from plain.profile.commands import main  # noqa: E402

if __name__ == "__main__":
    sys.exit(main())
