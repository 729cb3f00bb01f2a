"""Starts plain/valid/document.py, which says what it does."""

import sys
from pathlib import Path

sys.path[0] = str(Path(__file__).resolve().parents[1])

from plain.valid.document import main  # noqa: E402

if __name__ == "__main__":
    sys.exit(main())
