#!/usr/bin/env python3
"""Counts the words of the documents: README.md, CONTRIBUTING.md and docs/*.md, which together have at most 25,000.

It says too where a document tells of the past, where README is longer than 150 lines, and where a sentence of it has more than
40 words. The status is 1 where any of these is so. Run it from anywhere:
bench/words.py"""
import glob
import os
import re
import sys

ABOVE = os.path.join(os.path.dirname(os.path.abspath(__file__)), "..")
LIMIT = 25_000
README_LINES = 150
SENTENCE_WORDS = 40
PAST = re.compile(
    r"\b(by now|until now|no longer|not any more|was widened|since that run|used to be|formerly|previously|as before|than before|"
    r"was renamed|has become|earlier version|once took|has left|since these figures)\b",
    re.IGNORECASE,
)


def documents():
    """The paths of the documents that are counted."""
    return [os.path.join(ABOVE, name) for name in ("README.md", "CONTRIBUTING.md")] + sorted(glob.glob(os.path.join(ABOVE, "docs", "*.md")))


def prose(text):
    """The text without its blocks of code, its tables and its headings, a paragraph a line."""
    kept = []
    for line in text.split("\n"):
        if line.startswith(("    ", "|", "#", "!")) or not line.strip():
            kept.append("\n")
        else:
            kept.append(re.sub(r"^(\d+\.|-) ", "\n", line))
    return " ".join(kept).split("\n")


def long_sentences(text):
    """The sentences of a text that have more than 40 words, with how many they have."""
    for paragraph in prose(text):
        for sentence in re.split(r"(?<=[.:?!])\s+(?=[A-Z`*(])", paragraph.strip()):
            count = len(sentence.split())
            if count > SENTENCE_WORDS:
                yield count, sentence


def main():
    total = 0
    wrong = False
    for path in documents():
        name = os.path.relpath(path, ABOVE)
        with open(path, encoding="utf-8") as page:
            text = page.read()
        count = len(text.split())
        total += count
        print(f"{count:7,} {name}")
        for number, line in enumerate(text.split("\n"), 1):
            found = PAST.search(line)
            if found:
                wrong = True
                print(f"        line {number} tells of the past: {found.group(0)!r}")
        if name == "README.md":
            lines = text.count("\n")
            if lines > README_LINES:
                wrong = True
                print(f"        {lines} lines, at most {README_LINES}")
            for length, sentence in long_sentences(text):
                wrong = True
                print(f"        a sentence of {length} words: {sentence[:60]}..")
    print(f"{total:7,} words, at most {LIMIT:,}")
    sys.exit(1 if wrong or total > LIMIT else 0)


if __name__ == "__main__":
    main()
