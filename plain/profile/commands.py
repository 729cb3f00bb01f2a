"""The commands of the program, and how each run ends: its status, its output, and its line on standard error."""

import os
import re
import sys
from dataclasses import dataclass
from typing import Callable

from plain.profile import limits
from plain.profile.answers.target import answer
from plain.profile.coverage_json.read import CoverageFault, read_document
from plain.profile.coverage_json.tables import write_table
from plain.profile.explained import explained
from plain.profile.feeds.collections import Collections
from plain.profile.feeds.lines import FeedFault, read_feed
from plain.profile.feeds.made import made_feed
from plain.profile.feeds.summaries import count_line, summary_lines
from plain.profile.fetching.links import Link
from plain.profile.fetching.replies import BadReply, NotData, read_reply
from plain.profile.fetching.urls import Url, read_url
from plain.profile.http.sessions import serve
from plain.profile.large_run import work_text
from plain.profile.names import is_utf8

USAGE = "usage: edr ask TARGET | replay FEED [--advance] | check [--summary] [--why] | make NUMBER | work NUMBER | show [--why] | fetch URL [--why] | import | export TARGET | --help | --version"

Read = Callable[[], bytes]  # gives all that there is; raises OSError
Connect = Callable[[str, int], Link]  # to a host, at a port; raises OSError


@dataclass(frozen=True)
class Ending:
    """How a run ends: its status, what stands on standard output, and on standard error."""

    status: int
    output: bytes = b""
    errors: bytes = b""


def _ended(status: int, line: str) -> Ending:
    return Ending(status, errors=line.encode("utf-8") + b"\n")


def run(words: list[bytes], read_input: Read, open_file: Callable[[bytes], Read], connect: Connect = Link) -> Ending:
    """What the program does for its words. The input is read, a file opened, and a peer connected to, where the words ask for it."""
    explains = len(words) > 1 and words[0] in (b"check", b"show", b"fetch") and words[-1] == b"--why"
    if explains:
        words = words[:-1]
    if words == [b"check"]:
        return _of_feed(read_input(), explains, lambda editions: Ending(0, count_line(editions).encode("utf-8")))
    if words == [b"check", b"--summary"]:
        return _of_feed(read_input(), explains, lambda editions: Ending(0, summary_lines(editions).encode("utf-8")))
    if len(words) == 2 and words[0] == b"ask":
        return _of_feed(read_input(), False, lambda editions: _answered(words[1], editions[-1]))
    if words[:1] == [b"replay"] and len(words) > 1 and words[2:] in ([], [b"--advance"]) and is_utf8(words[1]):
        return _of_file(words[1], open_file, lambda feed: _replayed(feed, len(words) > 2, read_input))
    if len(words) == 2 and words[0] == b"make" and _is_number(words[1]):
        return Ending(0, made_feed(int(words[1])).encode("utf-8"))
    if len(words) == 2 and words[0] == b"work" and _is_number(words[1]):
        return Ending(0, work_text(int(words[1])).encode("utf-8"))
    if words == [b"show"]:
        return _of_read(read_input, lambda text: _shown(text, explains))
    if len(words) == 2 and words[0] == b"fetch" and (url := read_url(words[1])):
        return _fetched(url, connect, explains)
    return _ended(1, USAGE)


def _is_number(word: bytes) -> bool:
    """Whether a word is 1 to 20 digits of a number within 64 bits."""
    return re.fullmatch(rb"[0-9]{1,20}", word) is not None and int(word) < 2**64


def _of_file(name: bytes, open_file: Callable[[bytes], Read], ending_of: Callable[[bytes], Ending]) -> Ending:
    """How it ends with what a file holds, or without it."""
    try:
        read = open_file(name)
    except OSError:
        return _ended(9, "open fault")
    return _of_read(read, ending_of)


def _of_read(read: Read, ending_of: Callable[[bytes], Ending]) -> Ending:
    """How it ends with what can be read, or without it."""
    try:
        content = read()
    except OSError:
        return _ended(3, "read fault")
    return ending_of(content)


def _replayed(feed: bytes, advances: bool, read_input: Read) -> Ending:
    """The replies to the input; each request finds the first edition, or with `advances` the next one."""
    return _of_feed(feed, False, lambda editions: Ending(0, serve(read_input(), editions if advances else editions[:1]).output()))


def _of_feed(feed: bytes, explains: bool, ending_of) -> Ending:
    """How it ends with the editions of a feed, or with the feed's fault, which is explained where that is asked for."""
    try:
        return ending_of(read_feed(feed))
    except FeedFault as fault:
        line = f"feed: {fault.name}" + (f" line {fault.line}" if fault.line else "")
        return _ended(2, line + (explained(fault.inner) if explains else ""))


def _answered(target: bytes, edition: Collections) -> Ending:
    found = answer(target, edition)
    return Ending(0, found.text.encode("utf-8")) if found.status == 200 else _ended(6, found.text)


def _shown(text: bytes, explains: bool) -> Ending:
    """The table of a document."""
    if len(text) > limits.BODY_BYTES:
        return _ended(7, "reply: TooLong")
    try:
        return Ending(0, write_table(read_document(text)).encode("utf-8"))
    except CoverageFault as fault:
        return _ended(7, "reply: Cov" + (explained(fault) if explains else ""))


def _fetched(url: Url, connect: Connect, explains: bool) -> Ending:
    """The table of the document that a peer replies."""
    try:
        link = connect(*url.peer())
    except OSError:
        return _ended(8, "connect fault")
    try:
        link.send(url.request())
    except OSError:
        link.close()
        return _ended(4, "write fault")
    try:
        return _of_reply(link, explains)
    except OSError:
        return _ended(3, "read fault")
    finally:
        link.close()


def _of_reply(link: Link, explains: bool) -> Ending:
    try:
        return Ending(0, write_table(read_reply(link.pieces()).document).encode("utf-8"))
    except BadReply as fault:
        return _ended(7, "reply: BadReply" + (explained(fault) if explains else ""))
    except NotData as fault:
        return _ended(7, f"reply: NotData {fault.status}" + (explained(fault) if explains else ""))
    except CoverageFault as fault:
        return _ended(7, "reply: Cov" + (explained(fault) if explains else ""))


def real_file(name: bytes) -> Read:
    """Opens a file. Raises OSError."""
    number = os.open(name, os.O_RDONLY)
    return lambda: os.fdopen(number, "rb").read()


def held_files(files: dict[bytes, bytes]) -> Callable[[bytes], Read]:
    """Opens files that are held in memory."""

    def open_file(name: bytes) -> Read:
        if name not in files:
            raise FileNotFoundError(name)
        return lambda: files[name]

    return open_file


def main() -> int:
    ending = run([os.fsencode(word) for word in sys.argv[1:]], sys.stdin.buffer.read, real_file)
    sys.stdout.buffer.write(ending.output)
    sys.stderr.buffer.write(ending.errors)
    return ending.status
