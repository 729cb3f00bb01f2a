"""Serves the page, and in place of the daemon the answers of the plain program, for a look at the page before the programs are
built. It is slow: for small feeds. python3 viewer/stand_in.py FEED PORT, then http://127.0.0.1:PORT/viewer/"""

import os
import sys
from http.server import SimpleHTTPRequestHandler, ThreadingHTTPServer

TOP = os.path.dirname(os.path.dirname(os.path.abspath(__file__)))
sys.path.insert(0, TOP)

from plain.profile.answers.target import answer  # noqa: E402
from plain.profile.feeds.lines import read_feed  # noqa: E402


class Handler(SimpleHTTPRequestHandler):
    """The page's files, and the answers from the last edition of a feed."""

    protocol_version = "HTTP/1.1"
    editions: list = []

    def __init__(self, *arguments):
        super().__init__(*arguments, directory=TOP)

    def do_GET(self):
        if self.path.startswith("/viewer/"):
            super().do_GET()
        else:
            self._answer()

    def do_HEAD(self):
        self._answer()

    def _answer(self):
        found = answer(self.path.encode("utf-8"), self.editions[-1])
        body = found.text.encode("utf-8")
        self.send_response(found.status)
        self.send_header("Content-Type", "application/json")
        self.send_header("X-Edr-Edition", str(len(self.editions)))
        self.send_header("Content-Length", str(len(body)))
        self.end_headers()
        if self.command == "GET":
            self.wfile.write(body)

    def log_message(self, *arguments):
        pass


def main() -> int:
    if len(sys.argv) != 3:
        print(__doc__, file=sys.stderr)
        return 1
    with open(sys.argv[1], "rb") as feed:
        Handler.editions = read_feed(feed.read())
    ThreadingHTTPServer(("127.0.0.1", int(sys.argv[2])), Handler).serve_forever()
    return 0


if __name__ == "__main__":
    sys.exit(main())
