"""Starts the daemon for tests, at a port that is free."""

import os
import socket
import subprocess
import time
from contextlib import contextmanager
from pathlib import Path
from typing import Iterator

TOP = Path(__file__).resolve().parent.parent
_WAIT = 60  # seconds for a feed to be read


def program(name: str) -> str:
    """A program of the repository, by the environment's variable of its name in capitals, else the one at the top."""
    return os.environ.get(name.upper()) or str(TOP / name)


@contextmanager
def served(feed: Path, edrd: str | None = None) -> Iterator[str]:
    """The address of a daemon that serves the editions of a feed, which are all published at once."""
    port = _free_port()
    words = [edrd or program("edrd"), str(feed), "--port", str(port), "--every", "0"]
    daemon = subprocess.Popen(words, stdout=subprocess.DEVNULL)
    try:
        _await(daemon, port)
        yield f"http://127.0.0.1:{port}"
    finally:
        daemon.terminate()
        daemon.wait()


def _free_port() -> int:
    with socket.socket() as door:
        door.bind(("127.0.0.1", 0))
        return door.getsockname()[1]


def _await(daemon: subprocess.Popen, port: int) -> None:
    """Waits until the port is open."""
    end = time.monotonic() + _WAIT
    while time.monotonic() < end:
        if daemon.poll() is not None:
            raise SystemExit(f"edrd ended with status {daemon.returncode}")
        try:
            socket.create_connection(("127.0.0.1", port), timeout=1).close()
            return
        except OSError:
            time.sleep(0.1)
    raise SystemExit(f"edrd opened no port within {_WAIT} seconds")
