"""Links to peers."""

import socket
from typing import Iterator

_PIECE = 65_536  # bytes that are taken at once, at most


class Link:
    """A connection to a peer. Each call raises OSError where it fails, and so does the connecting."""

    def __init__(self, host: str, port: int):
        self._socket = socket.create_connection((host.encode("ascii"), port))

    def send(self, request: bytes) -> None:
        self._socket.sendall(request)

    def pieces(self) -> Iterator[bytes]:
        """What the peer gives, piece by piece, up to the end."""
        while piece := self._socket.recv(_PIECE):
            yield piece

    def close(self) -> None:
        self._socket.close()
