"""A peer on this machine, which gives what it is told to whoever connects, and notes what it was asked."""

import os
import selectors
import socket
import struct
import time
from threading import Thread
from typing import Callable, TypeVar

from plain.comparison.inputs.replies import Script
from plain.comparison.inputs.urls import OWN_HOSTS
from plain.profile.fetching.urls import read_url

_PATIENCE = 20  # seconds
_PAUSE = 0.001  # seconds, between pieces
_AT_ONCE = socket.SO_LINGER, struct.pack("ii", 1, 0)  # a close that breaks off

T = TypeVar("T")


class Peer:
    """Listens at a port of the addresses of this machine, and at port 80 of one more, where the system allows both."""

    def __init__(self):
        first = _listening(socket.AF_INET, "127.0.0.1", 0)
        self._listeners = [first]
        self._port = first.getsockname()[1]
        self._shut = socket.socket()  # bound, so that nobody else listens there
        self._shut.bind(("127.0.0.1", 0))
        self._address = f"127.{1 + os.getpid() // 65536 % 254}.{os.getpid() // 256 % 256}.{os.getpid() % 256}"
        for family, address, port in ((socket.AF_INET6, "::1", self._port), (socket.AF_INET, self._address, 80)):
            try:
                self._listeners.append(_listening(family, address, port))
            except OSError:
                pass

    def close(self) -> None:
        for each in [*self._listeners, self._shut]:
            each.close()

    def filled(self, url: bytes, length: int | None = None) -> bytes:
        """The URL with the ports and the address of this peer in place of their names, and of a length."""
        shut = self._shut.getsockname()[1]
        for name, value in ((b"<port>", self._port), (b"<shut>", shut), (b"<address>", self._address)):
            url = url.replace(name, str(value).encode())
        return url.ljust(length or 0, b"u")

    def is_near(self, url: bytes) -> bool:
        """Whether a URL can't lead to anybody else: it is none, or is of this peer, of a port that is shut, or of a name that nobody has."""
        found = read_url(url)
        if found is None or found.host.removesuffix(".").endswith(".invalid"):
            return True
        if found.host == self._address:
            return found.port == 80
        return found.host in OWN_HOSTS and found.port in (self._port, self._shut.getsockname()[1], 0)

    def during(self, script: Script, act: Callable[[], T]) -> tuple[T, list[bytes]]:
        """What an act gives, and what those asked who connected meanwhile; each is given what the script says."""
        asked: list[bytes] = []
        ours, theirs = socket.socketpair()
        thread = Thread(target=self._serve, args=(script, theirs, asked))
        thread.start()
        try:
            return act(), asked
        finally:
            ours.close()
            thread.join()
            theirs.close()

    def _serve(self, script: Script, signal: socket.socket, asked: list[bytes]) -> None:
        """Serves all who connect until the signal comes."""
        with selectors.DefaultSelector() as selector:
            for each in [*self._listeners, signal]:
                selector.register(each, selectors.EVENT_READ)
            while True:
                ready = [key.fileobj for key, _ in selector.select()]
                for listener in ready:
                    if listener is not signal:
                        asked.append(_answered(listener.accept()[0], script))
                if ready == [signal]:
                    return


def _listening(family: int, address: str, port: int) -> socket.socket:
    listener = socket.socket(family)
    try:
        listener.bind((address, port))
        listener.listen()
    except OSError:
        listener.close()
        raise
    return listener


def _answered(connection: socket.socket, script: Script) -> bytes:
    """Gives what the script says; what was asked, and `not left` behind it where the peer waited in vain to be left."""
    connection.settimeout(_PATIENCE)
    connection.setsockopt(socket.IPPROTO_TCP, socket.TCP_NODELAY, 1)
    request = b""
    with connection:
        try:
            while b"\r\n\r\n" not in request and (more := connection.recv(65_536)):
                request += more
            for piece in script.pieces:
                connection.sendall(piece)
                time.sleep(_PAUSE)
            if script.end == "breaks off":
                connection.setsockopt(socket.SOL_SOCKET, *_AT_ONCE)
                return request
            if script.end == "closes":
                connection.shutdown(socket.SHUT_WR)
            while more := connection.recv(65_536):
                request += more
        except TimeoutError:
            request += b"not left"
        except OSError:
            pass  # it was left before all was given
    return request
