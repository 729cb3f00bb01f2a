#!/usr/bin/env python3
"""Tries `edrd` with peers that misbehave, each beside one that doesn't: none of them may stop another connection, cost a
descriptor, or end the daemon. Run it from anywhere, when the programs are built: bench/daemon/peers.py"""
import os
import socket
import struct
import subprocess
import sys
import tempfile
import time

HERE = os.path.dirname(os.path.abspath(__file__))
sys.path.insert(0, HERE)
import run  # noqa: E402

ASK = b"GET /conformance HTTP/1.1\r\nHost: a\r\n\r\n"
LARGE = f"GET {run.LARGE} HTTP/1.1\r\nHost: a\r\n\r\n".encode()


def connect(server):
    return socket.create_connection(("127.0.0.1", server.port), timeout=60)


def is_served(server):
    """Another connection is answered."""
    with connect(server) as it:
        it.sendall(ASK)
        reply, _ = run.read_reply(it)
    return reply.startswith(b"HTTP/1.1 200 OK\r\n")


def descriptors(server):
    return len(os.listdir(f"/proc/{server.process.pid}/fd"))


def reset(it):
    """Ends a connection by a reset."""
    it.setsockopt(socket.SOL_SOCKET, socket.SO_LINGER, struct.pack("ii", 1, 0))
    it.close()


def one_byte(server):
    it = connect(server)
    it.sendall(b"G")
    time.sleep(0.2)
    return it


def half_a_head(server):
    it = connect(server)
    it.sendall(ASK[:20])
    return it


def reset_in_a_reply(server):
    it = connect(server)
    it.sendall(LARGE)
    it.recv(1000)
    reset(it)


def reset_at_once(server):
    reset(connect(server))


def closes_at_once(server):
    connect(server).close()


def half_closed(server):
    """Sends its request, and then no more: it gets its reply."""
    with connect(server) as it:
        it.sendall(ASK)
        it.shutdown(socket.SHUT_WR)
        reply, _ = run.read_reply(it)
        if not reply.startswith(b"HTTP/1.1 200 OK\r\n") or it.recv(1) != b"":
            sys.exit("a connection that is half closed isn't answered and ended")


def second_while_the_first_is_written(server):
    with connect(server) as it:
        it.sendall(LARGE)
        it.recv(100)
        it.sendall(ASK)
        held = b""
        while held.count(b"HTTP/1.1 200 OK") < 1 or not held.endswith(run.END):
            held += it.recv(1 << 20)


def garbage(server):
    with connect(server) as it:
        it.sendall(bytes(range(256)) * 200)
        try:
            while it.recv(1 << 16):
                pass
        except ConnectionResetError:
            pass


def reads_nothing(server):
    """Asks for much, and reads none of it."""
    it = connect(server)
    it.sendall(LARGE)
    return it


def main():
    with tempfile.TemporaryDirectory() as folder:
        made = os.path.join(folder, "made")
        with open(made, "wb") as file:
            subprocess.run([run.EDR, "make", "7"], stdout=file, check=True)
        server = run.edrd(made, 8)
        before = descriptors(server)
        peers = [one_byte, half_a_head, reset_in_a_reply, reset_at_once, closes_at_once, half_closed,
                 second_while_the_first_is_written, garbage, reads_nothing]
        stay = []
        for peer in peers:
            began = time.perf_counter()
            if (kept := peer(server)) is not None:
                stay.append(kept)
            if not is_served(server):
                sys.exit(f"{peer.__name__}: another connection isn't served")
            print(f"{peer.__name__}: another connection is served, {time.perf_counter() - began:.2f} s")
        for _ in range(2000):
            reset_at_once(server)
            closes_at_once(server)
        print("4,000 connections that are reset or closed at once: " + ("another is served" if is_served(server) else "NOT SERVED"))
        # those that stay are ended after 30 seconds without a byte
        time.sleep(33)
        held = descriptors(server)
        print(f"descriptors before {before}, and when all peers are gone {held}")
        if held > before or server.process.poll() is not None:
            sys.exit("a descriptor is lost, or the daemon ended")
        for it in stay:
            it.close()
        server.stop()


if __name__ == "__main__":
    main()
