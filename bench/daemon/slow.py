#!/usr/bin/env python3
"""Tries the daemon with peers that would hold a worker: over real sockets, with a clock. Each peer has a worker of its own, and says when
the daemon closed its connection; the daemon is given 5 seconds for idle peers. It takes a minute and a half:
bench/daemon/slow.py [PROGRAM]"""
import os
import socket
import subprocess
import sys
import tempfile
import threading
import time

HERE = os.path.dirname(os.path.abspath(__file__))
TOP = os.path.join(HERE, "..", "..")
IDLE, PATIENCE, SPEED, SLACK = 5, 30, 16_384, 3
HEAD = b"GET /conformance HTTP/1.1\r\nHost: localhost\r\n\r\n"
CUBE = b"GET /collections/grid/cube?bbox=0,0,103900,47900 HTTP/1.1\r\nHost: localhost\r\n\r\n"


def connected(port):
    peer = socket.create_connection(("127.0.0.1", port))
    peer.setsockopt(socket.SOL_SOCKET, socket.SO_RCVBUF, 4096)
    return peer


def closed_at(peer, begun):
    """When the connection was closed, in seconds."""
    try:
        while peer.recv(65_536):
            pass
    except OSError:
        pass
    return time.monotonic() - begun


def silent(port, begun):
    return closed_at(connected(port), begun)


def silent_behind_a_reply(port, begun):
    peer = connected(port)
    time.sleep(2)
    peer.sendall(HEAD)
    return closed_at(peer, begun) - 2


def byte_by_byte(port, begun):
    """Sends a byte of a head every second, and never its end."""
    peer = connected(port)
    peer.settimeout(1)
    for byte in HEAD[:-2] + b"X: " + b"x" * 200:
        try:
            peer.sendall(bytes([byte]))
            if not peer.recv(1):
                break
        except TimeoutError:
            pass
        except OSError:
            break
    return time.monotonic() - begun


def reads_nothing(port, begun):
    """Asks for a long body, and takes nothing of it, until the daemon lets go of its end."""
    peer = connected(port)
    peer.sendall(CUBE * 40)
    while time.monotonic() - begun < 3 * PATIENCE and held(port, peer):
        time.sleep(0.2)
    return time.monotonic() - begun


def reads_slowly(port, begun):
    """Takes a thousand bytes a second of a long body, and says when no more came."""
    peer = connected(port)
    peer.sendall(CUBE * 40)
    while time.monotonic() - begun < 3 * PATIENCE and held(port, peer):
        peer.recv(1000)
        time.sleep(1)
    return time.monotonic() - begun


def held(port, peer):
    """Whether the daemon has an end of this peer's connection that is established."""
    mine = f":{peer.getsockname()[1]:04X}"
    with open("/proc/net/tcp", encoding="ascii") as file:
        ends = [line.split()[1:4] for line in file]
    return any(one.endswith(f":{port:04X}") and other.endswith(mine) and state == "01" for one, other, state in ends)


PEERS = {
    "sends nothing": (silent, IDLE),
    "sends nothing behind a reply": (silent_behind_a_reply, IDLE),
    "sends a byte of a head each second": (byte_by_byte, PATIENCE),
    "takes nothing of a long reply": (reads_nothing, PATIENCE),
    "takes a thousand bytes of it a second": (reads_slowly, PATIENCE + PATIENCE * 1000 // SPEED + 4),
}


def main():
    program = sys.argv[1] if len(sys.argv) > 1 else os.path.join(TOP, "release", "edrd")
    with tempfile.TemporaryDirectory() as room:
        feed = os.path.join(room, "feed.jsonl")
        with open(feed, "wb") as file:
            subprocess.run([os.path.join(TOP, "release", "edr"), "make", "7"], stdout=file, check=True)
        with socket.socket() as free:
            free.bind(("127.0.0.1", 0))
            port = free.getsockname()[1]
        words = [program, feed, "--port", str(port), "--workers", str(len(PEERS)), "--idle", str(IDLE)]
        daemon = subprocess.Popen(words, stdout=subprocess.DEVNULL)
        while True:
            try:
                connected(port).close()
                break
            except ConnectionRefusedError:
                time.sleep(0.05)
        told = {}

        def run(name, peer):
            told[name] = peer(port, time.monotonic())

        threads = [threading.Thread(target=run, args=(name, peer)) for name, (peer, _) in PEERS.items()]
        for thread in threads:
            thread.start()
        for thread in threads:
            thread.join()
        daemon.terminate()
        daemon.wait()
    print("| a peer that | is let go after, seconds | at most |")
    print("|---|---|---|")
    for name, (_, most) in PEERS.items():
        print(f"| {name} | {told[name]:.1f} | {most + SLACK} |")
    sys.exit(any(told[name] > most + SLACK for name, (_, most) in PEERS.items()))


if __name__ == "__main__":
    main()
