"""The daemon and nginx in front of it, with the page; and the answers of `edr ask`."""

import json
import os
import socket
import subprocess
import time
import urllib.error
import urllib.request

TOP = os.path.dirname(os.path.dirname(os.path.dirname(os.path.abspath(__file__))))


def free_port() -> int:
    with socket.socket() as found:
        found.bind(("127.0.0.1", 0))
        return found.getsockname()[1]


def edition(url: str) -> int | None:
    """The edition that answers, or none where nothing does."""
    try:
        with urllib.request.urlopen(f"{url}/conformance", timeout=10) as reply:
            return int(reply.headers["X-Edr-Edition"])
    except (urllib.error.URLError, OSError):
        return None


class Served:
    """A feed, served by a daemon behind nginx, with the page at `/viewer/`. Files stand in a folder of its own."""

    def __init__(self, folder: str, feed: str, programs: dict[str, str], every: int = 0, editions: int = 1):
        os.makedirs(folder)
        self.feed, self.programs = feed, programs
        port, inner = free_port(), free_port()
        self.url = f"http://127.0.0.1:{port}"
        self.daemon = subprocess.Popen([programs["edrd"], feed, "--port", str(inner), "--workers", "8", "--every", str(every)])
        conf = f"{folder}/nginx.conf"
        with open(f"{TOP}/viewer/nginx.conf", encoding="utf-8") as source, open(conf, "w", encoding="utf-8") as target:
            text = source.read().replace("127.0.0.1:8080", f"127.0.0.1:{port}").replace("127.0.0.1:8081", f"127.0.0.1:{inner}")
            target.write(text.replace("/tmp/", f"{folder}/"))
        self.nginx = subprocess.Popen(["nginx", "-p", TOP, "-c", conf, "-g", "daemon off;"])
        self.wait(editions)

    def wait(self, editions: int):
        deadline = time.monotonic() + 60
        while (edition(self.url) or 0) < editions:
            if time.monotonic() > deadline or self.daemon.poll() is not None:
                raise RuntimeError("the daemon doesn't serve")
            time.sleep(0.1)

    def ask(self, target: str) -> dict:
        """What `edr ask` answers, or refuses, from the last edition of the feed."""
        with open(self.feed, "rb") as feed:
            done = subprocess.run([self.programs["edr"], "ask", target], stdin=feed, capture_output=True, check=False)
        return json.loads(done.stdout if done.returncode == 0 else done.stderr)

    def end_daemon(self):
        self.daemon.terminate()
        self.daemon.wait(20)

    def end(self):
        if self.daemon.poll() is None:
            self.end_daemon()
        self.nginx.terminate()
        self.nginx.wait(20)


def made_feed(path: str, programs: dict[str, str]):
    """The feed of `edr make 7`."""
    with open(path, "wb") as file:
        subprocess.run([programs["edr"], "make", "7"], stdout=file, stdin=subprocess.DEVNULL, check=True)
