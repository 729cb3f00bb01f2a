"""nginx as `examples/nginx.conf` has it, before daemons at ports of their own, and clients of it, each with an address of its own."""
import importlib.util
import os
import re
import shlex
import shutil
import socket
import subprocess
import sys
import time
import zlib

HERE = os.path.dirname(os.path.abspath(__file__))
TOP = os.path.join(HERE, "..", "..")
SPEC = importlib.util.spec_from_file_location("daemon", os.path.join(TOP, "bench", "daemon", "run.py"))
daemon = importlib.util.module_from_spec(SPEC)
SPEC.loader.exec_module(daemon)
EXAMPLES = os.path.join(TOP, "examples")
NGINX = shutil.which("nginx", path=os.environ["PATH"] + ":/usr/sbin")
# what an nginx of any user has in a folder of its own
OWN = [("/var/log/nginx/edr.log", "access.log"), ("http {", "http {\nclient_body_temp_path bodies;\nproxy_temp_path replies;")]
if os.getuid() != 0:
    OWN.append(("user www-data;", ""))
WORKERS = 64
PATIENCE = 90


def needs(*others):
    """Ends where a program isn't there."""
    for program in (daemon.EDR, daemon.EDRD, *others):
        if not os.path.exists(program):
            sys.exit(f"{program} isn't built: run ./edr and ./edrd once")
    if NGINX is None:
        sys.exit("nginx isn't here: apt-get install nginx")


class Daemon:
    """A daemon at a port, which a further one may take when this has stopped. What it says goes to a log, where there is one."""

    def __init__(self, feed, workers=WORKERS, every=0, port=None, log=None):
        self.port = port or daemon.free_port()
        words = [daemon.EDRD, feed, "--port", str(self.port), "--workers", str(workers), "--every", str(every),
                 "--requests", "1000"]
        self.process = subprocess.Popen(words, stdin=subprocess.DEVNULL, stdout=log, stderr=log)

    def wait(self):
        """Until it takes connections."""
        while True:
            try:
                socket.create_connection(("127.0.0.1", self.port)).close()
                return self
            except OSError:
                if self.process.poll() is not None:
                    sys.exit(f"the daemon ended with {self.process.returncode}")
                time.sleep(0.01)

    def stop(self):
        self.process.terminate()
        self.process.wait()

    def kill(self):
        self.process.kill()
        self.process.wait()


class Front:
    """nginx by the example, with another port, the daemons at these ports, and perhaps edits of the example's text."""

    def __init__(self, folder, ports, edits=()):
        self.folder = os.path.join(folder, "nginx")
        os.makedirs(self.folder)
        self.port = daemon.free_port()
        text = open(os.path.join(EXAMPLES, "nginx.conf")).read()
        for old, new in [("127.0.0.1:8080", f"127.0.0.1:{self.port}"), *OWN, *edits]:
            if old not in text:
                sys.exit(f"examples/nginx.conf has no {old!r}")
            text = text.replace(old, new)
        self.conf, self.file = (os.path.join(self.folder, name) for name in ("nginx.conf", "daemons.conf"))
        with open(self.conf, "w") as file:
            file.write(text)
        with open(self.file, "w") as file:
            file.writelines(f"server 127.0.0.1:{port} max_fails=0;\n" for port in ports)
        self.words = [NGINX, "-p", self.folder, "-e", "error.log", "-c", self.conf, "-g", "pid edr-nginx.pid;"]
        subprocess.run([*self.words, "-t", "-q"], check=True)
        subprocess.run(self.words, check=True)

    def behind(self, what, port):
        """Lets a daemon in, or takes it out, by the script of the examples."""
        reload = shlex.join([*self.words, "-s", "reload"])
        script = os.path.join(EXAMPLES, "behind_nginx.py")
        subprocess.run([script, what, str(port), "--file", self.file, "--reload", reload], check=True)

    def log(self, name):
        with open(os.path.join(self.folder, name)) as file:
            return file.read().splitlines()

    def stop(self):
        subprocess.run([*self.words, "-s", "quit"], check=True)
        until = time.monotonic() + PATIENCE
        while os.path.exists(os.path.join(self.folder, "edr-nginx.pid")) and time.monotonic() < until:
            time.sleep(0.05)


class Cut(Exception):
    """A connection that ended before a reply, or within one."""

    def __init__(self, within):
        super().__init__("within a reply" if within else "before a reply")
        self.within = within


class Reply:
    """A reply that came whole."""

    def __init__(self, head, body):
        lines = head.decode("latin-1").split("\r\n")
        self.status = int(lines[0].split(" ")[1])
        pairs = [line.split(":", 1) for line in lines[1:]]
        self.fields = {name.lower(): value.strip() for name, value in pairs}
        self.body = zlib.decompress(body, 31) if body and self.fields.get("content-encoding") == "gzip" else body

    @property
    def edition(self):
        """Its number, or None."""
        return int(self.fields["x-edr-edition"]) if "x-edr-edition" in self.fields else None

    @property
    def closes(self):
        return self.fields.get("connection", "").lower() == "close"


class Client:
    """A client with one connection at a time, from an address of its own of this machine."""

    def __init__(self, port, address="127.0.0.1", patience=PATIENCE):
        self.port, self.address, self.patience = port, address, patience
        self.socket, self.held, self.begun = None, b"", False

    def leave(self):
        if self.socket is not None:
            self.socket.close()
        self.socket, self.held, self.begun = None, b"", False

    def more(self):
        try:
            piece = self.socket.recv(1 << 18)
        except ConnectionResetError:
            piece = b""
        if not piece:
            raise Cut(self.begun)
        self.held, self.begun = self.held + piece, True

    def take(self, count):
        """So many bytes."""
        while len(self.held) < count:
            self.more()
        taken, self.held = self.held[:count], self.held[count:]
        return taken

    def line(self, end=b"\r\n"):
        """The bytes before the next such end."""
        while end not in self.held:
            self.more()
        taken, self.held = self.held.split(end, 1)
        return taken

    def chunks(self):
        parts = []
        while size := int(self.line(), 16):
            parts.append(self.take(size))
            self.take(2)
        self.take(2)
        return b"".join(parts)

    def body(self, method, head):
        if method == "HEAD" or head.startswith(b"HTTP/1.1 204"):
            return b""
        if re.search(rb"\r\nTransfer-Encoding: *chunked", head, re.IGNORECASE):
            return self.chunks()
        length = re.search(rb"\r\nContent-Length: *(\d+)", head, re.IGNORECASE)
        return self.take(int(length[1])) if length else b""

    def connect(self):
        """A connection, where there is none."""
        if self.socket is None:
            self.socket = socket.create_connection(("127.0.0.1", self.port), self.patience, (self.address, 0))
            self.socket.setsockopt(socket.IPPROTO_TCP, socket.TCP_NODELAY, 1)

    def ask(self, target, fields="", method="GET", body=b""):
        """One reply. It raises Cut where the connection ends before it has come whole."""
        self.connect()
        self.begun = False
        try:
            self.socket.sendall(f"{method} {target} HTTP/1.1\r\nHost: localhost\r\n{fields}\r\n".encode() + body)
        except (BrokenPipeError, ConnectionResetError):
            pass
        head = self.line(b"\r\n\r\n")
        reply = Reply(head, self.body(method, head))
        if reply.closes or "Connection: close" in fields:
            self.leave()
        return reply
