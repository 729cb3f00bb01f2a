#!/usr/bin/env python3
"""Lets a daemon in behind nginx, or takes it out, so that no request fails and no client finds an older edition.

    behind_nginx.py in PORT     once the daemon at PORT has come to the newest edition of the daemons that are in
    behind_nginx.py out PORT    and waits until nginx has no connection to it any more, for 60 seconds at most

It changes the file that nginx.conf includes, and has nginx read it. One that was started again is let
in when it is as far as the others: start daemons with `--last`, which serves the last edition of the feed from the start, and add
new editions at the end of the feed, so that their numbers go on. Then a restart is

    behind_nginx.py out 8081; (stop the daemon at 8081, start it again); behind_nginx.py in 8081

and a daemon is replaced port by port, without one less meanwhile, by

    (start a daemon at 8083); behind_nginx.py in 8083; behind_nginx.py out 8081; (stop the daemon at 8081)

`--anew` lets a daemon in whatever its edition, for a feed that begins anew: the numbers then begin anew too. The units of
edrd@.service do all this by `systemctl start`, `stop` and `restart`. The last daemon is not taken out."""
import argparse
import fcntl
import http.client
import os
import re
import subprocess
import sys
import time

LINE = re.compile(r"^\s*server\s+127\.0\.0\.1:(\d+)\b", re.MULTILINE)
PATIENCE = 60
ESTABLISHED = "01"


def edition_of(port):
    """The edition that the daemon at this port answers from, or None where it doesn't answer."""
    try:
        connection = http.client.HTTPConnection("127.0.0.1", port, timeout=5)
        connection.request("GET", "/", headers={"Connection": "close"})
        return int(connection.getresponse().getheader("X-Edr-Edition"))
    except (OSError, http.client.HTTPException, TypeError, ValueError):
        return None


def wait_for_edition(port, others):
    """Until the daemon at this port answers from the newest edition of the others, or a newer one."""
    told = None
    while True:
        here, wanted = edition_of(port), max((edition_of(other) or 0 for other in others), default=0)
        if here is not None and here >= wanted:
            return
        if "MAINPID" in os.environ and not os.path.exists(f"/proc/{os.environ['MAINPID']}"):
            sys.exit("the daemon that systemd started has ended")
        if told != (here, wanted):
            told = (here, wanted)
            state = "doesn't answer yet" if here is None else f"has edition {here}, the others {wanted}"
            print(f"waiting: the daemon at port {port} {state}", file=sys.stderr)
        time.sleep(0.2)


def connections_to(port):
    """How many connections to this port are open, at the daemon's end."""
    with open("/proc/net/tcp") as file:
        rows = [line.split() for line in file.readlines()[1:]]
    return sum(row[1].endswith(f":{port:04X}") and row[3] == ESTABLISHED for row in rows)


def wait_until_left(port):
    """Until nginx has left this port; the first second is that in which it reads its file."""
    until = time.monotonic() + PATIENCE
    time.sleep(1)
    while connections_to(port):
        if time.monotonic() > until:
            sys.exit(f"after {PATIENCE} seconds {connections_to(port)} connections to port {port} are open")
        time.sleep(0.1)


def change(path, edit):
    """Changes the text of the file, one change at a time, and tells whether it differs."""
    with open(path, "r+") as file:
        fcntl.flock(file, fcntl.LOCK_EX)
        old = file.read()
        new = edit(old)
        if new != old:
            file.seek(0)
            file.write(new)
            file.truncate()
        return new != old


def with_port(text, port):
    is_in = str(port) in LINE.findall(text)
    return text if is_in else text.rstrip("\n") + f"\nserver 127.0.0.1:{port} max_fails=0;\n"


def without_port(text, port):
    """The text without the line of this port, but the same where no other is left."""
    if set(LINE.findall(text)) <= {str(port)}:
        return text
    return "".join(line for line in text.splitlines(True) if LINE.findall(line) != [str(port)])


def reload(command):
    if subprocess.run(command, shell=True).returncode != 0:
        print(f"`{command}` failed; the file is changed, and is read when nginx starts", file=sys.stderr)


def let_in(words):
    with open(words.file) as file:
        others = [int(port) for port in LINE.findall(file.read()) if int(port) != words.port]
    wait_for_edition(words.port, [] if words.anew else others)
    if change(words.file, lambda text: with_port(text, words.port)):
        reload(words.reload)


def take_out(words):
    if change(words.file, lambda text: without_port(text, words.port)):
        reload(words.reload)
        wait_until_left(words.port)
    elif str(words.port) in LINE.findall(open(words.file).read()):
        print(f"port {words.port} stays in, as the last one", file=sys.stderr)


def main():
    parser = argparse.ArgumentParser(description=__doc__, formatter_class=argparse.RawDescriptionHelpFormatter)
    parser.add_argument("what", choices=["in", "out"])
    parser.add_argument("port", type=int)
    parser.add_argument("--anew", action="store_true", help="let it in whatever its edition")
    parser.add_argument("--file", default="/etc/nginx/daemons.conf", help="the file that nginx.conf includes (%(default)s)")
    parser.add_argument("--reload", default="systemctl reload nginx", metavar="COMMAND", help="has nginx read it (%(default)s)")
    words = parser.parse_args()
    try:
        (let_in if words.what == "in" else take_out)(words)
    except OSError as error:
        sys.exit(f"{error.filename}: {error.strerror}")


if __name__ == "__main__":
    main()
