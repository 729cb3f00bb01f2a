#!/usr/bin/env python3
"""Runs the gate, `rt ci`, with what it prints, and says before its last line how much processor time each crate took. Where the whole
gate passed, the programs of release/ are compared with those that it built, and memory is refused to them at a sample of their requests
for it (`bench/refused_memory`); it fails where one differs or ends wrongly.

A crate is proved for the libraries above it (`proof`), with its tests (`tests`), and once more as the base over which its edits
are tried (`base`); then each edit is checked over that (`edits`), and programs are compiled (`programs`). The time of a process is
read once a second, so up to a second of each isn't seen; the sum of user and system time of the whole run is exact. Processor time
goes by what else the machine does, and by what it does for others: two trees are compared by two runs at once, each begun by
`setsid` and with half of the processors (`RT_JOBS`). Run it at the top of a checkout, with nothing else beside it:
bench/proving/run.py             the whole gate
bench/proving/run.py --anew      the same from nothing, where the kit keeps what passed
bench/proving/run.py CRATE ..    the gate of these crates and of those below them, in a copy that has no others"""
import collections
import os
import re
import resource
import shutil
import subprocess
import sys
import tempfile
import threading
import time

KINDS = ["proof", "tests", "base", "edits", "programs"]
TICKS = os.sysconf("SC_CLK_TCK")
REFUSED_MEMORY = ["timeout", "900", sys.executable, "bench/refused_memory/run.py", "--sample", "3"]


def kind_of(words, folder, bases):
    """What a process of the prover does for a crate. The base of the edits is the check over a folder of kept work that is named
    `seed`, and the edits go by copies of it beside it; where there is no such name, the base is the first check over a folder of
    kept work, which runs in a copy of the crate in `folder`."""
    if words[1] == "build":
        return "tests" if "--test" in words else "proof" if "--statements" in words else "programs"
    if "--incremental" not in words:
        return "proof" if "-o" in words else "edits"
    kept = words[words.index("--incremental") + 1]
    beside, name = os.path.split(kept)
    if name == "seed":
        bases[beside] = folder
        return "base"
    return "edits" if beside in bases or bases.setdefault(kept, folder) != folder else "base"


def running(bases):
    """The processes of the prover in this session: by number and start, the crate, the kind, and the seconds so far."""
    found, session = {}, str(os.getsid(0))
    for number in filter(str.isdigit, os.listdir("/proc")):
        try:
            with open(f"/proc/{number}/cmdline", encoding="utf-8") as file:
                words = file.read().split("\0")
            if os.path.basename(words[0]) != "rattle" or words[1] not in ("check", "build") or "--crate-name" not in words:
                continue
            with open(f"/proc/{number}/stat", encoding="utf-8") as file:
                fields = file.read().rsplit(")", 1)[1].split()
            folder = os.readlink(f"/proc/{number}/cwd")
        except (OSError, IndexError, UnicodeDecodeError):
            continue
        if fields[3] != session:
            continue
        crate = words[words.index("--crate-name") + 1]
        seconds = (int(fields[11]) + int(fields[12])) / TICKS
        found[number, fields[19]] = crate, kind_of(words, folder, bases), seconds
    return found


def cut(room, names):
    """A copy of the checkout with these crates and those below them alone."""
    top = f"{room}/gate"
    subprocess.run(["git", "clone", "--quiet", ".", top], check=True)
    with open(f"{top}/crates.txt", encoding="utf-8") as file:
        below = dict(line.split(":", 1) for line in file.read().splitlines() if re.match(r"\w+:", line))
    wanted = set()
    while names:
        wanted.update(names)
        names = {it for name in names for it in below[name].split() if it in below} - wanted
    with open(f"{top}/crates.txt", "w", encoding="utf-8") as file:
        file.writelines(f"{name}:{below[name]}\n" for name in below if name in wanted)
    for name in set(below) - wanted:
        shutil.rmtree(f"{top}/crates/{name}")
    return top


def pass_on(lines, held):
    """Prints each line once the next one comes, and keeps the last."""
    for line in lines:
        if held:
            print(held.pop(), end="", flush=True)
        held.append(line)


def gate(words, top):
    """Runs the gate in a folder; answers its status, its last line, and the seconds by crate and kind."""
    how = {"cwd": top, "stdin": subprocess.DEVNULL, "stdout": subprocess.PIPE, "errors": "replace"}
    held, last, bases = [], {}, {}
    with subprocess.Popen(words, **how) as ran:
        reader = threading.Thread(target=pass_on, args=(ran.stdout, held))
        reader.start()
        while ran.poll() is None:
            last.update(running(bases))
            time.sleep(1)
        reader.join()
    seconds = collections.defaultdict(collections.Counter)
    for crate, kind, took in last.values():
        seconds[crate][kind] += took
    return ran.returncode, "".join(held), seconds


def tell(seconds, begun):
    """Prints the seconds of each crate, the dearest first, and the time of the whole run."""
    print(f"| crate | {' | '.join(KINDS)} | minutes |")
    print("|---" * (len(KINDS) + 2) + "|")
    for crate in sorted(seconds, key=lambda it: -sum(seconds[it].values())):
        each = " | ".join(f"{seconds[crate][kind]:.0f}" for kind in KINDS)
        print(f"| {crate} | {each} | {sum(seconds[crate].values()) / 60:.1f} |")
    sums = {kind: sum(it[kind] for it in seconds.values()) for kind in KINDS}
    print(f"| all | {' | '.join(f'{sums[kind]:,.0f}' for kind in KINDS)} | {sum(sums.values()) / 60:.0f} |")
    spent = resource.getrusage(resource.RUSAGE_CHILDREN)
    minutes = (spent.ru_utime + spent.ru_stime) / 60
    print(f"user and system time: {minutes:.1f} minutes; wall time: {(time.time() - begun) / 60:.1f} minutes")


def main():
    has_anew = "--anew" in sys.argv[1:] and "--anew" in subprocess.run(["rt", "help"], capture_output=True, text=True).stderr
    names = {it for it in sys.argv[1:] if it != "--anew"}
    begun = time.time()
    with tempfile.TemporaryDirectory(prefix="gate-") as room:
        status, line, seconds = gate(["rt", "ci", *["--anew"] * has_anew], cut(room, names) if names else ".")
    tell(seconds, begun)
    sys.stdout.flush()
    if status == 0 and not names:
        status = subprocess.run(["release/compare"]).returncode or subprocess.run(REFUSED_MEMORY).returncode
    print(line, end="")
    sys.exit(status)


if __name__ == "__main__":
    main()
