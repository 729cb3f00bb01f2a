"""The pages of `bench/` that a script writes: what is measured stands between two marks, the text around them is by hand."""
import os
import subprocess
import time

ABOVE = os.path.join(os.path.dirname(os.path.abspath(__file__)), "..")
BEGINS, ENDS = "<!-- measured -->", "<!-- end -->"


def machine():
    """The processors of this machine and what they are."""
    with open("/proc/cpuinfo", encoding="utf-8") as told:
        names = [line.split(":", 1)[1].strip() for line in told if line.startswith("model name")]
    return f"{os.cpu_count()} processors of {names[0] if names else 'a kind that is not told'}"


def when():
    """The day, the commit and the machine of what is measured now."""
    words = ["git", "-C", ABOVE, "rev-parse", "--short=8", "HEAD"]
    commit = subprocess.run(words, capture_output=True, text=True, check=False).stdout.strip() or "unknown"
    busy = os.getloadavg()[0]
    return f"Read on {time.strftime('%Y-%m-%d', time.gmtime())}, commit {commit}, on {machine()}, with a load of {busy:.1f} as it began:"


class Page:
    """Lines that are printed as they come, and at the end stand in a page, between its marks."""

    def __init__(self, path):
        self.path, self.lines = path, [when(), ""]
        with open(path, encoding="utf-8") as page:
            self.before, rest = page.read().split(BEGINS + "\n")
        self.after = rest.split(ENDS + "\n")[1]

    def add(self, text):
        print(text, flush=True)
        self.lines.append(text)

    def write(self):
        text = "\n".join([self.before + BEGINS, *self.lines, ENDS]) + "\n" + self.after
        with open(self.path + ".new", "w", encoding="utf-8") as page:
            page.write(text)
        os.replace(self.path + ".new", self.path)
        print(f"written: {os.path.relpath(self.path)}")
