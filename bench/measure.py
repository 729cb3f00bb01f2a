"""The time and the peak of memory of a program.

The system counts to a program's peak that of the process which started it. So a small one starts it: python3 without
its site packages, of about 8 MB. A peak below that can't be told."""
import os
import subprocess
import sys

BENCH = os.path.join(os.path.dirname(os.path.abspath(__file__)), "..", "crates", "edr_bench", "out", "edr_bench")
RUNS = 5
STARTER = """
import posix, sys, time
began = time.perf_counter()
child = posix.posix_spawn(sys.argv[2], sys.argv[2:], posix.environ)
_, status, usage = posix.wait4(child, 0)
took = time.perf_counter() - began
posix.write(int(sys.argv[1]), b"%d %d %.9f" % (status, usage.ru_maxrss * 1024, took))
"""


def run_once(words, path):
    """The wall time in seconds, the peak of memory in bytes, and the output of one run on a file as its input."""
    told, tells = os.pipe()
    with open(path, "rb") as source, os.fdopen(told, "rb") as report:
        starter = [sys.executable, "-I", "-S", "-c", STARTER, str(tells)]
        process = subprocess.Popen(starter + words, stdin=source, stdout=subprocess.PIPE, pass_fds=(tells,))
        os.close(tells)
        output, _ = process.communicate()
        status, peak, took = report.read().split()
    if int(status) != 0:
        sys.exit(f"{' '.join(words)} ended with {int(status)}")
    return float(took), int(peak), output


def measure(words, path=os.devnull):
    """The least wall time, the greatest peak, and the output of some runs."""
    runs = [run_once(words, path) for _ in range(RUNS)]
    return min(took for took, _, _ in runs), max(peak for _, peak, _ in runs), runs[-1][2].decode().strip()


def bench(*words):
    """The words of a command of `edr_bench`."""
    if not os.path.exists(BENCH):
        sys.exit("the program isn't built: run `rt run -- make 1000` in crates/edr_bench once")
    return [BENCH, *map(str, words)]
