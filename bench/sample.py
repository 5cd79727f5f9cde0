"""Times samples of three sizes, with the peak memory of each."""

import os
import subprocess
import sys
import tempfile
import time

PROGRAM = sys.argv[1]


def timed(count):
    """The least time of three samples of so many lines, and their peak memory in MB."""
    best, peak = None, 0
    with tempfile.TemporaryDirectory() as folder:
        for _ in range(3):
            begin = time.perf_counter()
            child = subprocess.Popen([PROGRAM, "sample", "--count", str(count)], cwd=folder, stdout=subprocess.DEVNULL)
            _, status, usage = os.wait4(child.pid, 0)
            spent = time.perf_counter() - begin
            child.returncode = os.waitstatus_to_exitcode(status)
            assert child.returncode == 0, child.returncode
            best = spent if best is None else min(best, spent)
            peak = max(peak, usage.ru_maxrss / 1024)
    return best, peak


for count in (200, 2_000, 20_000):
    spent, peak = timed(count)
    print(f"{count:,} lines: {spent:.3f} s, {1e6 * spent / count:.0f} microseconds a line, {peak:.0f} MB")
