"""Times puts and removes of a post over cells in memory, at two numbers of entries."""

import subprocess
import sys
import time

PROGRAM = sys.argv[1]
TURNS = 20_000


def seconds(entries, turns):
    """The least time of three runs with these entries and turns."""
    best = None
    for _ in range(3):
        begin = time.perf_counter()
        subprocess.run([PROGRAM, str(entries), str(turns)], stdout=subprocess.DEVNULL, check=True)
        spent = time.perf_counter() - begin
        best = spent if best is None else min(best, spent)
    return best


def per_call(entries):
    """Microseconds for a put or a remove where so many entries stand there."""
    return (seconds(entries, TURNS) - seconds(entries, 0)) / (2 * TURNS) * 1e6


def main():
    whole = seconds(0, 100_000) - seconds(0, 0)
    print(f"100,000 puts and 100,000 removes: {whole:.3f} s")
    small = per_call(1_000)
    large = per_call(100_000)
    print(f"a call at 1,000 entries {small:.2f} us, at 100,000 entries {large:.2f} us, ratio {large / small:.2f}")


main()
