"""Times commits on tables over a store of cells in memory, at two sizes of the store."""

import resource
import subprocess
import sys

PROGRAM = sys.argv[1]


def seconds(commits, stores):
    """The least processor time of three runs."""
    best = None
    for _ in range(3):
        before = resource.getrusage(resource.RUSAGE_CHILDREN)
        subprocess.run([PROGRAM, str(commits), str(stores)], stdout=subprocess.DEVNULL, check=True)
        after = resource.getrusage(resource.RUSAGE_CHILDREN)
        spent = after.ru_utime + after.ru_stime - before.ru_utime - before.ru_stime
        best = spent if best is None else min(best, spent)
    return best


def main():
    small = seconds(1_000, 100)
    large = seconds(100_000, 1)
    print(f"100,000 commits on 100 stores of 1,000: {small:.3f} s, {small * 10:.1f} us a commit")
    print(f"100,000 commits on one store: {large:.3f} s, {large * 10:.1f} us a commit, ratio {large / small:.2f}")


main()
