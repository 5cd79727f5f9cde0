"""Times messages that one worker handles, from the load to the last removal, at three numbers of them."""

import os
import subprocess
import sys

PROGRAM = sys.argv[1]


def run(messages):
    """The processor time of one run in seconds, and its greatest memory in MB."""
    child = subprocess.Popen([PROGRAM, str(messages)], stdout=subprocess.DEVNULL)
    _, status, usage = os.wait4(child.pid, 0)
    if status != 0:
        sys.exit(f"bench: the program ended with {status}")
    return usage.ru_utime + usage.ru_stime, usage.ru_maxrss / 1024


def least(messages, rounds):
    """The least time of some runs, and the greatest memory of them."""
    runs = [run(messages) for _ in range(rounds)]
    return min(time for time, _ in runs), max(memory for _, memory in runs)


def main():
    start, _ = least(0, 9)
    each = {}
    for messages, rounds in [(1_000, 9), (10_000, 5), (100_000, 3)]:
        time, memory = least(messages, rounds)
        spent = time - start
        each[messages] = spent / messages
        print(f"{messages:,} messages: {spent:.3f} s, {messages / spent:,.0f} a second, {memory:.0f} MB")
    print(f"time of a message at 100,000 over that at 1,000: {each[100_000] / each[1_000]:.2f}")


main()
