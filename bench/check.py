"""Times the checker on scripts of 64 KiB and of 1 MiB."""

import sys

from scripts import script, seconds

PROGRAM = sys.argv[1]


def one(text, count):
    """The time of one check: of reading and checking, less that of reading."""
    return (seconds(PROGRAM, text, 0, count) - seconds(PROGRAM, text, count, 0)) / count


def main():
    small, large = script(1 << 16), script(1 << 20)
    small_check, large_check = one(small, 160), one(large, 10)
    print(f"bytes: {len(small)} and {len(large)}, ratio {len(large) / len(small):.1f}")
    print(f"check: {small_check * 1000:.2f} ms and {large_check * 1000:.2f} ms, ratio {large_check / small_check:.1f}")


main()
