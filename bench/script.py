"""Times the parser and the printer on scripts of 64 KiB and of 1 MiB."""

import sys

from scripts import script, seconds

PROGRAM = sys.argv[1]


def one(text, count):
    """The times of one reading and of one printing."""
    base = seconds(PROGRAM, text, 0, 0)
    return (seconds(PROGRAM, text, count, 0) - base) / count, (seconds(PROGRAM, text, 0, count) - base) / count


def main():
    small, large = script(1 << 16), script(1 << 20)
    small_read, small_print = one(small, 160)
    large_read, large_print = one(large, 10)
    print(f"bytes: {len(small)} and {len(large)}, ratio {len(large) / len(small):.1f}")
    print(f"parse: {small_read * 1000:.2f} ms and {large_read * 1000:.2f} ms, ratio {large_read / small_read:.1f}")
    print(f"print: {small_print * 1000:.2f} ms and {large_print * 1000:.2f} ms, ratio {large_print / small_print:.1f}")


main()
