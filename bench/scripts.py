"""Scripts of a wanted length, and the least processor time of a program on one."""

import resource
import subprocess

PART = """message M{i} {{ account: text, amount: int, late: bool }}
handler M{i} {{ // block {i}
  let rate = (msg.amount + 2) * {i};
  if msg.amount > rate && !msg.late {{ add row("a/" ++ msg.account) by msg.amount * (rate - 1); }} else {{
    fail Late "line \\"{i}\\"\\n" ++ text(msg.amount);
  }}
}}
"""


def script(size):
    """A script of nearly this many bytes, which breaks no rule."""
    parts = []
    length = 0
    i = 0
    while True:
        part = PART.format(i=i)
        if length + len(part) > size:
            return "".join(parts).encode()
        parts.append(part)
        length += len(part)
        i += 1


def processor_time():
    """What all programs that have ended here have taken."""
    used = resource.getrusage(resource.RUSAGE_CHILDREN)
    return used.ru_utime + used.ru_stime


def seconds(program, text, first, second):
    """The least processor time of five runs with these two numbers as words and this text as input."""
    best = None
    for _ in range(5):
        begin = processor_time()
        subprocess.run([program, str(first), str(second)], input=text, stdout=subprocess.DEVNULL, check=True)
        spent = processor_time() - begin
        best = spent if best is None else min(best, spent)
    return best
