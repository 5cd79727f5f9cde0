"""Credits, handled in dictionaries: reads envelope lines, and prints the report that the program prints for them."""

import json
import sys
from collections import deque

ACCOUNT, AMOUNT = "account", "amount"


def text(value):
    return json.dumps(value, ensure_ascii=False, separators=(",", ":"))


def handle(queue):
    """Takes the messages one after the other, each id once, and adds what it says to its row."""
    rows, outbox, commits = {}, {}, 0
    while queue:
        envelope = queue[0]
        identity = envelope["headers"]["NServiceBus.MessageId"]
        if identity not in outbox:
            body = json.loads(envelope["body"])
            commits += 1
            _, held = rows.get(body[ACCOUNT], (0, 0))
            rows[body[ACCOUNT]] = (commits, held + body[AMOUNT])
            outbox[identity] = (commits, 0, False)
        commit, at, sent = outbox[identity]
        if not sent:
            outbox[identity] = (commit, at, True)
        queue.popleft()
    return rows, outbox, commits


def main():
    queue = deque(json.loads(line) for line in sys.stdin.buffer)
    following = len(queue) + 1
    rows, outbox, commits = handle(queue)
    lines = ["moment 1970-01-01 00:00:00:000000 Z", f"commits {commits}", f"next {following}"]
    lines += [f"row {text(name)} {version} {value}" for name, (version, value) in sorted(rows.items())]
    lines += [f"outbox {text(name)} {n} {at} sent" for name, (n, at, _) in sorted(outbox.items())]
    sys.stdout.write("\n".join(lines) + "\n")


main()
