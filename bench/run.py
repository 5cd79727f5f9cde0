"""Times runs of three sizes, each on new files, and a plain Python program on the same lines; both print the same report."""

import json
import os
import shutil
import subprocess
import sys
import tempfile
import time

PROGRAM, DATA = sys.argv[1], sys.argv[2]
SIZES = [int(word) for word in sys.argv[3:]] or [1_000, 10_000, 100_000]
MEMORY = "/dev/shm" if os.path.isdir("/dev/shm") else None
PLAIN = os.path.join(os.path.dirname(os.path.abspath(__file__)), "credits.py")


def line(i):
    headers = {"NServiceBus.EnclosedMessageTypes": "Credit", "NServiceBus.MessageId": f"c{i:06}"}
    body = json.dumps({"account": f"a{i % 1000:03}", "amount": i % 97}, separators=(",", ":"))
    return json.dumps({"headers": headers, "body": body}, separators=(",", ":")) + "\n"


def timed(words, folder, lines):
    """The seconds and the peak memory in MB of a command that reads these lines, and what it prints."""
    with open(os.path.join(folder, "lines"), "w+") as source, open(os.path.join(folder, "printed"), "w+") as sink:
        source.write(lines)
        source.seek(0)
        begin = time.perf_counter()
        child = subprocess.Popen(words, cwd=folder, stdin=source, stdout=sink)
        _, status, usage = os.wait4(child.pid, 0)
        spent = time.perf_counter() - begin
        child.returncode = os.waitstatus_to_exitcode(status)
        assert child.returncode == 0, child.returncode
        sink.seek(0)
        return spent, usage.ru_maxrss / 1024, sink.read()


for count in SIZES:
    lines = "".join(line(i) for i in range(count))
    with tempfile.TemporaryDirectory(dir=MEMORY) as folder:
        for file in ("endpoint.script", "endpoint.toml"):
            shutil.copy(os.path.join(DATA, file), folder)
        words = [PROGRAM, "run", "--at", "0", "--turns", "200000"]
        spent, peak, report = timed(words, folder, lines)
        plain, plain_peak, plain_report = timed([sys.executable, PLAIN], folder, lines)
    assert report == plain_report, "the two reports differ"
    each = 1e6 * spent / count
    print(f"{count:,} lines: {spent:.2f} s, {count / spent:,.0f} a second, {each:.0f} microseconds a line, {peak:.0f} MB; ", end="")
    print(f"Python in dictionaries: {plain:.2f} s, {plain_peak:.0f} MB", flush=True)
