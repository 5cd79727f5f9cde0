"""Times a run of the program over its files beside the same transactions by the system's SQLite, on a disk and in RAM."""

import json
import os
import shutil
import subprocess
import sys
import tempfile
import time

PROGRAM, DATA, SQL = sys.argv[1:4]
SIZES = [int(word) for word in sys.argv[4:]] or [1_000, 5_000, 20_000]
ACCOUNTS = 1_000
TIMES = 3


def line(i):
    headers = {"NServiceBus.EnclosedMessageTypes": "Credit", "NServiceBus.MessageId": f"c{i}"}
    body = json.dumps({"account": f"a{i % ACCOUNTS}", "amount": 1}, separators=(",", ":"))
    return json.dumps({"headers": headers, "body": body}, separators=(",", ":")) + "\n"


class Run:
    """What a command took: seconds, seconds of a processor, and the most memory that it had at once, in MB."""

    def __init__(self, spent, used):
        self.spent = spent
        self.busy = used.ru_utime + used.ru_stime
        self.memory = used.ru_maxrss / 1024


def timed(words, folder, text):
    with tempfile.TemporaryFile() as given:
        given.write(text.encode())
        given.seek(0)
        begin = time.perf_counter()
        child = subprocess.Popen(words, cwd=folder, stdin=given, stdout=subprocess.DEVNULL)
        _, status, used = os.wait4(child.pid, 0)
        spent = time.perf_counter() - begin
    if status != 0:
        sys.exit(f"bench: {words[0]} ended with the status {os.waitstatus_to_exitcode(status)}")
    return Run(spent, used)


def cells(folder, store):
    """All cells of a store, where sqlite3 is there."""
    if not shutil.which("sqlite3"):
        return None
    statement = "SELECT space, hex(slot), hex(held) FROM cells ORDER BY space, slot"
    return subprocess.run(["sqlite3", store, statement], cwd=folder, text=True, capture_output=True, check=True).stdout


def once(parent, count, text):
    """A run of the program, one of SQLite, and what the program's files hold in MB."""
    with tempfile.TemporaryDirectory(dir=parent) as own, tempfile.TemporaryDirectory(dir=parent) as other:
        for file in ("endpoint.script", "endpoint.toml"):
            shutil.copy(os.path.join(DATA, file), own)
        program = timed([PROGRAM, "run", "--at", "0"], own, text)
        by_sqlite = timed([SQL, other, str(count)], other, "")
        for store in ("post.db", "base.db"):
            if cells(own, store) != cells(other, store):
                sys.exit(f"bench: the cells of {store} aren't the same")
        held = sum(entry.stat().st_size for entry in os.scandir(own)) / 2**20
    return program, by_sqlite, held


def least(name, runs, of):
    """The least figures of the program and of SQLite, and their ratio."""
    program, by_sqlite = min(of(run[0]) for run in runs), min(of(run[1]) for run in runs)
    return f"{name} {program:.2f} s, SQLite {by_sqlite:.2f} s, ratio {program / by_sqlite:.2f}"


def compare(parent, count):
    """The least of some runs, the two by turns, since others use the machine too."""
    text = "".join(line(i) for i in range(1, count + 1))
    runs = [once(parent, count, text) for _ in range(TIMES)]
    print(f"  {count:,} lines: {least('all', runs, lambda run: run.spent)}; {least('processor', runs, lambda run: run.busy)};")
    memory, held = max(run[0].memory for run in runs), max(run[2] for run in runs)
    print(f"    at most {memory:.0f} MB of memory, {held:.1f} MB of files", flush=True)


def main():
    places = [("on a disk", os.path.dirname(PROGRAM))]
    if os.path.isdir("/dev/shm"):
        places.append(("in RAM", "/dev/shm"))
    for name, parent in places:
        print(f"{name}:", flush=True)
        for count in SIZES:
            compare(parent, count)


main()
