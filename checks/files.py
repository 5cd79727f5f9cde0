"""Checks of the program over its files, in folders of its own. The last line is 'N passed, M failed'."""

import json
import os
import random
import resource
import shutil
import subprocess
import sys
import tempfile
import time
from datetime import datetime, timezone

PROGRAM, DATA = sys.argv[1], sys.argv[2]
KILLS = 100


def line(message_type, message_id, body):
    headers = {"NServiceBus.EnclosedMessageTypes": message_type, "NServiceBus.MessageId": message_id}
    return json.dumps({"headers": headers, "body": json.dumps(body, separators=(",", ":"))}, separators=(",", ":")) + "\n"


def message(i):
    if i % 3:
        return line("Credit", f"c{i}", {"account": f"a{i % 7}", "amount": i})
    return line("Shop.PlaceOrder", f"p{i}", {"orderId": f"o{i % 5}", "amount": i})


LINES = "".join(message(i) for i in range(60))


def fresh(parent, name):
    folder = os.path.join(parent, name)
    os.mkdir(folder)
    for file in ("endpoint.script", "endpoint.toml"):
        shutil.copy(os.path.join(DATA, file), folder)
    return folder


def call(folder, *words, text=""):
    return subprocess.run([PROGRAM, *words], cwd=folder, input=text, text=True, capture_output=True)


def run(folder, moment, *words, text=""):
    return call(folder, "run", "--at", str(moment), *words, text=text).stdout


def report(moment, commits, following, *lines):
    """The report at a moment, of so many commits, whose next entry has this number."""
    text = datetime.fromtimestamp(moment, timezone.utc).strftime("%Y-%m-%d %H:%M:%S:000000 Z")
    return "\n".join([f"moment {text}", f"commits {commits}", f"next {following}", *lines, ""])


def credit(amount):
    return line("Credit", "c1", {"account": "ann", "amount": amount})


def stands(report):
    """The rows without the commits that wrote them, the totals of the sagas, and the ids of the records that are sent."""
    parts = [part.split(" ") for part in report.split("\n")]
    rows = sorted((p[1], p[3]) for p in parts if p[0] == "row")
    sagas = sorted((p[2], p[7]) for p in parts if p[0] == "saga")
    sent = sorted(p[1] for p in parts if p[0] == "outbox" and p[4] == "sent")
    return rows, sagas, sent


def killed(parent):
    """Kills of a run at random moments; the next run, with the same lines again, comes to what an undisturbed one does."""
    folder = fresh(parent, "whole")
    begin = time.perf_counter()
    wanted = stands(call(folder, "run", "--at", "0", text=LINES).stdout)
    whole = time.perf_counter() - begin
    cut = 0
    for k in range(KILLS):
        folder = fresh(parent, f"killed{k}")
        child = subprocess.Popen([PROGRAM, "run", "--at", "0"], cwd=folder, stdin=subprocess.PIPE, stdout=subprocess.DEVNULL, text=True)
        child.stdin.write(LINES)
        child.stdin.close()
        time.sleep(random.random() * whole)
        child.kill()
        cut += child.wait() != 0
        after = call(folder, "run", "--at", "0", text=LINES)
        yield f"run {k} is finished by the next one", after.returncode == 0 and stands(after.stdout) == wanted
    print(f"{cut} of {KILLS} runs were killed before their end")


def repeated(parent):
    """A message that comes twice is handled once, in one run and in a later one."""
    folder = fresh(parent, "repeated")
    stood = ['row "ann" 1 5', 'outbox "c1" 1 0 sent']
    yield "two of one id are handled once", run(folder, 0, text=credit(5) * 2) == report(0, 1, 3, *stood)
    yield "the files show it when they are opened again", call(folder, "show", "--at", "0").stdout == report(0, 1, 3, *stood)
    yield "a later one of that id changes nothing", run(folder, 0, text=credit(7)) == report(0, 1, 4, *stood)
    folder = fresh(parent, "other amount")
    yield "the first of one id counts", run(folder, 0, text=credit(5) + credit(7)) == report(0, 1, 3, *stood)


def placed(parent):
    """An order is shown as its run reported it, and so is its timeout an hour later."""
    folder = fresh(parent, "placed")
    order = line("Shop.PlaceOrder", "p1", {"orderId": "A", "amount": 1})
    queued = r'''queue "Billing" 2 "Sales/1/1" "Charge" 0 "{\"amount\":1,\"orderId\":\"A\"}"'''
    waiting = r'''delayed 3600 3 "Sales" "Sales/1/2" "OrderExpired" 0 "{\"orderId\":\"A\"}"'''
    saga = 'saga Order "A" "Sales/1/1" 1 "" "p1" total=1 paid=false'
    wanted = report(0, 1, 4, saga, 'outbox "p1" 1 0 sent', queued, waiting)
    yield "an order is placed", run(folder, 0, text=order) == wanted
    yield "it is shown so", call(folder, "show", "--at", "0").stdout == wanted
    wanted = report(3600, 2, 4, 'row "expired" 2 1', 'outbox "Sales/1/2" 2 3600 sent', 'outbox "p1" 1 0 sent', queued)
    yield "its timeout comes in a later run", run(folder, 0, "--horizon", "3600") == wanted
    yield "that is shown so too", call(folder, "show", "--at", "3600").stdout == wanted


def mend(folder):
    """The script's handler that refuses its message counts it instead."""
    path = os.path.join(folder, "endpoint.script")
    with open(path) as file:
        script = file.read()
    with open(path, "w") as file:
        file.write(script.replace('reject Refused "never";', 'add row("no") by 1;'))


def mended(parent):
    """What failed goes back by retry, fails again, and is handled once the script is mended; each in a run of its own."""
    folder = fresh(parent, "mended")
    why = 'fault "Sales" "Refused" "never" "1970-01-01 00:00:00:000000 Z" "Sales"'
    failed = report(0, 0, 3, 'queue "error" 2 "n1" "No" 0 "{}"', why)
    yield "a message is refused", run(folder, 0, text=line("No", "n1", {})) == failed
    returned = report(0, 0, 4, 'queue "Sales" 3 "n1" "No" 0 "{}"')
    yield "it is returned", call(folder, "retry", "--at", "0").stdout == returned
    failed = report(0, 0, 5, 'queue "error" 4 "n1" "No" 0 "{}"', why)
    yield "it is refused again", run(folder, 0) == failed
    mend(folder)
    yield "a mended script alone changes nothing", run(folder, 0) == failed
    returned = report(0, 0, 6, 'queue "Sales" 5 "n1" "No" 0 "{}"')
    yield "it is returned to the mended script", call(folder, "retry", "--at", "0").stdout == returned
    yield "it isn't returned twice", call(folder, "retry", "--at", "0").stdout == returned
    stood = ['row "no" 1 1', 'outbox "n1" 1 0 sent']
    yield "it is handled", run(folder, 0) == report(0, 1, 6, *stood)
    yield "nothing is left to return", call(folder, "retry", "--at", "0").stdout == report(0, 1, 6, *stood)


def purged(parent):
    """A record goes when its time is over, and not before; then its id is new again."""
    folder = fresh(parent, "purged")
    kept = 604800
    row, record = 'row "ann" 1 5', 'outbox "c1" 1 0 sent'
    run(folder, 0, text=credit(5) * 2)
    early = call(folder, "purge", "--at", str(kept - 1)).stdout
    yield "a record stays until its time is over", early == report(kept - 1, 1, 3, row, record)
    yield "its id is still known", run(folder, kept - 1, text=credit(5)) == report(kept - 1, 1, 4, row, record)
    yield "then it goes", call(folder, "purge", "--at", str(kept)).stdout == report(kept, 1, 4, row)
    wanted = report(kept, 2, 5, 'row "ann" 2 10', f'outbox "c1" 2 {kept} sent')
    yield "its id is new again", run(folder, kept, text=credit(5)) == wanted
    yield "that is shown", call(folder, "show", "--at", str(kept)).stdout == wanted


STOPPED = line("Shop.PlaceOrder", "p1", {"orderId": "A", "amount": 1}) + line("No", "n1", {}) + credit(5) * 2
STEP = 8192


def cut_short(folder, most):
    """A run none of whose files may grow beyond so many bytes, as on a disk that is full by then."""
    limit = lambda: resource.setrlimit(resource.RLIMIT_FSIZE, (most, most))
    words = [PROGRAM, "run", "--at", "0"]
    # the write is refused, where the signal would end the program
    done = subprocess.run(words, cwd=folder, input=STOPPED, text=True, capture_output=True, preexec_fn=limit, restore_signals=False)
    return done.returncode


def grown(parent):
    """A folder whose base is longer than what a run makes of its post."""
    folder = fresh(parent, "grown")
    run(folder, 0, text="".join(line("Credit", f"g{i}", {"account": f"g{i}", "amount": i}) for i in range(20)))
    for file in ("post.db", "post.db-wal"):
        os.remove(os.path.join(folder, file))
    return folder


def full_at(parent, begun, status, name):
    """Runs that end at a full disk, a little later each; the next run, with the same lines again, comes to what an undisturbed one does."""
    folder = os.path.join(parent, f"enough {name}")
    shutil.copytree(begun, folder)
    wanted = stands(run(folder, 0, text=STOPPED))
    most = max(os.path.getsize(os.path.join(begun, file)) for file in os.listdir(begun))
    end, cut = status, 0
    while end != 0:
        most += STEP
        folder = os.path.join(parent, f"{name} {most}")
        shutil.copytree(begun, folder)
        end = cut_short(folder, most)
        yield f"the {name} fails where the disk is full, or nothing does", end in (0, status)
        after = call(folder, "run", "--at", "0", text=STOPPED)
        yield f"a run whose {name} failed is finished by the next one", after.returncode == 0 and stands(after.stdout) == wanted
        shutil.rmtree(folder)
        cut += end == status
        if end not in (0, status):
            break
    print(f"{cut} runs ended with a {name} that failed")


def full(parent):
    """A disk that is full at each moment of a run, for the post and for the base."""
    yield from full_at(parent, fresh(parent, "new"), 9, "post")
    yield from full_at(parent, grown(parent), 8, "base")


def sqlite(folder, store, statement):
    done = subprocess.run(["sqlite3", store, statement], cwd=folder, text=True, capture_output=True)
    return done.stdout.strip()


def read_and_written(parent):
    """sqlite3 reads what the program wrote, and the program opens what sqlite3 wrote."""
    folder = fresh(parent, "sqlite")
    call(folder, "run", "--at", "0", text=line("Credit", "c1", {"account": "ann", "amount": 5}))
    yield "base.db is whole", sqlite(folder, "base.db", "PRAGMA integrity_check") == "ok"
    yield "post.db is whole", sqlite(folder, "post.db", "PRAGMA integrity_check") == "ok"
    row = "SELECT CAST(slot AS TEXT), hex(held) FROM cells WHERE space = 3"
    yield "a row is read", sqlite(folder, "base.db", row) == "ann|0100000000000000010000000000000005"
    sqlite(folder, "base.db", "UPDATE cells SET held = x'0100000000000000010000000000000007' WHERE space = 3")
    yield "a changed row is shown", 'row "ann" 1 7\n' in call(folder, "show", "--at", "0").stdout
    sqlite(folder, "base.db", "INSERT INTO cells VALUES(9, x'00', x'00')")
    yield "another space is left alone", call(folder, "show", "--at", "0").returncode == 0
    sqlite(folder, "base.db", "UPDATE cells SET held = x'01' WHERE space = 3")
    damaged = call(folder, "show", "--at", "0")
    yield "damage is told", (damaged.returncode, damaged.stdout) == (11, "endpoint: damaged Base 3 616e6e\n")


def refused(parent):
    """A file that is no database, and one that can't be written."""
    folder = fresh(parent, "other")
    with open(os.path.join(folder, "post.db"), "w") as file:
        file.write("no database, but long enough to be looked at as one" * 20)
    told = call(folder, "show")
    yield "a file that is no database is refused", (told.returncode, told.stdout) == (9, "endpoint: post store failed\n")
    folder = fresh(parent, "base")
    os.mkdir(os.path.join(folder, "base.db"))
    told = call(folder, "show")
    yield "a folder in the place of a store is refused", (told.returncode, told.stdout) == (8, "endpoint: base store failed\n")


def main():
    checks = [repeated, placed, mended, purged, full, killed, refused]
    if shutil.which("sqlite3"):
        checks.append(read_and_written)
    else:
        print("sqlite3 isn't there: what it reads and writes is left out")
    passed, failed = 0, 0
    with tempfile.TemporaryDirectory() as parent:
        for check in checks:
            for name, holds in check(parent):
                passed += holds
                failed += not holds
                if not holds:
                    print(f"failed: {name}")
    print(f"{passed} passed, {failed} failed")
    sys.exit(1 if failed else 0)


main()
