"""Commits a second of days over stores of both page sizes, beside a loop of commits in Python, and what is stored after a kill.

usage: store.py PROGRAM FOLDER NEW_STORE [ROUNDS] [CALLS] [LARGE]

FOLDER lies on the disk that is measured, NEW_STORE is deploy/new_store.sh, ROUNDS is 3 where it is left out. Each round lets each in turn
make its commits over a new file, and the line of each shows the median of the rounds, with the least and the greatest. A day of CALLS calls
(2,000) with small results, and one of LARGE calls (100) with results of 1 MB, runs each call by a turn: two commits a call. The same day
without a store shows what of its time isn't the store's. The loop inserts one row a commit, of 600 bytes or 1 MB.

Then a day over each kind of file is killed by SIGKILL at three moments: `pragma integrity_check` must say ok, and each end that the day
reported must be stored as a record. Standard library only.
"""
import json
import os
import random
import sqlite3
import statistics
import subprocess
import sys
import threading
import time

PROGRAM, FOLDER, NEW_STORE = sys.argv[1:4]
ROUNDS = int(sys.argv[4]) if len(sys.argv) > 4 else 3
CALLS = int(sys.argv[5]) if len(sys.argv) > 5 else 2000
LARGE = int(sys.argv[6]) if len(sys.argv) > 6 else 100
TABLE = "namespace,1,guest,4294967295,4294967295,\nkey,k1,anna,guest,,\n"
# The bytes of a result: {"x":".."} with so many letters.
SIZES = {"small": 10, "1 MB": 1048576 - 8}


def day(calls, letters):
    """Puts an action that gives back what it is given, and calls it so often."""
    code = json.dumps({"cases": [{"when": {}, "give": {"$all": True}}]}, separators=(",", ":"))
    body = json.dumps({"exec": {"kind": "plain:1", "code": code}}, separators=(",", ":")).encode()
    head = f"PUT /api/v1/namespaces/_/actions/a HTTP/1.1\r\nX-Whisk-Key: k1\r\nContent-Length: {len(body)}\r\n\r\n".encode()
    call = b'call /guest/a {"x":"%s"}\nturn\n' % (b"x" * letters)
    return b"ask %d\n%s\n" % (len(head) + len(body), head + body) + call * calls


def clear():
    for name in os.listdir(FOLDER):
        if name.startswith("store"):
            os.remove(f"{FOLDER}/{name}")


def store_of(page):
    """The words of a store of that page size; none for none."""
    clear()
    if page == 512:
        subprocess.run([NEW_STORE, f"{FOLDER}/store"], check=True)
    return ["--store", f"{FOLDER}/store"] if page else []


def words(page):
    return [PROGRAM, "day", "--table", f"{FOLDER}/table", *store_of(page)]


def program_rate(calls, letters, page):
    """Commits a second of a day; without a store, as many as there would be."""
    text, given = day(calls, letters), words(page)
    begun = time.monotonic()
    done = subprocess.run(given, input=text, stdout=subprocess.PIPE, check=True)
    took = time.monotonic() - begun
    told = done.stdout.count(b"recorded ")
    if told != calls:
        sys.exit(f"{told} of {calls} calls were recorded")
    return (2 * calls + 1) / took


def loop_rate(commits, size, page):
    """Commits of one row a second, ahead of a log and in full safety."""
    clear()
    base = sqlite3.connect(f"{FOLDER}/store", isolation_level=None)
    base.execute(f"pragma page_size = {page}")
    base.execute("pragma journal_mode = wal")
    base.execute("pragma synchronous = full")
    base.execute("create table kept (key text primary key, text text not null)")
    text = "x" * size
    begun = time.monotonic()
    for count in range(commits):
        base.execute("insert into kept values (?, ?)", (f"done/{count:032x}", text))
    took = time.monotonic() - begun
    base.close()
    return commits / took


def measure():
    for size, letters in SIZES.items():
        calls = CALLS if size == "small" else LARGE
        large = 600 if size == "small" else 1048576
        ways = [(f"day, store of pages of {page}", lambda page=page: program_rate(calls, letters, page)) for page in (4096, 512)]
        ways += [(f"Python loop, pages of {page}", lambda page=page: loop_rate(2 * calls, large, page)) for page in (4096, 512)]
        ways += [("day without a store", lambda: program_rate(calls, letters, None))]
        found = {name: [] for name, _ in ways}
        for _ in range(ROUNDS):
            for name, rate in ways:
                found[name].append(rate())
        print(f"results {size}, {2 * calls} commits each, a second:")
        for name, rates in found.items():
            print(f"  {name:30} {statistics.median(rates):9.0f}   ({min(rates):.0f} to {max(rates):.0f})")


def told_until(child, letters, after):
    """The ids of the ends that a day reports, one call after another, until it is killed at that moment."""
    threading.Timer(after, child.kill).start()
    first = day(0, letters)
    call = day(1, letters)[len(first):]
    told, line = [], b"."
    try:
        child.stdin.write(first + call)
        child.stdin.flush()
        while line := child.stdout.readline():
            if line.startswith(b"recorded "):
                told.append(line.split()[1].decode())
                child.stdin.write(call)
                child.stdin.flush()
    except BrokenPipeError:
        pass
    return told


def killed(page, letters, after):
    """Kills a day at a moment, and looks at its file."""
    with subprocess.Popen(words(page), stdin=subprocess.PIPE, stdout=subprocess.PIPE) as child:
        told = told_until(child, letters, after)
        child.stdin = None
    base = sqlite3.connect(f"{FOLDER}/store")
    said = base.execute("pragma integrity_check").fetchone()[0]
    kept = {key for key, in base.execute("select substr(key, 6) from kept where key like 'done/%'")}
    size = base.execute("pragma page_size").fetchone()[0]
    base.close()
    if said != "ok" or not set(told) <= kept or size != page:
        sys.exit(f"after a kill: integrity_check {said}, {len(set(told) - kept)} records that were reported are missing, pages of {size}")
    return f"{after:.2f} s: {said}, {len(told)} reported, {len(kept)} stored"


def kills():
    moments = random.Random(1)
    for page in (4096, 512):
        for size, letters in SIZES.items():
            told = [killed(page, letters, 0.3 + 1.2 * moments.random()) for _ in range(3)]
            print(f"SIGKILL, pages of {page}, results {size}: " + "; ".join(told))


with open(f"{FOLDER}/table", "w", encoding="ascii") as table:
    table.write(TABLE)
measure()
kills()
