"""Counts the commits of one row that Python's sqlite3 makes in some seconds, ahead of a log and in full safety, for bench/serve.sh.

usage: serve_commits.py FOLDER SECONDS
"""
import sqlite3
import sys
import time

base = sqlite3.connect(sys.argv[1] + "/loop", isolation_level=None)
base.execute("pragma journal_mode = wal")
base.execute("pragma synchronous = full")
base.execute("create table kept (key text primary key, text text not null)")
count, begun = 0, time.monotonic()
while (took := time.monotonic() - begun) < float(sys.argv[2]):
    base.execute("insert into kept values (?, ?)", ("done/%032x" % count, "x" * 400))
    count += 1
print("%8.0f commits a second" % (count / took))
