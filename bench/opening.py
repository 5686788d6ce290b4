"""How long the program takes to open over 100,000 records, beside what reading their file takes.

usage: opening.py PROGRAM [RECORDS]

The file is written by Python's sqlite3. A second one holds a row more, whose key comes first and is none: there the program reads the
whole file, and then tells that row and ends. So the time over the second file is that of reading it, and of starting the program.
Each time is the least of five, in seconds of the processor.
"""
import os
import resource
import sqlite3
import subprocess
import sys
import tempfile

RECORD = ('{"activationId":"%s","annotations":[{"key":"kind","value":"plain:1"},{"key":"limits","value":{"logs":10,"memory":256,'
          '"timeout":60000}},{"key":"path","value":"whisk.system/utils/echo"}],"duration":0,"end":0,"logs":[],"name":"echo",'
          '"namespace":"whisk.system","response":{"result":{"a":%d},"status":"success","statusCode":0,"success":true},"start":0,'
          '"subject":"office","version":"0.0.1"}')


def rows(count):
    yield "count/0000000000000000", str(count)
    for number in range(1, count + 1):
        name = "%032x" % number
        yield "done/" + name, RECORD % (name, number)
    yield "version", "1"


def write(path, kept):
    with sqlite3.connect(path) as made:
        made.execute("CREATE TABLE kept(key TEXT PRIMARY KEY, text TEXT NOT NULL)")
        made.executemany("INSERT INTO kept VALUES(?, ?)", kept)
    made.close()


def seconds(program, path, status):
    times = []
    for _ in range(5):
        before = resource.getrusage(resource.RUSAGE_CHILDREN)
        ended = subprocess.run([program, "day", "--store", path], stdin=subprocess.DEVNULL, capture_output=True)
        after = resource.getrusage(resource.RUSAGE_CHILDREN)
        if ended.returncode != status:
            sys.exit("ended with %d: %s" % (ended.returncode, ended.stderr.decode()))
        times.append(after.ru_utime + after.ru_stime - before.ru_utime - before.ru_stime)
    return min(times)


def main():
    program, count = os.path.abspath(sys.argv[1]), int(sys.argv[2]) if len(sys.argv) > 2 else 100_000
    with tempfile.TemporaryDirectory() as folder:
        good, bad = folder + "/good.db", folder + "/bad.db"
        write(good, rows(count))
        write(bad, [("a", "no row"), *rows(count)])
        opening, reading = seconds(program, good, 0), seconds(program, bad, 9)
        print("%d records, %.1f MB: opened in %.2f s, read in %.2f s, %.1f times" % (
            count, os.path.getsize(good) / 1e6, opening, reading, opening / reading))


main()
