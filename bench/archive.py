"""How long a sweep takes that archives 100,000 records, and what memory and files it leaves.

usage: archive.py [PROGRAM] [RECORDS]

PROGRAM is `crates/ow_whisk/out/ow_whisk` where it is left out. Python's sqlite3 writes a file of version 1 with so many records, all of them
older than the office table lets them be. A day over it sweeps once, and then goes on. Printed are the seconds of the sweep, and of a sweep
before and after it that archives nothing, the memory of the process, the file's log, and the same of the next opening. The rows of
the file are compared before and after. Ends with 1 where they are otherwise than they must be.
"""
import json
import os
import re
import sqlite3
import subprocess
import sys
import tempfile
import time

TABLE = "namespace,1,guest,4294967295,4294967295,\nkey,k1,anna,guest,,\nretain,1,,,,\n"
DAY = 86_400_000
# Nothing was accepted under this id: the answer ends a group of statements.
MARK = b"collect 0000000000000001ffffffffffffffff\n"
MARKED = b"refused 14 The resource does not exist.\n"
PUT = b'{"exec":{"kind":"plain:1","code":"{\\"cases\\":[]}"}}'
PUT = b"PUT /api/v1/namespaces/_/actions/a HTTP/1.1\r\nX-Whisk-Key: k1\r\nContent-Length: %d\r\n\r\n%s" % (len(PUT), PUT)
PUT = b"ask %d\n%s\n" % (len(PUT), PUT)
RECORD = ('{"activationId":"%s","annotations":[{"key":"kind","value":"plain:1"},{"key":"limits","value":{"logs":10,"memory":256,'
          '"timeout":60000}},{"key":"path","value":"whisk.system/utils/echo"}],"duration":0,"end":%d,"logs":[],"name":"echo",'
          '"namespace":"guest","response":{"result":{"a":%d},"status":"success","statusCode":0,"success":true},"start":%d,'
          '"subject":"office","version":"0.0.1"}')


def write(path, count):
    base = sqlite3.connect(path)
    base.execute("pragma journal_mode = wal")
    base.execute("create table kept(key text primary key, text text not null)")
    names = ["%016x%016x" % (1, number) for number in range(1, count + 1)]
    base.executemany("insert into kept values (?, ?)", (("done/" + name, RECORD % (name, place, place, place)) for place, name in enumerate(names)))
    base.executemany("insert into kept values (?, ?)", [("count/%016x" % 1, str(count)), ("version", "1")])
    base.commit()
    base.close()


class Day:
    """A day that is under way."""

    def __init__(self, program, folder):
        self.path, begun = folder + "/store.db", time.monotonic()
        self.child = subprocess.Popen([program, "day", "--table", folder + "/table", "--store", self.path], stdin=subprocess.PIPE,
                                      stdout=subprocess.PIPE)
        self.say(b"")
        self.took = time.monotonic() - begun

    def say(self, statements):
        """The answers, and how long they took."""
        begun, answers = time.monotonic(), b""
        os.write(self.child.stdin.fileno(), statements + MARK)
        while not answers.endswith(MARKED):
            piece = os.read(self.child.stdout.fileno(), 65536)
            if not piece:
                sys.exit("the program ended by itself with %d" % self.child.wait())
            answers += piece
        return answers[:-len(MARKED)], time.monotonic() - begun

    def memory(self):
        """Memory now, and at most so far, in MB."""
        with open("/proc/%d/status" % self.child.pid) as file:
            told = dict(re.findall(r"(VmRSS|VmHWM):\s+(\d+)", file.read()))
        return int(told["VmRSS"]) / 1024, int(told["VmHWM"]) / 1024

    def end(self):
        self.child.stdin.close()
        rest = self.child.stdout.read()
        if self.child.wait() or rest:
            sys.exit("the day ended with %d: %r" % (self.child.returncode, rest[-200:]))


def rows(path):
    base = sqlite3.connect(path)
    told = [dict(base.execute("select key, text from " + table)) for table in ("kept", "old")]
    whole = base.execute("pragma integrity_check").fetchall()
    base.close()
    return (*told, whole == [("ok",)])


def main():
    here = os.path.dirname(os.path.dirname(os.path.abspath(__file__)))
    program = os.path.abspath(sys.argv[1]) if len(sys.argv) > 1 else here + "/crates/ow_whisk/out/ow_whisk"
    count = int(sys.argv[2]) if len(sys.argv) > 2 else 100_000
    with tempfile.TemporaryDirectory() as folder:
        with open(folder + "/table", "w") as file:
            file.write(TABLE)
        write(folder + "/store.db", count)
        base = sqlite3.connect(folder + "/store.db")
        records = dict(base.execute("select key, text from kept where key like 'done/%'"))
        base.close()
        day = Day(program, folder)
        print("%d records, %.1f MB: opened in %.2f s; memory %.0f MB, at most %.0f" % (
            count, os.path.getsize(day.path) / 1e6, day.took, *day.memory()))
        none, before = day.say(b"at %d\nsweep\n" % (DAY - 1))
        swept, took = day.say(b"at %d\nsweep\n" % (DAY + count))
        print("the sweep that archives them: %.2f s; memory %.0f MB, at most %.0f; the log beside the file %.1f MB" % (
            took, *day.memory(), os.path.getsize(day.path + "-wal") / 1e6))
        again, after = day.say(b"sweep\n")
        print("a sweep that archives nothing: %.1f ms before, %.1f ms after" % (before * 1e3, after * 1e3))
        day.say(PUT)
        called, took = day.say(b"call /guest/a {}\nturn\n" * 1000)
        print("1,000 calls and turns after it: %.2f s; memory %.0f MB" % (took, day.memory()[0]))
        day.end()
        kept, old, is_whole = rows(day.path)
        again_day = Day(program, folder)
        print("the next opening: %.2f s; memory %.0f MB, at most %.0f; the file %.1f MB" % (
            again_day.took, *again_day.memory(), os.path.getsize(day.path) / 1e6))
        again_day.end()
        is_right = (is_whole and none == swept == again == b"swept 0\n" and called.count(b"accepted ") == 1000 and old == records
                    and sum(key.startswith("done/") for key in kept) == 1000 and not any(key in records for key in kept)
                    and json.loads(kept["archived"]) == {"last": count - 1, "number": count})
    print("all as it must be" if is_right else "the rows are otherwise than they must be")
    return 0 if is_right else 1


sys.exit(main())
