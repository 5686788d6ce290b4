"""Kills the program with SIGKILL while it opens a store of version 1, and looks at what is left.

usage: kill_migration.py [PROGRAM] [TIMES] [RECORDS] [SEED] [SPOIL]

PROGRAM is `crates/ow_whisk/out/ow_whisk` where it is left out, TIMES 50, RECORDS 20000, SEED 1. Python's sqlite3 writes a file of version 1:
so many records, 400 activations that have not ended (of code, sequences and conductors), actions, packages with bindings, triggers and
rules. One run opens a copy and ends by itself. It must leave version 2:

- `version` is `2`, and `archived` says that nothing is archived;
- what had not ended is recorded with code 3; all other rows stay, byte by byte.

Then so many runs are killed, each at a random moment: of the whole opening, or shortly after its commit has begun to write. After each, the rows must
be all those of version 1 or all those of version 2, no old row is there, and SQLite finds the file whole. A file of version 1 is opened
again and killed again; one of version 2 is opened once more by a run that ends by itself and gets records, and is then put back. A run that
ends before its kill is looked at and not counted. At the end the file is read on: all is archived, and the old rows are the records.

SPOIL tries the script itself: before the look after the middle kill the file is changed, and the script must find it. `half` makes it
version 2 without the archive, `lose` removes a record, `end` records one open activation alone.
"""
import collections
import json
import os
import random
import shutil
import sqlite3
import subprocess
import sys
import tempfile
import time

TABLE = "namespace,1,guest,,,\nnamespace,2,shop,,,\nkey,k1,anna,guest,,\nretain,1,,,,\n"
PATIENCE = 120
OPEN = 400
LIMITS = {"logs": 10, "memory": 256, "timeout": 60000}
# The table of old rows is made by a commit of its own, of a few pages; what comes after 8 frames of the log is the opening's commit.
BEGUN = 32 + 8 * (24 + 4096)


def compact(value):
    return json.dumps(value, sort_keys=True, separators=(",", ":"))


def ident(namespace, count):
    return "%016x%016x" % (namespace, count)


def record(name, moment):
    namespace = ("guest", "shop")[int(name[:16], 16) - 1]
    return compact({"activationId": name, "annotations": [
        {"key": "initTime", "value": 0}, {"key": "kind", "value": "plain:1"}, {"key": "limits", "value": LIMITS},
        {"key": "path", "value": namespace + "/every"}, {"key": "waitTime", "value": 3}], "duration": 0, "end": moment, "logs": ["one line"],
        "name": "every", "namespace": namespace, "response": {"result": {"moment": moment}, "status": "success", "statusCode": 0,
        "success": True}, "start": moment, "subject": "anna", "version": "0.0.1"})


def open_row(name, moment, form, cause=None):
    row = {"activationId": name, "at": moment, "form": form, "kind": "sequence" if form == "sequence" else "plain:1", "limits": LIMITS,
           "namespace": "guest", "path": "guest/" + form, "subject": "anna", "version": "0.0.1"}
    if cause:
        row["cause"] = cause
    return compact(row)


def entity(kind, path, **fields):
    package, _, name = path.rpartition("/")
    row = {"annotations": [], "name": name, "namespace": "guest" + ("/" + package if package else ""), "publish": False, "version": "0.0.1"}
    return "row/%s/guest/%s" % (kind, path), compact({**row, **fields})


def entities():
    code = {"kind": "plain:1", "code": compact({"cases": [{"when": {}, "give": {"$all": True}}]})}
    for number in range(20):
        bound = {"name": "p0", "namespace": "guest"} if number % 2 else {}
        yield entity("package", "p%d" % number, binding=bound, parameters=[{"key": "n", "value": number}])
    for number in range(200):
        yield entity("action", ("p%d/" % (number % 20 - number % 2) if number % 3 else "") + "a%d" % number, exec=code, limits=LIMITS, parameters=[])
    for number in range(20):
        yield entity("trigger", "t%d" % number, parameters=[])
        yield entity("rule", "r%d" % number, status="active", trigger="/guest/t%d" % number, action="/guest/a%d" % (3 * number))


def first_rows(records):
    """The rows of version 1."""
    rows = {"version": "1", **dict(entities())}
    counts = collections.Counter()
    for number in range(records):
        namespace = 1 + number % 2
        counts[namespace] += 1
        name = ident(namespace, counts[namespace])
        rows["done/" + name] = record(name, 1000 + number)
    for number in range(OPEN):
        counts[1] += 1
        name, form = ident(1, counts[1]), ("leaf", "sequence", "leaf", "conductor")[number % 4]
        rows["open/" + name] = open_row(name, 1000 + records, form, ident(1, counts[1] - 1) if number % 4 == 2 else None)
    for namespace, count in counts.items():
        rows["count/%016x" % namespace] = str(count)
    return rows


def write(path, rows):
    base = sqlite3.connect(path)
    base.execute("pragma journal_mode = wal")
    base.execute("create table kept(key text primary key, text text not null)")
    base.executemany("insert into kept values (?, ?)", sorted(rows.items()))
    base.commit()
    base.close()


def look(path, folder):
    """The rows and the old rows, and what is wrong with the file. A copy is read, so that looking changes nothing."""
    copy = folder + "/look"
    for end in ("", "-wal", "-shm"):
        if os.path.exists(copy + end):
            os.remove(copy + end)
        if end != "-shm" and os.path.exists(path + end):
            shutil.copyfile(path + end, copy + end)
    base = sqlite3.connect(copy)
    pairs = base.execute("select key, text from kept").fetchall()
    has_old = base.execute("select count(*) from sqlite_master where name = 'old'").fetchone()[0]
    old = dict(base.execute("select key, text from old")) if has_old else {}
    whole = base.execute("pragma integrity_check").fetchall()
    base.close()
    rows = dict(pairs)
    return rows, old, None if whole == [("ok",)] and len(rows) == len(pairs) else "the file isn't whole: %r" % whole[:3]


def asked(path):
    head = "GET /api/v1/namespaces/_/%s HTTP/1.1\r\nX-Whisk-Key: k1\r\n\r\n" % path
    return "ask %d\n%s\n" % (len(head), head)


class Trial:
    """The program over a store of version 1, and what was found."""

    def __init__(self, program, folder, records, rng):
        self.folder, self.path, self.rng, self.bad = folder, folder + "/store.db", rng, []
        self.command = [program, "day", "--table", folder + "/table", "--store", self.path]
        with open(folder + "/table", "w") as file:
            file.write(TABLE)
        self.first = first_rows(records)
        write(folder + "/first.db", self.first)
        self.put_back()
        begun = time.monotonic()
        out = self.run("")
        self.took = time.monotonic() - begun
        self.second, old, broken = look(self.path, folder)
        self.bad += [it for it in (broken, *self.wrong_migration(), out and "an empty day prints %r" % out, old and "old rows are there") if it]

    def put_back(self):
        for end in ("-wal", "-shm"):
            if os.path.exists(self.path + end):
                os.remove(self.path + end)
        shutil.copyfile(self.folder + "/first.db", self.path)

    def run(self, day):
        done = subprocess.run(self.command, input=day.encode(), capture_output=True, timeout=PATIENCE)
        if done.returncode:
            self.bad.append("a day ended with %d: %r" % (done.returncode, done.stderr))
        return done.stdout.decode()

    def wrong_migration(self):
        """What is otherwise in the rows of version 2 than in those of version 1."""
        wanted = {key: text for key, text in self.first.items() if not key.startswith("open/")}
        wanted.update({"version": "2", "archived": '{"last":0,"number":0}'})
        for key in sorted({*wanted, *self.second}):
            opened = self.first.get(key.replace("done/", "open/"))
            if key.startswith("done/") and opened and not self.first.get(key):
                told = json.loads(self.second.get(key, '{"response":{}}'))
                if told["response"].get("statusCode") != 3 or told.get("start") != json.loads(opened)["at"]:
                    yield "not recorded as abandoned: " + key
            elif self.second.get(key) != wanted.get(key):
                yield "otherwise in version 2: " + key

    def killed(self):
        """Opens the store and kills that: at `any` moment, or in its `commit`, over a file without a log of before. Or it `ended` by itself."""
        kind = self.rng.choice(["any", "commit", "commit"])
        when = kind
        if kind == "commit":
            self.put_back()
        child = subprocess.Popen(self.command, stdin=subprocess.PIPE, stdout=subprocess.DEVNULL, stderr=subprocess.DEVNULL)
        end = time.monotonic() + (self.took * 1.1 * self.rng.random() if kind == "any" else PATIENCE)
        while time.monotonic() < end and child.poll() is None:
            if kind == "commit" and self.has_begun():
                kind, end = "begun", time.monotonic() + 0.05 * self.took * self.rng.random() ** 3
        child.kill()
        child.stdin.close()
        return "ended" if child.wait() == 0 else when

    def has_begun(self):
        try:
            return os.stat(self.path + "-wal").st_size > BEGUN
        except OSError:
            return False

    def found(self):
        """Which version the store has, by all its rows."""
        rows, old, broken = look(self.path, self.folder)
        self.bad += [it for it in (broken, old and "%d old rows are there" % len(old)) if it]
        for version, wanted in ((1, self.first), (2, self.second)):
            if rows == wanted:
                return version
        keys = [key for key in sorted({*rows, *self.first}) if rows.get(key) != self.first.get(key)]
        self.bad.append("neither version: %d rows are otherwise than in version 1, the first one %s" % (len(keys), keys[0]))
        return None

    def read(self):
        """Opens the store by a run that ends by itself, and gets some records and an action."""
        names = [key[5:] for key in self.second if key.startswith("done/" + ident(1, 0)[:16])]
        chosen = self.rng.sample(names, 20)
        out = self.run("".join(asked("activations/" + name) for name in chosen) + asked("actions/a0"))
        if not all(self.second["done/" + name] in out for name in chosen) or self.second["row/action/guest/a0"] not in out:
            self.bad.append("what is shown is otherwise than what is kept")
        rows, old, broken = look(self.path, self.folder)
        if rows != self.second or old or broken:
            self.bad.append("an opening of version 2 changes rows, or leaves none of version 1 as version 2")

    def archive(self):
        """All records are archived, and are the old rows."""
        out = self.run("at 253402300799999\nsweep\n" + asked("activations"))
        rows, old, broken = look(self.path, self.folder)
        records = {key: text for key, text in self.second.items() if key.startswith("done/")}
        last = max(json.loads(text)["end"] for text in records.values())
        wanted = {key: text for key, text in self.second.items() if key not in records}
        wanted["archived"] = '{"last":%d,"number":%d}' % (last, len(records))
        if broken or rows != wanted or old != records or not out.endswith("\r\n\r\n[]\n"):
            self.bad.append("not all records are archived, or another row has changed")


def spoil(trial, how):
    """Changes the file, as a faulty program might have left it."""
    trial.put_back()
    base = sqlite3.connect(trial.path)
    if how == "half":
        base.execute("update kept set text = '2' where key = 'version'")
    elif how == "lose":
        base.execute("delete from kept where key = ?", ("done/" + ident(2, 1),))
    else:
        name = next(key for key in trial.first if key.startswith("open/"))
        base.execute("delete from kept where key = ?", (name,))
        base.execute("insert into kept values (?, ?)", ("done" + name[4:], trial.second["done" + name[4:]]))
    base.commit()
    base.close()


def main():
    given = sys.argv[1:]
    how = given.pop() if given[-1:] and given[-1] in ("half", "lose", "end") else None
    here = os.path.dirname(os.path.dirname(os.path.abspath(__file__)))
    program = os.path.abspath(given[0]) if given else here + "/crates/ow_whisk/out/ow_whisk"
    times, records, seed = (int(it) for it in given[1:4] + ["50", "20000", "1"][len(given[1:4]):])
    counts, failures = collections.Counter(), 0
    with tempfile.TemporaryDirectory() as folder:
        trial = Trial(program, folder, records, random.Random(seed))
        trial.put_back()
        while not trial.bad and counts["kills"] < times:
            when = trial.killed()
            if how and counts["kills"] == times // 2:
                spoil(trial, how)
            version = trial.found()
            if when == "ended" and version != 2:
                trial.bad.append("a run that ended by itself left version 1")
            counts["kills"] += when != "ended"
            counts[when, version] += 1
            if version == 2:
                trial.read()
                trial.put_back()
        if not trial.bad:
            trial.read()
            trial.archive()
        for line in trial.bad[:5]:
            print("after kill %d: %s" % (counts["kills"], line))
        failures = len(trial.bad)
    kinds = ["%d %s, of which %d left version 1 and %d version 2" % (counts[when, 1] + counts[when, 2], text, counts[when, 1], counts[when, 2])
             for when, text in (("any", "at any moment"), ("commit", "after the commit had begun"))]
    print("an opening over %d records and %d open activations took %.2f s; %d kills: %s; %s; %d runs ended before their kill; %s"
          % (records, OPEN, trial.took, counts["kills"], *kinds, counts["ended", 2], "%d things are wrong" % failures if failures else "all as it must be"))
    return 1 if failures else 0


sys.exit(main())
