"""Kills the program with SIGKILL at random moments of a deployment, and looks at what the next run finds.

usage: kill_deploy.py [PROGRAM] [TIMES] [ENTITIES] [SEED] [SPOIL]

PROGRAM is `crates/ow_whisk/out/ow_whisk` where it is left out, TIMES 50, ENTITIES 200, SEED 1. A day and an earlier deployment fill a SQLite
file. Then each time a manifest of that many entities is deployed over the same file: half of them are there with other fields, a quarter
without a change, a quarter not at all. The program is killed at a random moment: of the whole run, shortly after its commit has begun, or
shortly after its answer. A run that ends before its kill is looked at and not counted.

The file is opened again, in turn by a day that gets each entity of the manifest, and by the same deployment. Python's sqlite3 reads a copy.

- All rows of the manifest are there, as this script expects them, byte by byte, or none has changed. After the answer all are there.
- The day's answers show the same, and all other rows stay.
- The deployment that follows prints the counts of what was found: all as the same, or those of the whole manifest. Then all rows are there.
- Repeated, it prints all as the same, and changes no row. SQLite finds the file whole.

SPOIL tries the script itself: before the opening after the middle kill the file is changed, and the script must find it. `part` takes back
one row of the manifest and puts the others, `lose` removes a row that the manifest doesn't name.
"""
import collections
import json
import os
import random
import re
import shutil
import sqlite3
import subprocess
import sys
import tempfile
import time

TABLE = "namespace,1,guest,,,\nnamespace,2,other,,,\nkey,k1,anna,guest,,\nkey,k2,bert,other,,\n"
PATIENCE = 60
# The opening commits one page. After the 32 bytes of the log's head and one frame, the deployment's commit begins.
BEGUN = 32 + 24 + 4096
KINDS = {"package": "packages", "action": "actions", "trigger": "triggers", "rule": "rules"}


def compact(value):
    return json.dumps(value, sort_keys=True, separators=(",", ":"))


def code_of(number):
    return {"kind": "plain:1", "code": compact({"cases": [{"when": {}, "give": {"n": number}}]})}


def parameters_of(number):
    return [{"key": "n", "value": number}]


class Entity:
    """An entity of a manifest: its kind and path, and the fields that it is given."""

    def __init__(self, kind, path, fields):
        self.kind, self.path, self.fields = kind, path, fields
        self.key = f"row/{kind}/guest/{path}"

    def text(self, version):
        """What is kept of it at that version."""
        package, _, name = self.path.rpartition("/")
        row = {"annotations": [], "name": name, "namespace": "guest" + ("/" + package if package else ""), "publish": False,
               "version": "0.0.%d" % version}
        if self.kind != "rule":
            row["parameters"] = []
        if self.kind == "package":
            row["binding"] = {}
        if self.kind == "action":
            row["limits"] = {"logs": 10, "memory": 256, "timeout": 60000}
        row.update(self.fields)
        if self.kind == "rule":
            row.update({"status": "active", "trigger": "/guest/" + row["trigger"], "action": "/guest/" + row["action"]})
        return compact(row)

    def toml(self):
        lines = ['[%s."%s"]' % (KINDS[self.kind], self.path)]
        return "\n".join(lines + ["%s = %s" % (name, toml_of(value)) for name, value in self.fields.items()]) + "\n"


def toml_of(value):
    if isinstance(value, dict):
        return "{" + ", ".join("%s = %s" % (name, toml_of(one)) for name, one in value.items()) + "}"
    if isinstance(value, list):
        return "[" + ", ".join(toml_of(one) for one in value) + "]"
    return json.dumps(value)


def entities(number, count):
    """The manifest of that number: one package, and actions, triggers and rules. Every other one has the number in its fields, every fourth
    in its name."""
    made = [Entity("package", "box", {"publish": True, "parameters": parameters_of(number)})]
    while len(made) < count:
        place = len(made)
        name = "e%d" % place if place % 4 != 3 else "e%d-%d" % (place, number)
        shown = number if place % 2 == 0 else 0
        group = place // 4 % 5
        if group < 3:
            made.append(Entity("action", ("box/" if group == 2 else "") + name, {"exec": code_of(shown)}))
        elif group == 3:
            made.append(Entity("trigger", name, {"parameters": parameters_of(shown)}))
        else:
            made.append(Entity("rule", name, {"trigger": "early-trigger", "action": "early-%d" % (shown % 2)}))
    return made


def manifest(parts):
    return 'namespace = "guest"\n' + "".join(part.toml() for part in parts)


def rows_after(rows, parts):
    """The rows after a whole deployment, and its three counts."""
    after, counts = dict(rows), collections.Counter()
    for part in parts:
        old = rows.get(part.key)
        version = json.loads(old)["version"] if old else "0.0.0"
        count = int(version.rpartition(".")[2])
        kind = "made" if old is None else "same" if part.text(count) == old else "changed"
        counts[kind] += 1
        if kind != "same":
            after[part.key] = part.text(count + 1)
    return after, told_counts(counts)


def told_counts(counts):
    return "deployed made %d changed %d same %d\n" % tuple(counts[kind] for kind in ("made", "changed", "same"))


def asked(key, method, path, body=""):
    """The statement that makes a request."""
    head = f"{method} /api/v1/namespaces/_/{path} HTTP/1.1\r\nX-Whisk-Key: {key}\r\nContent-Length: {len(body)}\r\n\r\n{body}"
    return "ask %d\n%s\n" % (len(head), head)


class Store:
    """The file, and the runs of the program over it."""

    def __init__(self, program, folder):
        self.folder, self.path, self.table, self.took = folder, folder + "/store.db", folder + "/table", 0
        self.words = lambda command: [program, command, "--table", self.table, "--store", self.path]
        with open(self.table, "w") as file:
            file.write(TABLE)

    def run(self, command, text):
        """The output of a run that must end with status 0, or None with the reason."""
        begun = time.monotonic()
        done = subprocess.run(self.words(command), input=text.encode(), capture_output=True, timeout=PATIENCE)
        self.took = time.monotonic() - begun
        return (done.stdout.decode(), None) if done.returncode == 0 else (None, "%s ended with %d: %r" % (command, done.returncode, done.stderr))

    def rows(self):
        """The rows and what is wrong with the file. A copy is read, so that looking changes nothing."""
        look = self.folder + "/look"
        for end in ("", "-wal", "-shm"):
            if os.path.exists(look + end):
                os.remove(look + end)
            if os.path.exists(self.path + end):
                shutil.copyfile(self.path + end, look + end)
        base = sqlite3.connect(look)
        pairs = base.execute("select key, text from kept").fetchall()
        whole = base.execute("pragma integrity_check").fetchall()
        base.close()
        rows = dict(pairs)
        return rows, None if whole == [("ok",)] and len(rows) == len(pairs) else "the file isn't whole: %r" % whole[:3]

    def change(self, statements):
        base = sqlite3.connect(self.path)
        for statement, values in statements:
            base.execute(statement, values)
        base.commit()
        base.close()


def fill(store):
    """Rows of every kind in two namespaces, and an earlier deployment."""
    day = "".join(asked(key, "PUT", "actions/kept-%d" % number, compact({"exec": code_of(number)})) for key in ("k1", "k2") for number in range(20))
    day += asked("k1", "PUT", "triggers/kept", "{}") + asked("k1", "PUT", "rules/kept", '{"trigger":"kept","action":"kept-0"}')
    day += asked("k1", "POST", "triggers/kept", "{}") + "turn\n" + 'call /other/kept-1 {}\nturn\n' * 40
    early = [Entity("trigger", "early-trigger", {})] + [Entity("action", "early-%d" % number, {"exec": code_of(number)}) for number in range(20)]
    for command, text in (("day", day), ("deploy", manifest(early))):
        out, bad = store.run(command, text)
        if bad or "refused" in out:
            sys.exit("the file can't be filled: %s" % (bad or out))


class Log:
    """The file's log, of which it is asked whether the deployment's commit has begun."""

    def __init__(self, store):
        self.file = os.open(store.path + "-wal", os.O_RDONLY)

    def has_begun(self):
        return any(os.pread(self.file, 8, BEGUN))

    def close(self):
        os.close(self.file)


def killed(store, text, rng):
    """The line of the run, and when it was killed: `before` its commit had begun, `within`, `after` its answer; or `ended`, by itself."""
    log, kind = Log(store), rng.choice(["any", "any", "commit", "commit", "answer"])
    child = subprocess.Popen(store.words("deploy"), stdin=subprocess.PIPE, stdout=subprocess.PIPE, stderr=subprocess.PIPE)
    begun = time.monotonic()
    child.stdin.write(text.encode())
    child.stdin.close()
    line = b""
    if kind == "commit":
        while not log.has_begun() and child.poll() is None:
            pass
    elif kind == "answer":
        line = child.stdout.readline()
    wait = store.took * (rng.random() if kind == "any" else 0.03 * rng.random() ** 2)
    end = (begun if kind == "any" else time.monotonic()) + wait
    while time.monotonic() < end:
        pass
    child.kill()
    status = child.wait()
    line += child.stdout.read()
    error = child.stderr.read()
    when = "after" if line.endswith(b"\n") else "within" if log.has_begun() else "before"
    log.close()
    child.stdout.close()
    child.stderr.close()
    if status not in (0, -9) or error:
        sys.exit("the program ended by itself with %d: %r" % (status, error))
    return line.decode(), "ended" if status == 0 else when


def replies(out):
    """Status and body of each reply of a day."""
    found = []
    while out:
        size, out = re.match(r"reply (\d+)\n", out)[1], out[out.index("\n") + 1:]
        reply, out = out[:int(size)], out[int(size) + 1:]
        found.append((int(reply.split(" ", 2)[1]), reply.partition("\r\n\r\n")[2]))
    return found


def shown_rightly(part, status, body, text):
    """Whether a GET shows the row of that text, or none."""
    if text is None:
        return status == 404
    if part.kind != "package":
        return (status, body) == (200, text)
    shown = json.loads(body)
    return status == 200 and shown.pop("actions", None) is not None and compact(shown) == text


class Watch:
    """What was found in all turns."""

    def __init__(self):
        self.bad, self.counts = [], collections.Counter()

    def hold(self, rows, wanted, what):
        """Notes a row that is otherwise."""
        keys = [key for key in sorted({*rows, *wanted}) if rows.get(key) != wanted.get(key)]
        if keys:
            self.bad.append("%s: %d rows are otherwise, the first one %s" % (what, len(keys), keys[0]))

    def which(self, rows, before, after, parts):
        """`old` or `new` by the rows of the manifest; anything else is noted, and so is another row that has changed."""
        named = {part.key for part in parts}
        self.hold(*({key: text for key, text in some.items() if key not in named} for some in (rows, before)), "outside the manifest")
        for name, wanted in (("old", before), ("new", after)):
            if all(rows.get(key) == wanted.get(key) for key in named):
                return name
        there = sum(rows.get(key) == after[key] for key in named)
        self.bad.append("neither all nor none: %d of %d rows of the manifest are there" % (there, len(parts)))
        return "neither"

    def opened_by_day(self, store, before, after, parts):
        out, bad = store.run("day", "".join(asked("k1", "GET", KINDS[part.kind] + "/" + part.path) for part in parts))
        rows, broken = store.rows()
        self.bad += [it for it in (bad, broken) if it]
        found = self.which(rows, before, after, parts)
        if not bad:
            for part, (status, body) in zip(parts, replies(out)):
                if not shown_rightly(part, status, body, (after if found == "new" else before).get(part.key)):
                    self.bad.append("the day shows %s otherwise: %d %s" % (part.path, status, body))
        return found

    def deployed(self, store, text, wanted, after, what):
        """A whole deployment, which must print one of these lines and leave these rows."""
        out, bad = store.run("deploy", text)
        if bad or out not in wanted:
            self.bad.append("%s: %s" % (what, bad or "printed %r, and not %s" % (out, " or ".join(map(repr, wanted)))))
        rows, broken = store.rows()
        self.bad += [broken] if broken else []
        self.hold(rows, after, what)
        return "new" if out == wanted[0] else "old"


def spoil(store, how, before, after, parts):
    """Changes the file, as a faulty program might have left it."""
    wanted = dict(after)
    if how == "part":
        # The last one has the number of the manifest in its fields or its name.
        last = [part.key for part in parts if before.get(part.key) != after[part.key]][-1]
        wanted.pop(last)
        if last in before:
            wanted[last] = before[last]
    else:
        wanted.pop("row/action/other/kept-1")
    store.run("day", "")
    store.change([("delete from kept", ())] + [("insert into kept values (?, ?)", row) for row in wanted.items()])


def run(program, times, count, seed, how, folder):
    store, rng, watch = Store(program, folder), random.Random(seed), Watch()
    fill(store)
    number, kills, found_wrong = 0, 0, 0
    while kills < times:
        number += 1
        parts = entities(number, count)
        text, same = manifest(parts), "deployed made 0 changed 0 same %d\n" % count
        before, _ = store.rows()
        after, whole = rows_after(before, parts)
        line, when = killed(store, text, rng)
        if how and kills == times // 2 and when != "ended":
            spoil(store, how, before, after, parts)
        if (line and line != whole) or (when in ("after", "ended") and not line):
            watch.bad.append("the killed run printed %r, and not %r" % (line, whole))
        if number % 2:
            found = watch.opened_by_day(store, before, after, parts)
            lines = [whole] if found == "old" else [same]
        else:
            found, lines = None, [same, whole]
        next_found = watch.deployed(store, text, lines, after, "the next deployment")
        found = found or next_found
        watch.deployed(store, text, [same], after, "the repeated deployment")
        if when in ("after", "ended") and found != "new" or when == "before" and found != "old":
            watch.bad.append("killed %s its commit, and the rows are %s" % (when, found))
        kills += when != "ended"
        watch.counts[when, found] += 1
        for bad in watch.bad[:5]:
            print("kill %d: %s" % (kills, bad))
        found_wrong, watch.bad = found_wrong + bool(watch.bad), []
    report(watch, times, count, found_wrong)
    return 1 if found_wrong else 0


def report(watch, times, count, found_wrong):
    for (when, found), many in sorted(watch.counts.items()):
        print("%-7s %-8s %4d" % (when, found, many))
    sums = collections.Counter()
    for (when, found), many in watch.counts.items():
        sums[found] += many if when != "ended" else 0
        sums[when] += many
    print("%d kills of a deployment of %d entities, %d before its commit, %d within it or before the answer, %d after the answer; %d left the "
          "old rows, %d the new ones; %d runs ended before their kill; %d turns found something wrong"
          % (times, count, sums["before"], sums["within"], sums["after"], sums["old"], sums["new"], sums["ended"], found_wrong))


def main():
    given = sys.argv[1:]
    how = given.pop() if given[-1:] in (["part"], ["lose"]) else None
    here = os.path.dirname(os.path.dirname(os.path.abspath(__file__)))
    program = os.path.abspath(given[0]) if given else here + "/crates/ow_whisk/out/ow_whisk"
    times, count, seed = (int(it) for it in given[1:4] + ["50", "200", "1"][len(given[1:4]):])
    with tempfile.TemporaryDirectory() as folder:
        return run(program, times, count, seed, how, folder)


sys.exit(main())
