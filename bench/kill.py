"""Kills the program with SIGKILL at random moments of a day over a file, and looks at what each reopening finds.

usage: kill.py PROGRAM [TIMES] [STATEMENTS] [SEED] [SPOIL]

Each time a day of so many statements is begun over the same file. They are sent in small bursts, and behind each burst a request
whose answer shows that the burst was carried out. In a burst drawn at random the program is killed, at a random moment of the
time that a burst takes. Then a day that ends at once opens the store again, and Python's sqlite3 reads a copy of it:

- no id was answered `accepted` twice, and none `recorded` twice, in all days so far;
- each id that was answered stands there exactly once, as a record, and nothing is open any more;
- a record has the code that was answered, and the text that it had after each earlier kill;
- the ids of the records are those from 1 to the last that was drawn;
- the action that the days call stands there, and SQLite finds the file whole.

SPOIL tries the script itself: before the reopening behind the middle kill the store is changed, and the script must find it.
`lose` takes an answered record away, `undo` makes it an activation that has not ended, `reuse` takes the newest records away
and lowers the last count.
"""
import json
import os
import random
import re
import select
import shutil
import sqlite3
import subprocess
import sys
import tempfile
import time

# Limits that no day reaches, and room for runs that are ordered and never replied to.
TABLE = "namespace,1,guest,4294967295,4294967295,\nkey,k1,anna,guest,,\npool,65536,,,,\n"
ACTION = "/guest/every"
ROW = "row/action" + ACTION
COUNT = "count/0000000000000001"
# Nothing was accepted under this id: the answer ends a burst.
MARK = b"collect 0000000000000001ffffffffffffffff\n"
MARKED = b"refused 14 The resource does not exist.\n"
MOST = 20


def put():
    """The statement that puts the action, which gives back what it is given."""
    code = json.dumps({"cases": [{"when": {}, "give": {"$all": True}}]}, separators=(",", ":"))
    body = json.dumps({"exec": {"kind": "plain:1", "code": code}}, separators=(",", ":"))
    head = ["PUT /api/v1/namespaces/_/actions/every?overwrite=true HTTP/1.1", "Host: localhost", "X-Whisk-Key: k1",
            "Content-Type: application/json", "Content-Length: %d" % len(body)]
    data = "\r\n".join([*head, "", body]).encode()
    return b"ask %d\n%s\n" % (len(data), data)


def statements(count, rng):
    """Calls, of which most are carried out, some wait, and some are swept or abandoned."""
    said, at = [put()], 0
    while len(said) < count:
        kind = rng.random()
        if kind < 0.46:
            said.append(b'call %s {"n":%d}\n' % (ACTION.encode(), len(said)))
        elif kind < 0.86:
            said.append(b"turn\n")
        elif kind < 0.92:
            said.append(b"next\n")
        elif kind < 0.97:
            at += rng.randrange(20_000)
            said.append(b"at %d\n" % at)
        elif kind < 0.99:
            said.append(b"sweep\n")
        else:
            said.append(b"reopen\n")
    return said


def bursts(said, rng):
    """The statements in groups of at most so many."""
    groups, place = [], 0
    while place < len(said):
        size = rng.randint(1, MOST)
        groups.append(b"".join(said[place:place + size]) + MARK)
        place += size
    return groups


def run_until(command, groups, place, rng):
    """The answers up to the kill, which comes in the burst at that place."""
    child = subprocess.Popen(command, stdin=subprocess.PIPE, stdout=subprocess.PIPE, stderr=subprocess.DEVNULL)
    answers, took = b"", 0.01
    for group in groups[:place]:
        begun, seen = time.monotonic(), len(answers)
        os.write(child.stdin.fileno(), group)
        while MARKED not in answers[seen:]:
            piece = os.read(child.stdout.fileno(), 65536)
            if not piece:
                sys.exit("the program ended by itself: %r" % answers[-200:])
            answers += piece
        took = time.monotonic() - begun
    os.write(child.stdin.fileno(), groups[place])
    end = time.monotonic() + rng.uniform(0, 1.5 * took)
    while (left := end - time.monotonic()) > 0:
        if select.select([child.stdout], [], [], left)[0]:
            answers += os.read(child.stdout.fileno(), 65536)
    child.kill()
    answers += child.stdout.read()
    child.stdin.close()
    child.stdout.close()
    if child.wait() != -9:
        sys.exit("the program ended by itself: %r" % answers[-200:])
    # The last line may be cut.
    return answers[:answers.rfind(b"\n") + 1].decode()


def copied(store, folder):
    """A copy of the store and of its log, so that looking at it changes neither."""
    for end in ("", "-wal"):
        if os.path.exists(folder + "/look" + end):
            os.remove(folder + "/look" + end)
        if os.path.exists(store + end):
            shutil.copyfile(store + end, folder + "/look" + end)
    return folder + "/look"


class Told:
    """What the days so far were answered, and what was found behind each kill."""

    def __init__(self):
        self.accepted, self.recorded, self.texts, self.bad = set(), {}, {}, []

    def hear(self, answers):
        for ident in re.findall(r"^accepted ([0-9a-f]{32})$", answers, re.M):
            if ident in self.accepted:
                self.bad.append("accepted twice: %s" % ident)
            self.accepted.add(ident)
        for ident, code in re.findall(r"^recorded ([0-9a-f]{32}) (\d)$", answers, re.M):
            if ident in self.recorded:
                self.bad.append("recorded twice: %s" % ident)
            self.recorded[ident] = int(code)

    def look(self, store):
        base = sqlite3.connect(store)
        pairs = base.execute("select key, text from kept").fetchall()
        whole = base.execute("pragma integrity_check").fetchall()
        base.close()
        rows = dict(pairs)
        if len(rows) != len(pairs) or whole != [("ok",)]:
            self.bad.append("the file isn't whole: %r" % whole[:3])
        done = {key[5:]: text for key, text in pairs if key.startswith("done/")}
        for key in rows:
            if key.startswith("open/"):
                self.bad.append("open after the reopening: %s" % key)
        for ident in sorted((self.accepted | set(self.recorded) | set(self.texts)) - set(done)):
            self.bad.append("answered and lost: %s" % ident)
        for ident, code in self.recorded.items():
            if ident in done and json.loads(done[ident])["response"]["statusCode"] != code:
                self.bad.append("answered with code %d and kept otherwise: %s" % (code, ident))
        for ident, text in self.texts.items():
            if done.get(ident, text) != text:
                self.bad.append("changed: %s" % ident)
        count = int(rows.get(COUNT, "0"))
        if sorted(done) != ["%016x%016x" % (1, number) for number in range(1, count + 1)]:
            self.bad.append("%d were drawn, and %d are recorded" % (count, len(done)))
        if self.accepted and ROW not in rows:
            self.bad.append("the action is gone")
        self.texts.update(done)


def spoil(store, how, told):
    """Changes the store, as a faulty program might have left it."""
    base = sqlite3.connect(store)
    # One that ended by itself: what is abandoned twice has the same code.
    ident = max(ident for ident, code in told.recorded.items() if code == 0)
    (text,) = base.execute("select text from kept where key = ?", ("done/" + ident,)).fetchone()
    if how == "reuse":
        base.execute("delete from kept where key >= ? and key < 'done0'", ("done/" + ident,))
        base.execute("delete from kept where key >= ? and key < 'open0'", ("open/" + ident,))
        base.execute("update kept set text = ? where key = ?", (str(int(ident[16:], 16) - 1), COUNT))
    else:
        base.execute("delete from kept where key = ?", ("done/" + ident,))
    if how == "undo":
        record = json.loads(text)
        limits = {it["key"]: it["value"] for it in record["annotations"]}
        row = {"activationId": ident, "at": 0, "form": "leaf", "kind": "plain:1", "limits": limits["limits"],
               "namespace": "guest", "path": limits["path"], "subject": record["subject"], "version": record["version"]}
        base.execute("insert into kept values (?, ?)", ("open/" + ident, json.dumps(row, separators=(",", ":"))))
    base.commit()
    base.close()


def main():
    program = os.path.abspath(sys.argv[1])
    times, count, seed = (int(given) for given in (sys.argv[2:5] + ["100", "2000", "1"][len(sys.argv[2:5]):]))
    how = sys.argv[5] if len(sys.argv) > 5 else None
    rng = random.Random(seed)
    told, failures, unanswered, within = Told(), 0, 0, 0
    with tempfile.TemporaryDirectory() as folder:
        table, store = folder + "/table", folder + "/store.db"
        with open(table, "w") as file:
            file.write(TABLE)
        command = [program, "day", "--table", table, "--store", store]
        for number in range(times):
            groups = bursts(statements(count, rng), rng)
            place = rng.randrange(len(groups))
            answers = run_until(command, groups, place, rng)
            told.hear(answers)
            unanswered += not answers
            within += answers.count(MARKED.decode()) <= place
            if how and number == times // 2:
                spoil(store, how, told)
            again = subprocess.run(command, input=b"end\n", capture_output=True)
            if again.returncode:
                told.bad.append("the reopening ended with %d: %r" % (again.returncode, again.stderr))
            else:
                told.look(copied(store, folder))
            for line in told.bad[:5]:
                print("kill %d: %s" % (number + 1, line))
            failures += bool(told.bad)
            told.bad = []
    print("%d kills, %d before the first answer, %d before their burst was answered; %d ids answered, %d told as recorded, %d records kept; "
          "%d reopenings found something wrong" % (times, unanswered, within, len(told.accepted), len(told.recorded),
                                                  len(told.texts), failures))
    return 1 if failures else 0


sys.exit(main())
