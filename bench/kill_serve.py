"""Kills a running service with SIGKILL at random moments, and looks at what the next one finds.

usage: kill_serve.py [PROGRAM] [TIMES] [SEED] [CLIENTS] [lose]

PROGRAM is `crates/ow_whisk/out/ow_whisk` where it is left out, TIMES 30, SEED 1, CLIENTS 6. Each time PROGRAM is started as `serve` over the
same SQLite file, so many clients invoke an action, blocking and not, and put actions, and the program is killed: mostly under that load,
sometimes while it opens. What a client was told in a whole answer is noted. The next start must then show that

- each activation whose id was told stands there: GET on it answers 200, and a record that was told has the same bytes;
- the list of activations has each id exactly once, from the last that was drawn down to 1;
- each action that was put stands there, in the same bytes.

The last start is told to end behind its connections, and must end with status 0. With `lose` an activation that was told is taken out of the
file behind the middle kill, and the script must find that.
"""
import collections
import http.client
import json
import os
import random
import signal
import socket
import sqlite3
import subprocess
import sys
import tempfile
import threading
import time

TABLE = "namespace,1,guest,4294967295,4294967295,\nkey,k1,anna,guest,,\npool,4096,,,,\n"
NS = "/api/v1/namespaces/_"
CODE = json.dumps({"cases": [{"when": {}, "give": {"$all": True}}]}, separators=(",", ":"))
BODY = json.dumps({"exec": {"kind": "plain:1", "code": CODE}}, separators=(",", ":"))
PATIENCE = 60


class Service:
    """One run of the program."""

    def __init__(self, program, folder, connections=None):
        with socket.socket() as it:
            it.bind(("127.0.0.1", 0))
            self.port = it.getsockname()[1]
        words = [program, "serve", "--port", str(self.port), "--table", folder + "/table", "--store", folder + "/store"]
        self.child = subprocess.Popen(words + (["--connections", str(connections)] if connections else []), stdin=subprocess.DEVNULL)

    def peer(self):
        """A connection, once the service listens."""
        for _ in range(PATIENCE * 50):
            peer = http.client.HTTPConnection("127.0.0.1", self.port, timeout=PATIENCE)
            try:
                peer.connect()
                return peer
            except ConnectionRefusedError:
                if self.child.poll() is not None:
                    sys.exit("the service ended by itself with %d" % self.child.returncode)
                time.sleep(0.02)
        sys.exit("the service doesn't listen")

    def kill(self):
        self.child.send_signal(signal.SIGKILL)
        if self.child.wait() != -signal.SIGKILL:
            sys.exit("the service ended by itself with %d" % self.child.returncode)


def ask(peer, method, path, body=None):
    peer.request(method, path, body, {"X-Whisk-Key": "k1"})
    reply = peer.getresponse()
    return reply.status, reply.read().decode()


class Told:
    """What clients were told so far, and what was found wrong."""

    def __init__(self):
        self.lock, self.ids, self.records, self.actions = threading.Lock(), set(), {}, {}
        self.new, self.bad, self.counts = set(), [], collections.Counter()

    def hear(self, kind, status, text, name):
        with self.lock:
            self.counts["%s %d" % (kind, status)] += 1
            if kind == "put":
                if status != 200:
                    self.bad.append("a put is answered %d %s" % (status, text))
                self.actions[name] = text
                return
            if status not in (200, 202):
                self.bad.append("an invocation is answered %d %s" % (status, text))
                return
            ident = json.loads(text)["activationId"]
            if ident in self.ids:
                self.bad.append("told twice: " + ident)
            self.ids.add(ident)
            self.new.add(ident)
            if status == 200:
                self.records[ident] = text

    def look(self, service, idents):
        """Holds what the service shows against what was told."""
        peer = service.peer()
        for ident in sorted(idents):
            status, text = ask(peer, "GET", NS + "/activations/" + ident)
            if status != 200 or json.loads(text)["activationId"] != ident:
                self.bad.append("told and lost: %s: %d %s" % (ident, status, text))
            elif self.records.get(ident, text) != text:
                self.bad.append("told and changed: " + ident)
        for name, text in sorted(self.actions.items()):
            if ask(peer, "GET", NS + "/actions/" + name) != (200, text):
                self.bad.append("put and lost: " + name)
        listed = self.listed(peer)
        if listed != ["%016x%016x" % (1, n) for n in range(len(listed), 0, -1)]:
            self.bad.append("the list has not each id once: %d ids, %d of them different" % (len(listed), len(set(listed))))
        for ident in sorted(self.ids - set(listed)):
            self.bad.append("told and not listed: " + ident)
        peer.close()
        return len(listed)

    def listed(self, peer):
        found, page = [], None
        while page is None or page:
            status, text = ask(peer, "GET", NS + "/activations?limit=200&skip=%d" % len(found))
            page = [it["activationId"] for it in json.loads(text)] if status == 200 else []
            found += page
        return found


def load(service, told, rng, at, number):
    """Invokes and puts until the service is gone."""
    try:
        peer, count = service.peer(), 0
        while True:
            kind = rng.choices(["blocking", "not blocking", "put"], [5, 5, 1])[0]
            count += 1
            name = "made-%d-%d-%d" % (number, at, count)
            if kind == "put":
                status, text = ask(peer, "PUT", NS + "/actions/" + name, BODY)
            else:
                path = NS + "/actions/every" + ("?blocking=true" if kind == "blocking" else "")
                status, text = ask(peer, "POST", path, '{"n":%d}' % count)
            told.hear(kind, status, text, name)
    except (OSError, http.client.HTTPException, ValueError):
        return
    except SystemExit:
        return


def killed_opening(program, folder, rng):
    """A run that is killed while it opens, or just behind that."""
    service = Service(program, folder)
    time.sleep(rng.uniform(0, 0.3))
    service.kill()


def killed_loaded(program, folder, rng, told, many, number):
    """A run that is looked at, loaded and killed."""
    service = Service(program, folder)
    count = told.look(service, told.new | set(rng.sample(sorted(told.ids), min(100, len(told.ids)))))
    told.new = set()
    if number == 0:
        peer = service.peer()
        told.hear("put", *ask(peer, "PUT", NS + "/actions/every", BODY), "every")
        peer.close()
    threads = [threading.Thread(target=load, args=(service, told, random.Random(rng.random()), at, number)) for at in range(many)]
    for it in threads:
        it.start()
    wait_for_answer(told)
    time.sleep(rng.uniform(0, 1.5))
    service.kill()
    for it in threads:
        it.join()
    return count


def wait_for_answer(told):
    """Waits until a client was told an id since the last look."""
    for _ in range(PATIENCE * 100):
        if told.new:
            return
        time.sleep(0.01)


def lose(folder, told):
    """Takes an activation that was told out of the store."""
    base = sqlite3.connect(folder + "/store")
    base.execute("delete from kept where key = ?", ("done/" + max(told.records),))
    base.commit()
    base.close()


def run(program, times, seed, many, spoilt, folder):
    with open(folder + "/table", "w") as it:
        it.write(TABLE)
    told, rng, openings, found = Told(), random.Random(seed), 0, 0
    for number in range(times):
        if number and rng.random() < 0.2:
            killed_opening(program, folder, rng)
            openings += 1
        else:
            before = len(told.ids)
            killed_loaded(program, folder, rng, told, many, number)
            print("kill %d: %d ids were told" % (number + 1, len(told.ids) - before), flush=True)
        if spoilt and number == times // 2:
            lose(folder, told)
        for line in told.bad[:5]:
            print("kill %d: wrong: %s" % (number + 1, line))
        found, told.bad = found + len(told.bad), []
    service = Service(program, folder, connections=1)
    count = told.look(service, told.ids)
    status = service.child.wait(PATIENCE)
    for line in told.bad[:20]:
        print("at the end: wrong: " + line)
    found += len(told.bad)
    for name, many in sorted(told.counts.items()):
        print("%-18s %8d" % (name, many))
    print("%d kills, %d of them while it opened; %d ids told, %d activations kept, %d actions put; %d things were wrong; the last run ended "
          "with status %d" % (times, openings, len(told.ids), count, len(told.actions), found, status))
    return 1 if found or status else 0


def main():
    given = sys.argv[1:]
    spoilt = given[-1:] == ["lose"]
    given = given[:-1] if spoilt else given
    here = os.path.dirname(os.path.dirname(os.path.abspath(__file__)))
    program = os.path.abspath(given[0]) if given else here + "/crates/ow_whisk/out/ow_whisk"
    times, seed, many = (int(it) for it in given[1:4] + ["30", "1", "6"][len(given[1:4]):])
    with tempfile.TemporaryDirectory() as folder:
        return run(program, times, seed, many, spoilt, folder)


sys.exit(main())
