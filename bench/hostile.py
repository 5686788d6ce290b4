"""Sends hostile requests to a service, and looks at each answer.

usage: hostile.py [PROGRAM] [REQUESTS] [SEED] [CLIENTS]

PROGRAM is `crates/ow_whisk/out/ow_whisk` where it is left out, REQUESTS 100,000, SEED 1, CLIENTS 8. The script starts PROGRAM as `serve`,
and so many clients at once send it requests that are cut, garbled, huge, slow, pipelined, random, of wrong methods, routes, keys, headers,
values and bodies, and connections that say nothing, go away in the middle or never read. Each answer is held against the rules: its form, its
status and number, and whether the connection is closed behind it. Every 200 connections a good request must be answered in the right
bytes, and every 1,000 an action be run. At the end the service has accepted as many connections as it was told to, and must end by itself
with status 0, which says that the receipts of all its threads are its book. Prints the counts; the status is 1 where something was wrong.
"""
import collections
import http
import json
import os
import random
import re
import socket
import struct
import subprocess
import sys
import tempfile
import threading
import time

TABLE = "namespace,1,guest,4294967295,4294967295,\nnamespace,2,shop,,,\nkey,k1,anna,guest,,\nkey,k2,bert,shop,,\npool,4096,,,,\n"
NS = "/api/v1/namespaces/_"
CODE = json.dumps({"cases": [{"when": {}, "give": {"$all": True}}]}, separators=(",", ":"))
BODY = json.dumps({"exec": {"kind": "plain:1", "code": CODE}}, separators=(",", ":")).encode()
MOST_HEAD, MOST_BODY = 65_536, 4_194_304
PATIENCE = 60

# The number of each refusal, with its status.
STATUSES = {**dict.fromkeys([1, 2, 3, 4, 5, 6, 7, 8, 9, 10, 11, 12, 15, 16, 18, 35, 39, 40], 400), 13: 413, 38: 413, 14: 404, 36: 404,
            17: 409, 21: 409, 23: 401, 24: 403, 25: 429, 26: 429, 37: 405, 31: 503, 32: 503, 33: 503, 34: 503, 46: 503}
# Behind these the service closes the connection.
CLOSING = {35, 36, 37, 38, 40}
PHRASES = {it.value: it.phrase for it in http.HTTPStatus}
PHRASES[413] = "Payload Too Large"


def request(method, path, body=b"", key="k1", more=()):
    """The bytes of a request of the right form."""
    head = ["%s %s HTTP/1.1" % (method, path), "Host: localhost", "User-Agent: hostile", *more]
    head += [] if key is None else ["X-Whisk-Key: " + key]
    head += ["Content-Length: %d" % len(body)] if body else []
    return ("\r\n".join(head) + "\r\n\r\n").encode() + body


GET = request("GET", NS + "/actions/every")
PUT = request("PUT", NS + "/actions/every", BODY)
# What a garbled one may put is another action.
CHANGE = request("PUT", NS + "/actions/spoilt?overwrite=true", BODY)
RUN = request("POST", NS + "/actions/every?blocking=true&result=true", b'{"a":1}')
GOOD = (200, None)


class Talk:
    """What one connection sends, and what is to come back.

    `answers` are pairs of a status and a number (none where it is no refusal), or None where each answer by the rules will do. `ends` says
    whether the service closes behind the last of them, `half` whether the client shuts its side first, `leaves` how it goes away
    unanswered: `reset`, `close` or `deaf`.
    """

    def __init__(self, pieces, answers, ends=False, half=False, leaves=None, pause=0.0, requests=1):
        self.pieces, self.answers, self.ends, self.half = pieces, answers, ends, half
        self.leaves, self.pause, self.requests = leaves, pause, requests


def refused(number):
    return (STATUSES[number], number)


def cut(rng):
    """The bytes end inside a request."""
    whole = rng.choice([GET, CHANGE, RUN])
    return Talk([whole[:rng.randrange(1, len(whole))]], [refused(40)], ends=True, half=True)


def garbled(rng):
    """Some bytes of a request are others."""
    data = bytearray(rng.choice([GET, CHANGE, RUN, GET + GET]))
    for _ in range(rng.randint(1, 5)):
        data[rng.randrange(len(data))] = rng.randrange(256)
    return Talk([bytes(data)], None, ends=True, half=True)


def dropped(rng):
    """A request lacks some bytes, or has some twice."""
    data = rng.choice([GET, CHANGE, RUN])
    at, count = rng.randrange(len(data)), rng.randint(1, 9)
    data = data[:at] + (b"" if rng.random() < 0.5 else 2 * data[at:at + count]) + data[at + count:]
    return Talk([data], None, ends=True, half=True)


def noise(rng):
    """Random bytes, none of which is an end of line or white space at the front."""
    return Talk([b"\x01" + rng.randbytes(rng.randint(1, 3000))], [refused(35)], ends=True)


def other_protocol(rng):
    """Greetings of other protocols."""
    data = rng.choice([b"PRI * HTTP/2.0\r\n\r\nSM\r\n\r\n", b"\x16\x03\x01\x02\x00\x01\x00\x01\xfc\x03\x03" + rng.randbytes(500),
                       b"SSH-2.0-OpenSSH_9.2\r\n", b"GET / HTTP/0.9\r\n\r\n", b"GET / HTTP/1.2\r\n\r\n", b"GET /\r\n\r\n",
                       b"\x00\x00\x00\x08\x04\xd2\x16\x2f"])
    return Talk([data], [refused(35)], ends=True)


def huge_head(rng):
    """A head of more bytes or headers than are allowed, which may have no end."""
    kind = rng.randrange(4)
    if kind == 0:
        data = request("GET", NS, more=["A%d: b" % n for n in range(rng.randint(98, 300))])
    elif kind == 1:
        data = request("GET", NS, more=["A: " + "a" * rng.randint(MOST_HEAD, 2 * MOST_HEAD)])
    elif kind == 2:
        data = b"GET /" + b"a" * rng.randint(MOST_HEAD, 2 * MOST_HEAD)
    else:
        data = (b"GET / HTTP/1.1\r\nA: " + b"a" * (2 * MOST_HEAD))[:MOST_HEAD + 1]
    return Talk([data], [refused(35)], ends=True)


def full_head(rng):
    """As many bytes or headers as are allowed."""
    if rng.random() < 0.5:
        data = request("GET", NS + "/actions/every", more=["A%d: b" % n for n in range(97)])
    else:
        short = request("GET", NS + "/actions/every", more=["A: "])
        data = request("GET", NS + "/actions/every", more=["A: " + "a" * (MOST_HEAD - len(short))])
    return Talk([data], [GOOD])


def huge_body(rng):
    """A body that is too large. Few of its bytes are sent."""
    size = rng.choice([MOST_BODY + 1, 2 ** 32, 2 ** 63, 2 ** 64 - 1])
    data = request("PUT", NS + "/actions/every", more=["Content-Length: %d" % size])
    return Talk([data, b"x" * rng.randrange(100_000)], [refused(38)], ends=True)


def full_body(rng):
    """As many bytes as are allowed, which are no JSON."""
    return Talk([request("PUT", NS + "/actions/every", b"[" * MOST_BODY)], [refused(1)])


def bad_length(rng):
    """Lengths and codings that aren't read."""
    more = rng.choice([["Content-Length: -1"], ["Content-Length: 1x"], ["Content-Length: 18446744073709551616"], ["Content-Length: "],
                       ["Content-Length: +1"], ["Content-Length: 1", "Content-Length: 1"], ["content-length: 1", "Content-Length: 2"],
                       ["Transfer-Encoding: chunked"], ["Transfer-Encoding: identity"], ["Content-Length: 4", "Transfer-Encoding: chunked"],
                       ["Content-Encoding: gzip"]])
    return Talk([request("POST", NS + "/actions/every", more=more)], [refused(35)], ends=True)


def wrong_method(rng):
    method = rng.choice(["PATCH", "HEAD", "TRACE", "CONNECT", "OPTIONS", "BREW", "get", "G", "M" * 5000])
    return Talk([request(method, NS + "/actions/every")], [refused(37)], ends=True)


def wrong_route(rng):
    path = rng.choice(["/", "/api", "/api/v1", "/api/v2/namespaces", "/api/v1/namespaces/", "/api/v1/namespaces/_/things", "//", "/%",
                       "/api/v1/namespaces/_/actions/a/b/c", "/" + "a" * 20_000, "/" + "/" * 20_000, "/..%2f..%2fetc/passwd"])
    return Talk([request("GET", path)], [refused(36)], ends=True)


def wrong_key(rng):
    key = rng.choice([None, "", "k3", "K1", "k1 k1", "k" * 60_000])
    return Talk([request("GET", NS + "/actions", key=key)], [refused(23)])


def wrong_namespace(rng):
    name = rng.choice(["shop", "nowhere", "Guest", "a" * 20_000])
    return Talk([request("GET", "/api/v1/namespaces/%s/actions" % name)], [refused(24)])


def wrong_value(rng):
    path, number = rng.choice([
        ("/actions?limit=201", 39), ("/actions?limit=-1", 39), ("/actions?skip=4294967296", 39), ("/actions?skip=1.0", 39),
        ("/actions?limit=", 39), ("/activations?limit=x", 39), ("/actions/nothing", 14), ("/actions/-a", 6), ("/actions/a%20", 7),
        ("/actions/" + "a" * 257, 5), ("/actions/a%00", 6), ("/actions/%ff", 6), ("/activations/1", 14),
        ("/activations/" + "f" * 32, 14), ("/packages/nothing", 14)])
    return Talk([request("GET", NS + path)], [refused(number)])


def wrong_body(rng):
    body, number = rng.choice([
        (b"{", 1), (b"x", 1), (b"{}{}", 1), (b'{"a":1,}', 1), (b"\xff", 1), (b'{"a":"\x00"}', 1), (b"nul", 1), (b'"' * 5, 1),
        (b'{"a":1.5}', 2), (b'{"a":1e3}', 2), (b'{"a":18446744073709551616}', 2), (b'{"a":-9223372036854775809}', 2),
        (b'{"a":' * 101 + b"1" + b"}" * 101, 3), (b"[" * 120 + b"]" * 120, 3), (b"7", 10), (b"[]", 10), (b'"a"', 10), (b"null", 10)])
    return Talk([request("POST", NS + "/actions/every?blocking=true", body)], [refused(number)])


def deep_body(rng):
    """Nesting that would take a stack."""
    body = rng.choice([b"[", b'{"a":', b'[{"a":']) * rng.randint(10_000, 200_000)
    return Talk([request("POST", NS + "/actions/every", body)], None, requests=1)


def wrong_action(rng):
    body, number = rng.choice([
        (b"{}", 9), (b'{"exec":7}', 10), (b'{"exec":{}}', 9), (b'{"exec":{"kind":"nodejs:20","code":""}}', 12),
        (b'{"exec":{"kind":"plain:1","code":"x"}}', 10), (BODY[:-1] + b',"limits":{"timeout":99}}', 11),
        (BODY[:-1] + b',"limits":{"memory":"a"}}', 10), (BODY[:-1] + b',"publish":1}', 10), (BODY[:-1] + b',"parameters":{}}', 10)])
    return Talk([request("PUT", NS + "/actions/other", body)], [refused(number)])


def slow(rng):
    """A good request, byte by byte or in some pieces."""
    data = rng.choice([GET, RUN])
    if rng.random() < 0.1:
        return Talk([data[n:n + 1] for n in range(len(data))], [GOOD], pause=0.002)
    places = sorted(rng.sample(range(1, len(data)), rng.randint(1, 12)))
    return Talk([data[a:b] for a, b in zip([0, *places], [*places, None])], [GOOD], pause=0.001)


def pipelined(rng):
    """Several requests at once, the last of which may be bad."""
    parts, answers = [], []
    for _ in range(rng.randint(2, 20)):
        data, answer = rng.choice([(GET, GOOD), (RUN, GOOD), (request("GET", NS + "/actions", key="no"), refused(23)),
                                   (request("GET", NS + "/actions/nothing"), refused(14)),
                                   (request("POST", NS + "/actions/every"), (202, None))])
        parts.append(data)
        answers.append(answer)
    ends = rng.random() < 0.5
    if ends:
        parts.append(rng.choice([request("PATCH", NS + "/actions/every"), b"\x01", request("GET", "/")]))
        answers.append(refused({b"P": 37, b"\x01": 35, b"G": 36}[parts[-1][:1]]))
    return Talk([b"".join(parts)], answers, ends=ends, requests=len(parts))


def asks_to_close(rng):
    """A good request that asks for the end, with another behind it that is never answered."""
    data = rng.choice([request("GET", NS + "/actions/every", more=["Connection: Close"]), GET.replace(b"HTTP/1.1", b"HTTP/1.0")])
    return Talk([data + GET], [GOOD], ends=True)


def goes_away(rng):
    """Part or all of a request, and then a reset, or an end of both sides."""
    whole = rng.choice([GET, CHANGE, RUN, RUN * 5])
    data = whole[:rng.randrange(0, len(whole) + 1)]
    return Talk([data] if data else [], [], leaves=rng.choice(["reset", "close"]))


def deaf(rng):
    """Many requests, none of whose answers is read."""
    return Talk([GET * 300], [], leaves="deaf", requests=300)


KINDS = [(cut, 14), (garbled, 16), (dropped, 8), (noise, 8), (other_protocol, 4), (huge_head, 2), (full_head, 1), (huge_body, 4),
         (bad_length, 6), (wrong_method, 6), (wrong_route, 6), (wrong_key, 4), (wrong_namespace, 3), (wrong_value, 6), (wrong_body, 6),
         (wrong_action, 4), (slow, 3), (pipelined, 3), (asks_to_close, 2), (goes_away, 4), (deep_body, 0.1), (full_body, 0.01), (deaf, 0.02)]


class Bad(Exception):
    """An answer that breaks a rule."""


class Answers:
    """The answers on a connection, read one after the other."""

    def __init__(self, peer):
        self.peer, self.held = peer, b""

    def more(self):
        try:
            piece = self.peer.recv(65_536)
        except ConnectionResetError:
            piece = b""
        except TimeoutError:
            raise Bad("no answer within %d seconds" % PATIENCE)
        self.held += piece
        return bool(piece)

    def next(self):
        """The status, the number and the body of the next answer, or none at the end."""
        while b"\r\n\r\n" not in self.held:
            if not self.more():
                if self.held:
                    raise Bad("an answer is cut: %r" % self.held[:200])
                return None
        head, self.held = self.held.split(b"\r\n\r\n", 1)
        found = re.fullmatch(rb"HTTP/1\.1 (\d{3}) ([A-Za-z ]+)\r\nContent-Type: application/json\r\nContent-Length: (\d+)", head)
        if not found or PHRASES.get(int(found[1])) != found[2].decode():
            raise Bad("the head of an answer: %r" % head[:200])
        while len(self.held) < int(found[3]):
            if not self.more():
                raise Bad("the body of an answer is cut: %r" % self.held[:200])
        body, self.held = self.held[:int(found[3])], self.held[int(found[3]):]
        return (int(found[1]), number_in(int(found[1]), body), body)


def number_in(status, body):
    value = json.loads(body)
    if status in (200, 202):
        return None
    if not isinstance(value, dict) or sorted(value) != ["code", "error"] or STATUSES.get(value["code"]) != status:
        raise Bad("status %d with the body %r" % (status, body[:200]))
    return value["code"]


class Clients:
    """What all clients share: the address, what is still to be sent, and the counts."""

    def __init__(self, port, plan):
        self.port, self.plan, self.lock = port, iter(enumerate(plan)), threading.Lock()
        self.counts, self.answers, self.wrong, self.accepted = collections.Counter(), collections.Counter(), [], 0
        self.action = None

    def connect(self):
        peer = socket.create_connection(("127.0.0.1", self.port), timeout=PATIENCE)
        peer.setsockopt(socket.IPPROTO_TCP, socket.TCP_NODELAY, 1)
        with self.lock:
            self.accepted += 1
        return peer

    def note(self, name, status, number):
        with self.lock:
            self.answers["%d%s" % (status, "" if number is None else " code %d" % number)] += 1

    def work(self):
        while True:
            with self.lock:
                at, (make, seed) = next(self.plan, (None, (None, None)))
            if make is None:
                return
            name = make.__name__
            talk = make(random.Random(seed))
            with self.lock:
                self.counts[name] += talk.requests
            try:
                self.hold(name, talk)
                if at % 200 == 0:
                    self.check(at % 1000 == 0)
            except (Bad, OSError, ValueError) as error:
                with self.lock:
                    self.wrong.append("%s, seed %d: %s %s" % (name, seed, type(error).__name__, error))

    def hold(self, name, talk):
        with self.connect() as peer:
            try:
                for piece in talk.pieces:
                    peer.sendall(piece)
                    if talk.pause:
                        time.sleep(talk.pause)
                if talk.half:
                    peer.shutdown(socket.SHUT_WR)
            except (BrokenPipeError, ConnectionResetError):
                # The service may answer and close before it read all.
                if not talk.ends and not talk.leaves:
                    raise
            except OSError:
                # The end of a side that the service has closed.
                if not talk.half:
                    raise
            if talk.leaves:
                leave(peer, talk.leaves)
                return
            self.read(name, talk, Answers(peer))

    def read(self, name, talk, answers):
        if talk.answers is None:
            self.read_any(name, talk, answers)
            return
        for wanted in talk.answers:
            found = answers.next()
            if found is None or found[:2] != wanted:
                raise Bad("%r in place of %r" % (found, wanted))
            self.note(name, *found[:2])
        if talk.ends and answers.next() is not None:
            raise Bad("an answer behind the last")
        if not talk.ends:
            # The connection goes on.
            answers.peer.sendall(GET)
            if (answers.next() or ())[:2] != GOOD:
                raise Bad("no answer to a good request behind it")

    def read_any(self, name, talk, answers):
        found = answers.next()
        if found is None:
            raise Bad("no answer")
        while found is not None:
            self.note(name, *found[:2])
            if not talk.ends:
                return
            if found[1] in CLOSING and answers.next() is not None:
                raise Bad("an answer behind the last")
            found = answers.next()

    def check(self, runs):
        """Good requests on a connection of their own."""
        with self.connect() as peer:
            answers = Answers(peer)
            peer.sendall(GET + (RUN if runs else b""))
            found = answers.next()
            if found is None or found[:2] != GOOD or found[2] != self.action:
                raise Bad("the action is answered %r" % (found,))
            if runs and (answers.next() or ()) != (200, None, b'{"a":1}'):
                raise Bad("the action doesn't run")
        with self.lock:
            self.counts["good"] += 1 + runs


def leave(peer, how):
    if how == "deaf":
        time.sleep(1)
    if how != "close":
        peer.setsockopt(socket.SOL_SOCKET, socket.SO_LINGER, struct.pack("ii", 1, 0))


def planned(count, rng):
    """The makers of the talks with their seeds, for so many requests, and how many connections good ones take between them."""
    makers, weights = zip(*KINDS)
    plan, total = [], 0
    while total < count:
        make, seed = rng.choices(makers, weights)[0], rng.randrange(2 ** 32)
        plan.append((make, seed))
        total += make(random.Random(seed)).requests if make in (pipelined, deaf) else 1
    return plan, total, (len(plan) + 199) // 200


def free_port():
    with socket.socket() as it:
        it.bind(("127.0.0.1", 0))
        return it.getsockname()[1]


def memory(pid):
    with open("/proc/%d/status" % pid) as it:
        said = dict(line.split(":", 1) for line in it)
    return int(said["VmRSS"].split()[0]) // 1024, int(said["Threads"])


def begin(clients, child):
    """Waits until the service listens, and puts the action."""
    for _ in range(600):
        try:
            with clients.connect() as peer:
                peer.sendall(PUT)
                found = Answers(peer).next()
                clients.action = found[2]
                return
        except ConnectionRefusedError:
            if child.poll() is not None:
                sys.exit("the service ended with %d" % child.returncode)
            time.sleep(0.1)
    sys.exit("the service doesn't listen")


def end(clients, child, most):
    """Connects until the service has accepted all that it was told to, and gives its exit status."""
    while clients.accepted < most:
        try:
            clients.connect().close()
        except ConnectionRefusedError:
            break
    try:
        return child.wait(PATIENCE)
    except subprocess.TimeoutExpired:
        child.kill()
        return "none within %d seconds" % PATIENCE


def run(program, count, seed, many, folder):
    with open(folder + "/table", "w") as it:
        it.write(TABLE)
    plan, total, checks = planned(count, random.Random(seed))
    silent = 50
    most = len(plan) + checks + silent + 20
    clients = Clients(free_port(), plan)
    child = subprocess.Popen([program, "serve", "--port", str(clients.port), "--table", folder + "/table", "--connections", str(most)],
                             stdin=subprocess.DEVNULL)
    begin(clients, child)
    before, begun = memory(child.pid), time.monotonic()
    quiet = [clients.connect() for _ in range(silent)]
    threads = [threading.Thread(target=clients.work) for _ in range(many)]
    for it in threads:
        it.start()
    for it in threads:
        it.join()
    took = time.monotonic() - begun
    try:
        clients.check(True)
    except (Bad, OSError) as error:
        clients.wrong.append("at the end: %s" % error)
    after = memory(child.pid) if child.poll() is None else ("none", "none")
    for it in quiet:
        it.close()
    status = end(clients, child, most)
    tell(clients, total, took, before, after, status)
    return 1 if clients.wrong or status != 0 else 0


def tell(clients, total, took, before, after, status):
    for name, number in sorted(clients.counts.items()):
        print("%-16s %8d requests" % (name, number))
    for name, number in sorted(clients.answers.items()):
        print("answered %-14s %8d" % (name, number))
    print("%d hostile requests and %d good ones over %d connections in %.1f seconds" % (total, clients.counts["good"], clients.accepted, took))
    print("memory %s MB before and %s MB behind them, %s and %s threads" % (before[0], after[0], before[1], after[1]))
    for line in clients.wrong[:20]:
        print("wrong: " + line)
    print("%d answers were wrong; the service ended with status %s" % (len(clients.wrong), status))


def main():
    given = sys.argv[1:]
    here = os.path.dirname(os.path.dirname(os.path.abspath(__file__)))
    program = os.path.abspath(given[0]) if given else here + "/crates/ow_whisk/out/ow_whisk"
    count, seed, many = (int(it) for it in given[1:4] + ["100000", "1", "8"][len(given[1:4]):])
    with tempfile.TemporaryDirectory() as folder:
        return run(program, count, seed, many, folder)


sys.exit(main())
