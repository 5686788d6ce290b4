"""What tests/fuzz_connections sends: the office table, the entities that are put first, requests whose answers are known from what the same
peer sent before, and bytes that are changed, cut or random. All of it comes from a generator of random numbers that the caller seeds.
"""
import json
import random

from fuzz_rules import Holder, Wrong, compact

# red and blue are exact: each answer to an invocation there is read, so their records can be counted. tight has low limits. yard is the
# own namespace of keys with few rights, and of all requests whose answers aren't read. front has the web actions.
NAMESPACES = {"red": 1, "blue": 2, "tight": 3, "yard": 4, "front": 5}
EXACT = ("red", "blue")
ALL = {"read", "write", "invoke"}
LIMITS = {"tight": (30, 2, 3)}
MOST = 4_294_967_295
KEYS = {
    b"k-red": Holder("rita", "red"), b"k-blue": Holder("bert", "blue"), b"k-tight": Holder("tom", "tight"), b"k-front": Holder("fay", "front"),
    b"k-yard": Holder("yan", "yard"), b"k-reads": Holder("rolf", "yard", red={"read"}), b"k-writes": Holder("wim", "yard", blue={"write"}),
    b"k-calls": Holder("cleo", "yard", red={"invoke"}), b"k-both": Holder("bea", "yard", red={"read"}, blue={"invoke"}, tight={"read"})}
# Each text and name in a namespace has its mark, except for what everybody may see.
MARKS = {name: name.encode() + b"Mark" for name in NAMESPACES}
SHARED = {("red", "share"), ("blue", "share")}
API = "/api/v1/namespaces/"
OVERWRITE = "?overwrite=true"


def mark(namespace):
    return MARKS[namespace].decode()


def office_table(folder):
    rows = ["namespace,%d,%s,%d,%d,%d" % (number, name, *LIMITS.get(name, (MOST, MOST, MOST))) for name, number in NAMESPACES.items()]
    rows += ["key,%s,%s,%s,," % (key.decode(), holder.subject, holder.home) for key, holder in KEYS.items()]
    for key, holder in KEYS.items():
        rights = {name: given for name, given in holder.rights.items() if name != holder.home}
        rows += ["grant,%s,%s,%s,," % (key.decode(), name, right) for name, given in rights.items() for right in sorted(given)]
    rows += ["program,cat,/bin/cat,,,", "program,false,/bin/false,,,", "program,slow,%s/slow,,," % folder, "pool,4096,,,,"]
    return "\n".join(rows) + "\n"


def request(method, path, body=b"", key=b"k-red", more=(), version="1.1"):
    """The bytes of a request. The path is below the namespaces, unless it begins with a slash."""
    lines = ["%s %s HTTP/%s" % (method, path if path.startswith("/") else API + path, version), *more]
    lines += [] if key is None else ["X-Whisk-Key: " + key.decode()]
    lines += ["Content-Length: %d" % len(body)] if body else []
    return ("\r\n".join(lines) + "\r\n\r\n").encode() + body


# ---- what is put first


def plain(*cases):
    return {"kind": "plain:1", "code": compact({"cases": [{"when": when, "give": give} for when, give in cases]}).decode()}


def pairs(values):
    return [{"key": key, "value": values[key]} for key in sorted(values, key=str.encode)]


def echo(namespace):
    """Code that answers its parameters and the mark, and fails where they have the pair `fail`."""
    return plain(({"fail": True}, {"error": mark(namespace)}), ({}, {"got": {"$all": True}, "mark": mark(namespace)}))


def fixed_entities():
    """The puts that come before all else: path, body and key."""
    for name in ("red", "blue", "tight", "yard"):
        word, key = mark(name), b"k-" + name.encode()
        notes = pairs({"note": word, "deep": {"b": [word, None, -1], "a": "\u00fc\u0001\"\\"}})
        yield name + "/actions/%sEcho" % word, {"exec": echo(name), "annotations": notes, "parameters": pairs({"own": word})}, key
        yield name + "/actions/%sFinal" % word, {"exec": echo(name), "annotations": pairs({"final": True}), "parameters": pairs({"own": 1})}, key
        for program in ("cat", "false", "none"):
            yield name + "/actions/%s%s" % (word, program.title()), {"exec": {"kind": "program:1", "code": program}}, key
        yield name + "/actions/%sSlow" % word, {"exec": {"kind": "program:1", "code": "slow"}, "limits": {"timeout": 100}}, key
        yield name + "/packages/%sPack" % word, {"parameters": pairs({"pack": word})}, key
        yield name + "/actions/%sPack/%sIn" % (word, word), {"exec": echo(name)}, key
        yield name + "/packages/%sBind" % word, {"binding": {"namespace": "_", "name": word + "Pack"}}, key
        yield name + "/triggers/%sFire" % word, {"parameters": pairs({"own": word})}, key
        yield name + "/rules/%sRule" % word, {"trigger": word + "Fire", "action": "%sBind/%sIn" % (word, word)}, key
    for name in EXACT:
        key = b"k-" + name.encode()
        yield name + "/packages/share", {"publish": True}, key
        yield name + "/actions/share/open", {"exec": plain(({}, {"open": {"$all": True}}))}, key
    yield from web_entities()


WEB = {
    "page": {"body": {"$": "x"}}, "head": {"body": "ok", "headers": {"X-Got": {"$": "h"}}}, "names": {"body": "ok", "headers": {"$": "hs"}},
    "status": {"statusCode": {"$": "s"}, "body": {"$": "x"}}, "data": {"$all": True}}


def web_entities():
    word = mark("front")
    secret = {"note": word, "web-export": True}
    for name, give in WEB.items():
        cases = (({"never": word}, {"body": word}), ({}, give))
        yield "front/actions/" + name, {"exec": plain(*cases), "annotations": pairs(secret)}, b"k-front"
    yield "front/actions/auth", {"exec": plain(({}, {})), "annotations": pairs({**secret, "require-whisk-auth": True})}, b"k-front"
    yield "front/actions/raw", {"exec": plain(({}, {"body": {"$": "__ow_body"}})), "annotations": pairs({**secret, "raw-http": True})}, b"k-front"
    yield "front/actions/hidden", {"exec": plain(({}, {"body": word}))}, b"k-front"


# ---- values


def text(rng):
    return "".join(rng.choice(["a", "Z", "7", " ", "\u00e9", "\u20ac", "\U0001f600", "\"", "\\", "/", "\n", "\u0001", "\u007f", "$"])
                   for _ in range(rng.randrange(6)))


def value(rng, deep=2):
    kind = rng.randrange(7 if deep else 5)
    if kind < 5:
        return [text(rng), rng.choice([0, -1, 7, 2 ** 63, 2 ** 64 - 1, -2 ** 63]), True, False, None][kind]
    if kind == 5:
        return [value(rng, deep - 1) for _ in range(rng.randrange(4))]
    return {text(rng) or "k": value(rng, deep - 1) for _ in range(rng.randrange(4))}


def some(rng, names="abc"):
    """Some parameters."""
    return {name: value(rng) for name in names if rng.random() < 0.4}


def written(rng, body):
    """A body, compact or in another form of the same value."""
    form = rng.randrange(4)
    if form == 0:
        return json.dumps(body).encode()
    if form == 1:
        return json.dumps(body, ensure_ascii=False, indent=1).encode()
    return compact(body)


# ---- requests whose answers are known


def exactly(status, shown):
    """The answer has this status and this value."""
    body = b"" if shown is None else compact(shown)

    def test(answer):
        if answer.status != status or answer.body != body:
            raise Wrong("%r instead of %d %r" % (answer, status, body[:300]))
    return test


def refused(number):
    def test(answer):
        if answer.number != number:
            raise Wrong("%r instead of number %d" % (answer, number))
    return test


def busy(answer):
    """1,000 activations that have not ended: no peer knows that of all."""
    return answer.number == 46


class Own:
    """The entities of one peer in one namespace, which nobody else names, and what is known of them."""

    def __init__(self, namespace, peer, told):
        self.namespace, self.key, self.told = namespace, b"k-" + namespace.encode(), told
        self.word = "%sp%d" % (mark(namespace), peer)
        self.subject = KEYS[self.key].subject
        self.rows = {}

    # -- names

    def names(self, kind):
        """The paths of this kind: a name, or a package and a name."""
        packs = [self.word + "k%d" % n for n in range(2)]
        return {"action": [(self.word + "a%d" % n,) for n in range(3)] + [(pack, self.word + "x") for pack in packs],
                "package": [(pack,) for pack in packs], "binding": [(self.word + "b",)],
                "trigger": [(self.word + "t%d" % n,) for n in range(2)], "rule": [(self.word + "r%d" % n,) for n in range(3)]}[kind]

    def path(self, kind, name, rng=None):
        kind = "package" if kind == "binding" else kind
        space = self.namespace if rng is None or rng.random() < 0.5 else "_"
        return "%s/%ss/%s" % (space, kind, "/".join(name))

    def row(self, kind, name):
        return self.rows.get(("package" if kind == "binding" else kind, name))

    def full(self, name):
        return "/" + "/".join((self.namespace, *name))

    # -- how an entity is shown

    def shown(self, kind, name):
        row = self.row(kind, name)
        value = {"annotations": pairs(row["annotations"]), "name": name[-1], "namespace": "/".join((self.namespace, *name[:-1])),
                 "publish": row["publish"], "version": "0.0.%d" % row["version"]}
        if kind != "rule":
            value["parameters"] = pairs(row["parameters"])
        if kind == "action":
            value["exec"] = row["exec"]
            value["limits"] = {"logs": 10, "memory": 256, "timeout": 60_000, **row["limits"]}
        if kind in ("package", "binding"):
            bound = row.get("binding")
            value["binding"] = {"name": bound[0], "namespace": self.namespace} if bound else {}
            value["actions"] = self.inside(bound or name)
        if kind == "rule":
            value.update(action=self.full(row["action"]), trigger=self.full(row["trigger"]), status=row["status"])
        return value

    def inside(self, pack):
        names = sorted(name for kind, name in self.rows if kind == "action" and len(name) == 2 and name[0] == pack[0])
        shown = [self.shown("action", name) for name in names]
        return [{key: it[key] for key in ("annotations", "name", "version")} for it in shown]

    # -- puts, gets, removals

    def put(self, rng):
        kind = rng.choice(["action", "action", "package", "binding", "trigger", "rule", "rule"])
        name, overwrite = rng.choice(self.names(kind)), rng.random() < 0.6
        body = self.body(rng, kind, name)
        query = OVERWRITE if overwrite else rng.choice(["", "?overwrite=false", "?other=1&overwrite=false&overwrite=true"])
        data = request("PUT", self.path(kind, name, rng) + query, written(rng, self.as_sent(rng, kind, body)), self.key)
        number = self.put_refusal(kind, name, body, overwrite)
        if number:
            return data, refused(number)
        self.put_row(kind, name, body)
        return data, exactly(200, self.shown(kind, name))

    def body(self, rng, kind, name):
        """Fields of a body, as they are kept."""
        body = {"annotations": {"note": self.word, **some(rng)}} if rng.random() < 0.5 else {}
        if kind != "rule" and rng.random() < 0.5:
            body["parameters"] = {"own": self.word, **some(rng)}
        if rng.random() < 0.2:
            body["publish"] = False
        if kind == "action" and rng.random() < 0.8:
            body["exec"] = echo(self.namespace)
            body["limits"] = {"timeout": rng.choice([59_999, 60_000])} if rng.random() < 0.5 else {}
        if kind == "binding":
            body["binding"] = rng.choice(self.names("package"))
        if kind == "rule":
            old = self.row("rule", name)
            if not old or rng.random() < 0.5:
                body["trigger"], body["action"] = rng.choice(self.names("trigger")), rng.choice(self.names("action"))
        return body

    def as_sent(self, rng, kind, body):
        sent = {**body}
        for field in ("annotations", "parameters"):
            if field in sent:
                sent[field] = pairs(sent[field])
                rng.shuffle(sent[field])
        if kind == "binding":
            sent["binding"] = {"namespace": rng.choice(["_", self.namespace]), "name": body["binding"][0]}
        if "trigger" in body:
            sent["trigger"] = rng.choice([self.full(body["trigger"]), body["trigger"][0], "/_/" + body["trigger"][0]])
            sent["action"] = rng.choice([self.full(body["action"]), "/".join(body["action"])])
        return sent

    def put_refusal(self, kind, name, body, overwrite):
        """The number with which a put is refused, in the order of the pages."""
        old = self.row(kind, name)
        if kind == "rule":
            joined = {**(old or {}), **body}
            if not self.row("trigger", joined["trigger"]) or not self.row("action", joined["action"]):
                return 14
        if kind == "action" and len(name) == 2 and not self.row("package", name[:1]):
            return 14
        if kind == "binding" and not self.row("package", body["binding"]):
            return 14
        if old and not overwrite:
            return 17
        return 9 if kind == "action" and not old and "exec" not in body else None

    def put_row(self, kind, name, body):
        old = self.row(kind, name) or {"annotations": {}, "parameters": {}, "publish": False, "version": 0, "limits": {}, "status": "active"}
        row = {**old, **body, "version": old["version"] + 1, "limits": {**old["limits"], **body.get("limits", {})}}
        self.rows["package" if kind == "binding" else kind, name] = row

    def get(self, rng):
        kind = rng.choice(["action", "package", "binding", "trigger", "rule"])
        name = rng.choice(self.names(kind))
        data = request("GET", self.path(kind, name, rng) + rng.choice(["", "", "?x=%ff&overwrite=7"]), b"", self.key)
        return data, exactly(200, self.shown(kind, name)) if self.row(kind, name) else refused(14)

    def get_bound(self, rng):
        """An action through the binding."""
        name = (self.names("binding")[0][0], self.word + "x")
        return request("GET", self.path("action", name), b"", self.key), self.want_bound(name)

    def want_bound(self, name):
        row = self.row("binding", name[:1])
        target = (row["binding"][0], name[1]) if row else None
        if not target or not self.row("package", row["binding"]) or not self.row("action", target):
            return refused(14)
        return exactly(200, self.shown("action", target))

    def delete(self, rng):
        kind = rng.choice(["action", "package", "binding", "trigger", "rule"])
        name = rng.choice(self.names(kind))
        data, row = request("DELETE", self.path(kind, name, rng), b"", self.key), self.row(kind, name)
        if not row:
            return data, refused(14)
        shown = self.shown(kind, name)
        if kind == "package" and shown["actions"]:
            return data, refused(21)
        del self.rows["package" if kind == "binding" else kind, name]
        return data, exactly(200, shown)

    # -- invocations and fires

    def invoke(self, rng):
        name = rng.choice(self.names("action"))
        given = {**some(rng), **({"fail": True} if rng.random() < 0.1 else {})}
        blocking, alone = rng.random() < 0.5, rng.random() < 0.5
        query = ("?blocking=true" + ("&result=true" if alone else "")) if blocking else rng.choice(["", "?blocking=false", "?result=true"])
        body = written(rng, given) if given or rng.random() < 0.5 else b""
        data = request("POST", self.path("action", name, rng) + query, body, self.key)
        row = self.row("action", name)
        if not row:
            return data, refused(14)
        pack = self.row("package", name[:1])["parameters"] if len(name) == 2 else {}
        merged = {**pack, **row["parameters"], **given}
        return data, self.want_run(name, row["version"], merged, blocking, blocking and alone)

    def want_run(self, name, version, merged, blocking, alone):
        failed = merged.get("fail") is True
        result = {"error": mark(self.namespace)} if failed else {"got": merged, "mark": mark(self.namespace)}
        response = {"result": result, "success": not failed, "statusCode": int(failed), "status": "application error" if failed else "success"}
        wanted = {"name": name[-1], "namespace": self.namespace, "subject": self.subject, "version": "0.0.%d" % version, "response": response}

        def test(answer):
            if busy(answer):
                return
            if answer.status == 202:
                self.told.later(self.namespace, answer.value["activationId"], wanted)
            elif not blocking or answer.status != (502 if failed else 200):
                raise Wrong("%r instead of an activation" % answer)
            elif alone:
                exactly(answer.status, result)(answer)
            else:
                check_record(answer.value, wanted)
                self.told.record(self.namespace, answer.value["activationId"], answer.body)
        return test

    def fire(self, rng):
        name, given = rng.choice(self.names("trigger")), some(rng)
        data, row = request("POST", self.path("trigger", name, rng), written(rng, given), self.key), self.row("trigger", name)
        if not row:
            return data, refused(14)
        rules = sorted(it for kind, it in self.rows if kind == "rule" and self.rows[kind, it]["status"] == "active"
                       and self.rows[kind, it]["trigger"] == name)
        if not rules:
            return data, exactly(204, None)
        lines = [{"action": self.full(self.row("rule", it)["action"]), "rule": self.full(it)} for it in rules]
        gone = [not self.row("action", self.row("rule", it)["action"]) for it in rules]
        wanted = {"name": name[0], "namespace": self.namespace, "subject": self.subject, "version": "0.0.%d" % row["version"], "annotations": [],
                  "response": {"result": {**row["parameters"], **given}, "success": True, "statusCode": 0, "status": "success"}, "duration": 0}

        def test(answer):
            if answer.status != 202:
                raise Wrong("%r instead of the id of a fire" % answer)
            self.told.fire(self.namespace, answer.value["activationId"], wanted, list(zip(lines, gone)))
        return data, test

    def status(self, rng):
        name, status = rng.choice(self.names("rule")), rng.choice(["active", "inactive"])
        data, row = request("POST", self.path("rule", name, rng), written(rng, {"status": status}), self.key), self.row("rule", name)
        if not row:
            return data, refused(14)
        row["status"] = status
        return data, exactly(200, self.shown("rule", name))

    def listed(self, rng):
        """A whole list, which has each own entity of the kind in its place."""
        kind = rng.choice(["action", "package", "trigger", "rule"])
        mine = [self.shown("binding" if row.get("binding") else it, name) for (it, name), row in sorted(self.rows.items()) if it == kind]
        mine = [{key: it[key] for key in ("annotations", "name", "namespace", "publish", "version")} for it in mine]
        place = lambda it: ("/%s/%s" % (it["namespace"], it["name"])).encode()

        def test(answer):
            own = [it for it in answer.value if it["name"].startswith(self.word) and not it["name"][len(self.word):][:1].isdigit()]
            wanted = [it for it in mine if len(answer.value) < 200 or place(it) <= place(answer.value[-1])]
            if answer.value != sorted(answer.value, key=place) or own != sorted(wanted, key=place):
                raise Wrong("a list has %r instead of %r" % (own, wanted))
        return request("GET", "%s/%ss?limit=200" % (self.namespace, kind), b"", self.key), test

    def page(self, rng):
        """A few of a list: no more than are asked for."""
        limit, kind = rng.randrange(1, 4), rng.choice(["actions", "packages", "triggers", "rules", "activations"])
        path = "%s/%s?limit=%d&skip=%d" % (self.namespace, kind, limit, rng.randrange(6))

        def test(answer):
            if len(answer.value) > limit or kind == "activations" and answer.value != sorted(answer.value, key=lambda it: it["activationId"])[::-1]:
                raise Wrong("a page of %d: %r" % (limit, answer))
        return request("GET", path, b"", self.key), test

    def wrong(self, rng):
        """A body, a name or a query value that is refused, whatever is there."""
        if rng.random() < 0.5:
            path, number = rng.choice(WRONG_PATHS)
            return request("GET", path.replace("%N", "n" * rng.randrange(257, 300)), b"", self.key), refused(number)
        body, number = rng.choice(WRONG_BODIES)
        return request("PUT", self.path("action", self.names("action")[0]) + OVERWRITE, body, self.key), refused(number)

    def step(self, rng):
        """A request, and what its answer must be."""
        makers = [self.put, self.get, self.get_bound, self.delete, self.invoke, self.fire, self.status, self.page, self.wrong, self.listed]
        return rng.choices(makers, [25, 20, 2, 6, 20, 6, 5, 6, 8, 0.3])[0](rng)


EXEC = b'{"exec":{"kind":"plain:1","code":"{\\"cases\\":[]}"}'
WRONG_PATHS = [("_/actions?limit=201", 39), ("_/rules?skip=-1", 39), ("_/triggers?limit=", 39), ("_/packages?skip=4294967296", 39),
               ("_/activations?limit=01", 39), ("_/actions/-a", 6), ("_/rules/a%20", 7), ("_/triggers/%N", 5), ("_/actions/p/a%00", 6),
               ("_/packages/%ff", 6), ("_/activations/1", 14), ("_/activations/" + "f" * 32, 14), ("_/actions/p/none", 14), ("_/rules/none", 14)]
WRONG_BODIES = [(b"{", 1), (b"\xff", 1), (b'{"a":"\x01"}', 1), (b'{"a":"\\ud800"}', 1), (b"[" * 9_000, 1), (b'{"a":1.5}', 2), (b'{"a":1e3}', 2),
                (b'{"a":-0}', 2), (b'{"a":1e999}', 1), (b'{"a":18446744073709551616}', 2), (b'{"a":' * 101 + b"1" + b"}" * 101, 3), (b"[]", 10),
                (b'{"exec":7}', 10), (b'{"exec":{"kind":"nodejs:20","code":""}}', 12), (b'{"exec":{"kind":"sequence","components":[]}}', 11),
                (b'{"exec":{"kind":"sequence","components":["a",7]}}', 10), (b'{"exec":{"kind":"sequence","components":["a/b/c"]}}', 8),
                (b'{"exec":{"kind":"sequence","components":["%s"]}}' % b'","'.join([b"a"] * 51), 19),
                (b'{"exec":{"kind":"plain:1","code":"x"}}', 10), (EXEC + b',"limits":{"timeout":99}}', 11), (EXEC + b',"publish":1}', 10),
                (EXEC + b',"parameters":{}}', 10), (EXEC + b',"annotations":[{"key":1,"value":1}]}', 10), (b'{"exec":{"kind":"plain:1"}}', 9)]


def check_record(record, wanted):
    for name, it in wanted.items():
        if compact(record[name]) != compact(it):
            raise Wrong("a record has %s %r instead of %r" % (name, record[name], it))
    if record["end"] - record["start"] != record["duration"] or record["end"] < record["start"]:
        raise Wrong("a record's moments: %r" % record)


# ---- requests of which the rules alone say what is answered


def names_of(namespace):
    word = mark(namespace)
    return ["actions/%sEcho" % word, "actions/%sFinal" % word, "actions/%sPack/%sIn" % (word, word), "actions/%sBind/%sIn" % (word, word),
            "actions/%sp0a0" % word, "packages/%sPack" % word, "packages/%sBind" % word, "triggers/%sFire" % word, "rules/%sRule" % word,
            "actions", "packages", "triggers", "rules", "activations", "activations/%016x%016x" % (NAMESPACES[namespace], 1),
            "activations/%016x%016x/logs" % (NAMESPACES[namespace], 2), "activations/%016x%016x/result" % (NAMESPACES[namespace], 3)]


def stranger(rng):
    """A request for what the key may not see, change or call: its own words have no mark that it may not see."""
    key = rng.choice([None, b"", b"k-none", b"K-red", b"k-red "[:rng.choice([3, 4])], *KEYS])
    holder = KEYS.get(key)
    namespace = rng.choice([it for it in ("red", "blue", "tight", "front") if not holder or not holder.rights.get(it)])
    path, method = rng.choice(names_of(namespace)), rng.choice(["GET", "GET", "PUT", "DELETE", "POST"])
    parts = path.split("/")
    if len(parts) == 1 or parts[0] == "activations" or parts[0] == "packages" and method == "POST":
        method = "GET"
    body = rng.choice([b"", b"{}", EXEC + b"}"]) if method in ("PUT", "POST") else b""
    query = rng.choice(["", "?overwrite=true", "?blocking=true&result=true", "?limit=200"])
    return request(method, namespace + "/" + path + query, body, key)


def partial(rng):
    """A request of a key with a few rights in a namespace of others, or on a shared package."""
    key = rng.choice([b"k-reads", b"k-calls", b"k-both"])
    namespace = rng.choice(EXACT)
    if rng.random() < 0.3:
        path = rng.choice(["packages/share", "actions/share/open", "actions/share/none", "actions/share/open?blocking=true&result=true"])
        method = "POST" if path.startswith("actions") and rng.random() < 0.5 else "GET"
        return request(method, namespace + "/" + path, b"", key)
    if rng.random() < 0.2:
        return request("GET", API[:-1], b"", key)
    path = rng.choice(names_of(namespace)[:8]) if rng.random() < 0.7 else rng.choice(names_of(namespace)[9:])
    called = path.startswith(("actions/", "triggers/")) and "p0a0" not in path
    method = "POST" if called and rng.random() < 0.4 else "GET"
    return request(method, namespace + "/" + path, b"", key)


def fixed(rng):
    """A call or a fire of what was put first: programs, a fixed parameter, limits that are low."""
    namespace = rng.choice(["red", "blue", "tight", "tight"])
    word, key = mark(namespace), b"k-" + namespace.encode()
    weights = [20, 20, 20, 5, 5, 20] if namespace == "tight" else [20, 20, 2, 1, 1, 0.3]
    action = rng.choices(["Echo", "Final", "Cat", "False", "None", "Slow"], weights)[0]
    body = compact(some(rng, ["own", "a"]))
    if rng.random() < 0.3:
        return request("POST", "_/triggers/%sFire" % word, body, key)
    return request("POST", "_/actions/" + word + action + rng.choice(["", "?blocking=true", "?blocking=true&result=true"]), body, key)


ODD_TEXTS = ["a", "B", "-", ":", " ", "\r\n", "\n", "\r", "\u00e9", "\0", "X-Evil: 1", ";"]


def web(rng):
    """A web action: texts that would end a header, statuses and names that may not be sent."""
    name = rng.choice([*WEB, *WEB, "auth", "raw", "hidden", "none", "a/b"])
    extension = rng.choice(["", "", "", ".json", ".http", ".text", ".svg", "/a/%2f"])
    path = "/api/v1/web/front/%s/%s%s" % (rng.choice(["default"] * 6 + ["none"]), name, extension)
    odd = lambda: "".join(rng.choice(ODD_TEXTS) for _ in range(rng.randrange(5)))
    header = rng.choice(["x-a", "Content-Length", "content-type", "Connection", "Transfer-Encoding", "a b", "", "X:Y", odd()])
    body = {"s": rng.choice([200, 204, 299, 304, 404, 599, 600, 199, "200", None]), "x": value(rng), "h": odd(), "hs": {header: odd(), "x-b": 7}}
    data, more = compact({key: body[key] for key in body if rng.random() < 0.7}), []
    kind = rng.randrange(6)
    if kind == 0:
        more, data = ["Content-Type: application/x-www-form-urlencoded"], b"x=%0d%0a&h=a%0d%0aX-Evil:+1&__ow_x=1"[:rng.randrange(40)]
    elif kind == 1:
        more, data = ["Content-Type: text/plain"], rng.randbytes(rng.randrange(9))
    if rng.random() < 0.4:
        path += "?" + rng.choice(["x=1", "h=a%0d%0aSet-Cookie:+b", "__ow_body=1", "s=200&s=201", "x=%ff"])
    return request(rng.choice(["GET", "POST", "PUT", "DELETE", "PATCH", "OPTIONS"]), path, data, rng.choice([None, None, b"k-none", b"k-red"]), more)


def wild(rng):
    """A request that is changed afterwards: it names what nobody counts on, by the namespace's own key."""
    namespace = rng.choice(EXACT)
    word, key = mark(namespace) + "wild%d" % rng.randrange(5), b"k-" + namespace.encode()
    kind = rng.choice(["actions", "actions", "packages", "activations"])
    if kind == "activations":
        return request("GET", "_/activations?limit=%d" % rng.randrange(1, 3), b"", key)
    path, method = "_/%s/%s" % (kind, word), rng.choice(["GET", "PUT", "PUT", "DELETE", "POST"])
    if kind == "packages" and method == "POST":
        method = "GET"
    body = {"annotations": pairs({"note": word, **some(rng)}), **({"exec": echo(namespace)} if kind == "actions" else {})}
    data = written(rng, body if method == "PUT" else some(rng)) if method in ("PUT", "POST") else b""
    query = rng.choice(["", OVERWRITE, "?blocking=true", "?blocking=true&result=true", "?limit=3&skip=1"])
    return request(method, path + query, data, key, rng.choice([(), ("Host: a", "User-Agent: fuzz", "Accept: */*"), ("Connection: close",)]))


def unread(rng):
    """A request whose answer isn't read: it changes and calls what is in yard alone."""
    word = mark("yard")
    path = rng.choice(["actions/%sEcho?blocking=true", "actions/%sEcho", "triggers/%sFire", "actions/%sPack/yardMarkIn"]) % word
    if rng.random() < 0.5:
        return request("GET", "_/actions/%sEcho" % word, b"", b"k-yard")
    return request("POST", "_/" + path, compact(some(rng)), b"k-yard")


# ---- bytes that are changed

ODD_LINES = [b"Content-Length: 0", b"Content-Length: 5", b"Content-Length: 99999", b"Content-Length: -1", b"Content-Length: 1x", b"Content-Length:",
             b"Content-Length: 18446744073709551616", b"Content-Length: 4194305", b"Content-Length: 000", b"Transfer-Encoding: chunked",
             b"Content-Encoding: gzip", b"Content-Encoding: identity", b"Connection: close", b"Connection: CLOSE ", b"Connection: close, x",
             b"X-Whisk-Key: k-none", b"X-Whisk-Key:", b": empty", b"No colon", b" folded", b"A\t: b", b"A: \x7f", b"A: \xff\xfe", b"\xc3\xa9: b",
             b"Expect: 100-continue", b"Upgrade: h2c", b"Host", b"A: b\rC: d", b"A:" + b" " * 3_000, b"HTTP/1.1 200 OK"]


def mutated(rng, data):
    """The bytes of one or more requests, changed in one to four places."""
    data = bytearray(data)
    for _ in range(rng.randint(1, 4)):
        at, kind = rng.randrange(len(data)) if data else 0, rng.randrange(9)
        if kind == 0 and data:
            data[at] = rng.randrange(256)
        elif kind == 1 and data:
            data[at] ^= 1 << rng.randrange(8)
        elif kind == 2:
            del data[at:at + rng.randint(1, 9)]
        elif kind == 3:
            data[at:at] = data[at:at + rng.randint(1, 60)]
        elif kind == 4:
            data[at:at] = rng.choice([b"\r\n", b"\n", b"\r", b"\0", b" ", b"\t", b"\r\n\r\n", b":", b"%", b"?", b"/", b"\xff", b"0"])
        elif kind == 5 and rng.random() < 0.3:
            del data[at:]
        elif kind in (6, 7, 8):
            change_line(rng, data)
    return bytes(data)


def change_line(rng, data):
    """Puts a header line in, doubles one, takes one out, or changes the first line."""
    ends = [at for at in range(len(data) - 1) if data[at:at + 2] == b"\r\n"][:30]
    if not ends:
        return
    place = rng.randrange(len(ends))
    begin, end = ends[place - 1] + 2 if place else 0, ends[place] + 2
    kind = rng.randrange(4)
    if kind < 2:
        data[end:end] = rng.choice(ODD_LINES) + b"\r\n"
    elif kind == 2:
        data[end:end] = data[begin:end]
    elif place:
        del data[begin:end]
    else:
        data[begin:end] = rng.choice([b"GET / HTTP/1.1\r\n", b"get /api/v1/namespaces HTTP/1.1\r\n", b"GET /api/v1/namespaces HTTP/1.0\r\n",
                                      b"PATCH /api/v1/namespaces/_/actions HTTP/1.1\r\n", b"GET  /api/v1/namespaces HTTP/1.1\r\n",
                                      b"GET /api/v1/namespaces HTTP/2.0\r\n", b"GET /api/v1/namespaces\r\n", b"PRI * HTTP/2.0\r\n",
                                      b"GET http://a/api/v1/namespaces HTTP/1.1\r\n", b"OPTIONS * HTTP/1.1\r\n"])


def noise(rng):
    """Random bytes, or words of the protocol in random order."""
    if rng.random() < 0.5:
        return rng.randbytes(rng.choice([1, 2, 9, 100, 3_000, 20_000]))
    words = [b"GET", b"PUT", b" ", b" ", b"/api/v1/namespaces", b"/_/actions", b"/a", b"?", b" HTTP/1.1", b"\r\n", b"\r\n", b"\n", b"A: b\r\n",
             b"Content-Length: ", b"3", b"X-Whisk-Key: k-none\r\n", b"{}", b"\0", b"\xff"]
    return b"".join(rng.choice(words) for _ in range(rng.randrange(1, 30)))


def huge(rng):
    """Heads and bodies at their bounds, and beyond."""
    kind, path = rng.randrange(8), "_/actions/redMarkEcho"
    short = len(request("GET", path, more=["A: "]))
    if kind == 0:
        return request("GET", path, more=["A%d: b" % n for n in range(rng.randint(97, 103))])
    if kind == 1:
        return request("GET", path, more=["A: " + "a" * (rng.choice([65_535, 65_536, 65_537, 65_536 + rng.randrange(70_000)]) - short)])
    if kind == 2:
        return b"GET /" + b"a" * rng.randint(60_000, 140_000)
    if kind == 3:
        return b"\r\n" * rng.randint(30_000, 40_000) + request("GET", path)
    if kind == 4:
        length = rng.choice([4_194_305, 2 ** 32, 2 ** 63, 2 ** 64 - 1])
        return request("PUT", path, more=["Content-Length: %d" % length]) + b"x" * rng.randrange(200_000)
    if kind == 5:
        return request("POST", "_/actions/blueMarkEcho", b"[" * rng.randint(100_000, 300_000), b"k-blue")
    if kind == 6:
        return request("GET", "_/actions?" + "&".join(["a=%d" % n for n in range(rng.randrange(1_000))]), more=["B: " + "b" * 9_000])
    return request("PUT", "_/actions/redMarkwild0", b"{" + b" " * rng.randrange(300_000) + b"}", b"k-none")
