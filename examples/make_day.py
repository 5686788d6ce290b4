"""Writes a day of examples/: requests and calls, as a new user sends them, over the office table examples/office.csv.

    python3 examples/make_day.py > examples/actions.day
    python3 examples/make_day.py blocking > examples/blocking.day
    python3 examples/make_day.py packages > examples/packages.day
    python3 examples/make_day.py rights > examples/rights.day
    python3 examples/make_day.py monday > examples/monday.day
    python3 examples/make_day.py tuesday > examples/tuesday.day
    python3 examples/make_day.py web > examples/web.day
    python3 examples/make_day.py rules > examples/rules.day
    python3 examples/make_day.py sequences > examples/sequences.day
    python3 examples/make_day.py conductors > examples/conductors.day

Each request is counted in bytes, with its head's lines ended by CR LF. Standard library only.
"""

import json
import os
import sys

HERE = os.path.dirname(os.path.abspath(__file__))
HOST = ["Host: localhost:3233", "User-Agent: curl/8.5.0", "Accept: */*"]


# The keys of anna, who has the namespace guest, and of bert, who has shop.
ANNA = "k1"
BERT = "k2"


def request(method, path, body, key):
    """The bytes of a request, with the headers that curl sends, and with a key, unless that is None."""
    head = [f"{method} /api/v1/namespaces{path} HTTP/1.1", *HOST]
    if key is not None:
        head.append(f"X-Whisk-Key: {key}")
    data = b""
    if body is not None:
        data = json.dumps(body, separators=(",", ":")).encode()
        head += ["Content-Type: application/json", f"Content-Length: {len(data)}"]
    return "\r\n".join([*head, "", ""]).encode() + data


def statement(data):
    """The statement that asks by these bytes: their number, a newline, the bytes and a newline."""
    return b"ask %d\n%s\n" % (len(data), data)


def ask(method, path, body=None, of="actions", at="_", key=ANNA):
    """The statement that asks by a request for something of a namespace."""
    return statement(request(method, f"/{at}/{of}{path}", body, key))


def say(line):
    """A statement of one line."""
    return line.encode() + b"\n"


def web(method, path, body="", *headers):
    """The statement that asks by a request for a web action of guest, without a key. With a body the last header is its type."""
    head = [f"{method} /api/v1/web/guest/default/{path} HTTP/1.1", *HOST, *headers]
    data = body.encode()
    if data:
        head.append(f"Content-Length: {len(data)}")
    return statement("\r\n".join([*head, "", ""]).encode() + data)


def plain(*cases):
    """An action of these cases, each a pair of its `when` and its `give`."""
    code = {"cases": [{"when": when, "give": give} for when, give in cases]}
    return {"exec": {"kind": "plain:1", "code": json.dumps(code, separators=(",", ":"))}}


def hello():
    """An action that greets, whatever it is given."""
    return plain(({}, {"greeting": "Hello"}))


def every():
    """An action that gives back all that it is given."""
    return plain(({}, {"$all": True}))


def sequence(*names):
    """An action that calls these actions one after the other."""
    return {"exec": {"kind": "sequence", "components": list(names)}}


def exported(code, values=(), **annotations):
    """A web action of this code, which is a text or the `give` of its one case."""
    if not isinstance(code, str):
        code = json.dumps({"cases": [{"when": {}, "give": code}]}, separators=(",", ":"))
    marks = [{"key": name.replace("_", "-"), "value": value} for name, value in annotations.items()]
    marks = [{"key": "web-export", "value": True}, *marks]
    body = {"exec": {"kind": "plain:1", "code": code}, "annotations": marks, "limits": {"memory": 128}}
    return {**body, "parameters": list(values)} if values else body


def pairs(**values):
    """Parameters, as a body gives them."""
    return [{"key": name, "value": value} for name, value in values.items()]


# An action is put, called from beginning to end, and taken away.
ACTIONS = [
    ask("PUT", "/hello", hello()),
    ask("GET", "/hello"),
    ask("GET", "?limit=10"),
    say('call /whisk.system/utils/echo {"a":1}'),
    say("next"),
    say('answer 1 {"a":1}'),
    say("at 1000"),
    say('call /guest/hello {"name":"Anna"}'),
    say("next"),
    say('answer 2 {"greeting":"Hello"}'),
    say("drain"),
    ask("DELETE", "/hello"),
    ask("GET", "/hello"),
    say("end"),
]

# The ids of the first activations of the namespace guest.
FIRST = "00000000000000010000000000000001"
SECOND = "00000000000000010000000000000002"
THIRD = "00000000000000010000000000000003"

# An action is called by requests that wait for its result: the service runs it itself, and the result is collected. The
# second run is replied to by hand, with a line of logs.
BLOCKING = [
    ask("PUT", "/hello", hello()),
    ask("POST", "/hello?blocking=true&result=true"),
    say(f"collect {FIRST}"),
    say("turn"),
    say(f"collect {FIRST}"),
    say("at 1000"),
    ask("POST", "/hello?blocking=true", {"name": "Anna"}),
    say("next"),
    say('logged 2 1 {"greeting":"Hello Anna"}'),
    say("called by Anna"),
    say(f"collect {SECOND}"),
    ask("GET", f"/{SECOND}/logs", of="activations"),
    ask("GET", "?limit=10", of="activations"),
    say("turn"),
    say("drain"),
    say("end"),
]

# An action in a package is called through a binding of the package, with the parameters of both, and the shared package of the
# service is read and called from another namespace.
PACKAGES = [
    ask("PUT", "/greetings", {"parameters": pairs(greeting="Hello", name="you")}, of="packages"),
    ask("PUT", "/greetings/hello", every()),
    ask("PUT", "/mine", {"binding": {"namespace": "_", "name": "greetings"}, "parameters": pairs(name="Anna")}, of="packages"),
    ask("GET", "/mine", of="packages"),
    ask("GET", "/mine/hello"),
    say('call /guest/mine/hello {"mark":"!"}'),
    say("turn"),
    ask("GET", f"/{FIRST}", of="activations"),
    ask("POST", "/mine/hello?blocking=true&result=true", {"greeting": "Welcome"}),
    say("turn"),
    say(f"collect {SECOND}"),
    ask("GET", "/utils", of="packages", at="whisk.system"),
    ask("POST", "/utils/echo?blocking=true&result=true", {"a": 1}, at="whisk.system"),
    say("turn"),
    say(f"collect {THIRD}"),
    ask("PUT", "/mine/other", every()),
    ask("DELETE", "/greetings", of="packages"),
    ask("DELETE", "/greetings/hello"),
    ask("DELETE", "/greetings", of="packages"),
    ask("GET", "/mine", of="packages"),
    say("call /guest/mine/hello {}"),
    say("drain"),
    say("end"),
]

# Which namespaces a key is told, what it may not do there, and two limits of the namespace shop, which takes three invocations in
# a minute and two at once: they count what is charged to it, whoever asked.
PRICE = "/price"
RIGHTS = [
    statement(request("GET", "", None, ANNA)),
    statement(request("GET", "", None, None)),
    ask("PUT", PRICE, every(), key=BERT),
    ask("GET", "", at="shop"),
    ask("PUT", PRICE + "?overwrite=true", every(), at="shop"),
    ask("GET", "", at="guest", key=BERT),
    ask("GET", "", at="nowhere", key=BERT),
    ask("POST", PRICE, {"n": 1}, at="shop"),
    ask("POST", PRICE, {"n": 2}, key=BERT),
    ask("POST", PRICE, {"n": 3}, at="shop"),
    say("turn"),
    ask("POST", PRICE, {"n": 3}, at="shop"),
    say("turn"),
    say("turn"),
    ask("POST", PRICE, {"n": 4}, at="shop"),
    say("at 60000"),
    ask("POST", PRICE, {"n": 4}, at="shop"),
    say("turn"),
    ask("GET", "", of="activations", at="shop"),
    say("drain"),
    say("end"),
]

# Two days over one store: what the first leaves, one call of which has not ended, the second finds.
MONDAY = [
    ask("PUT", "/hello", hello()),
    say('call /guest/hello {"name":"Anna"}'),
    say("turn"),
    say("at 1000"),
    say('call /guest/hello {"name":"Bert"}'),
    say("end"),
]

TUESDAY = [
    ask("GET", ""),
    ask("GET", "", of="activations"),
    say("call /guest/hello {}"),
    say("end"),
]

# Web actions are asked without a key: by each extension, with a query, a form and an object, and in the ways that are refused. Each
# run is carried out, and its answer is collected; the last one is waited for in vain.
GREET = {"body": {"$": "name"}, "text": {"$": "name"}}
SHOW = {"body": {"$all": True}}
FORM, JSON, TEXT = ("Content-Type: " + kind for kind in ("application/x-www-form-urlencoded", "application/json", "text/plain"))
ID = "0000000000000001%016x"


def answered(number):
    """The statements that carry out the oldest run and collect the answer of that activation of guest."""
    return say("turn") + say("collect " + ID % number)


def redirect():
    """The code of an action that sends a browser to another one."""
    with open(os.path.join(HERE, "redirect.json"), encoding="utf-8") as file:
        return file.read().strip()


WEB = [
    ask("PUT", "/greet", exported(GREET, pairs(language="en"))),
    web("GET", "greet?name=Anna") + answered(1),
    web("GET", "greet.json?name=Anna") + answered(2),
    web("GET", "greet.text?name=Anna&name=Bert+B") + answered(3),
    web("POST", "greet.text?name=Anna", "name=Carla", FORM) + answered(4),
    web("POST", "greet.text", '{"name":7}', JSON) + answered(5),
    web("GET", "greet.text") + answered(6),
    web("GET", "greet?language=de"),
    web("GET", "greet?__ow_method=put"),
    web("GET", "greet.png"),
    web("GET", "nothing"),
    web("POST", "greet", "[]", JSON),
    ask("PUT", "/hello", hello()),
    web("GET", "hello"),
    ask("PUT", "/show", exported(SHOW)),
    web("PATCH", "show/a/b%20c?x=1", "a text", TEXT) + answered(7),
    ask("PUT", "/raw", exported({"body": {"$": "__ow_query"}}, raw_http=True)),
    web("GET", "raw?a=1&b") + answered(8),
    ask("PUT", "/secret", exported({"statusCode": 201, "headers": {"X-Count": 3}, "body": "hi"}, require_whisk_auth="s")),
    web("GET", "secret"),
    web("GET", "secret", "", "X-Require-Whisk-Auth: s") + answered(9),
    ask("PUT", "/start", exported(redirect())),
    web("GET", "start") + answered(10),
    ask("PUT", "/none", exported({})),
    web("DELETE", "none") + answered(11),
    ask("PUT", "/failing", exported({"error": "Out of tea."})),
    web("OPTIONS", "failing.http") + answered(12),
    ask("GET", "/" + ID % 10, of="activations"),
    web("GET", "greet?name=Dora"),
    say("at 60000"),
    say("collect " + ID % 13),
    say("turn"),
    say("drain"),
    web("GET", "greet?name=Anna"),
    say("end"),
]

# A trigger is fired: without a rule, with two rules, with one that is turned off, and with one whose action is gone.
VISIT, GREET_RULE = "/visit", "/greet"
RULES = [
    ask("PUT", "/hello", hello()),
    ask("PUT", VISIT, {"parameters": pairs(door="front", name="nobody")}, of="triggers"),
    ask("POST", VISIT, {"name": "Anna"}, of="triggers"),
    ask("PUT", GREET_RULE, {"trigger": "visit", "action": "hello"}, of="rules"),
    ask("PUT", "/note", {"trigger": "visit", "action": "/whisk.system/utils/echo"}, of="rules"),
    ask("GET", "", of="rules"),
    ask("POST", VISIT, {"name": "Anna"}, of="triggers"),
    ask("GET", f"/{FIRST}", of="activations"),
    say("turn"),
    say("turn"),
    ask("GET", f"/{SECOND}/result", of="activations"),
    ask("GET", f"/{THIRD}", of="activations"),
    say("at 1000"),
    ask("POST", GREET_RULE, {"status": "inactive"}, of="rules"),
    ask("POST", VISIT, {"name": "Bert"}, of="triggers"),
    ask("GET", "/" + ID % 4 + "/logs", of="activations"),
    say("turn"),
    ask("POST", GREET_RULE, {"status": "active"}, of="rules"),
    ask("DELETE", "/hello"),
    ask("POST", VISIT, of="triggers"),
    ask("GET", "/" + ID % 6 + "/logs", of="activations"),
    say("turn"),
    ask("GET", "?limit=4", of="activations"),
    ask("DELETE", VISIT, of="triggers"),
    ask("GET", GREET_RULE, of="rules"),
    ask("POST", VISIT, of="triggers"),
    say("drain"),
    say("end"),
]

# A shop: `find` knows one item, `bill` writes a bill of what it is given. A sequence calls both, and ends at an error; another one
# contains it, and names an action that isn't there.
TEA, INK = {"item": "tea"}, {"item": "ink"}
SMALL = {"limits": {"memory": 128}}
FIND = plain((TEA, {"item": "tea", "cents": 250}), ({}, {"error": "There is no such item."})) | SMALL
BILL = plain(({}, {"bill": {"$all": True}})) | SMALL
SHOP = [ask("PUT", "/find", FIND), ask("PUT", "/bill", BILL)]
ECHO = "/whisk.system/utils/echo"
SEQUENCES = [
    *SHOP,
    ask("PUT", "/order", sequence("find", "bill")),
    ask("POST", "/order?blocking=true&result=true", TEA),
    say("turn"),
    say("turn"),
    say(f"collect {FIRST}"),
    ask("GET", f"/{FIRST}", of="activations"),
    ask("GET", f"/{SECOND}", of="activations"),
    ask("POST", "/order?blocking=true&result=true", INK),
    say("turn"),
    say("collect " + ID % 4),
    ask("GET", "/" + ID % 4 + "/logs", of="activations"),
    ask("PUT", "/lunch", sequence("order", "gone")),
    say('call /guest/lunch {"item":"tea"}'),
    say("turn"),
    say("turn"),
    ask("GET", "/" + ID % 6, of="activations"),
    ask("PUT", "/order?overwrite=true", sequence("find", "lunch")),
    ask("PUT", "/long", sequence(*["find"] * 51)),
    ask("PUT", VISIT, of="triggers"),
    ask("PUT", GREET_RULE, {"trigger": "visit", "action": "order"}, of="rules"),
    ask("POST", VISIT, TEA, of="triggers"),
    say("turn"),
    say("turn"),
    ask("GET", "?limit=4", of="activations"),
    say("drain"),
    say("end"),
]

# The same shop by a conductor: it decides after each component what comes next, also after an error. Then a conductor that names an
# action that isn't there, and one in a sequence.
ASKED, FOUND, BILLED = {}, {"step": "found"}, {"step": "billed"}
SELL = plain((BILLED, {"params": {"bill": {"$": "bill"}}}),
             ({"error": "There is no such item."}, {"params": {"sorry": {"$": "error"}}}),
             (FOUND, {"action": "bill", "params": {"cents": {"$": "cents"}}, "state": BILLED}),
             (ASKED, {"action": "find", "params": {"item": {"$": "item"}}, "state": FOUND}))
LOST = plain(({"error": "The component does not exist."}, {"params": {"told": {"$all": True}}}), ({}, {"action": "gone", "state": {"tried": 1}}))
CONDUCTOR = {"annotations": pairs(conductor=True), **SMALL}
CONDUCTORS = [
    *SHOP,
    ask("PUT", "/sell", SELL | CONDUCTOR),
    ask("POST", "/sell?blocking=true&result=true", TEA),
    *[say("turn")] * 5,
    say(f"collect {FIRST}"),
    ask("GET", f"/{FIRST}", of="activations"),
    ask("GET", f"/{SECOND}", of="activations"),
    ask("GET", f"/{THIRD}", of="activations"),
    say('call /guest/sell {"item":"ink"}'),
    *[say("turn")] * 3,
    ask("GET", "/" + ID % 7 + "/result", of="activations"),
    ask("PUT", "/lost", LOST | CONDUCTOR),
    say("call /guest/lost {}"),
    *[say("turn")] * 2,
    ask("GET", "/" + ID % 11 + "/result", of="activations"),
    ask("PUT", "/both", sequence(ECHO, "sell")),
    say('call /guest/both {"item":"tea"}'),
    *[say("turn")] * 6,
    ask("GET", "/" + ID % 14, of="activations"),
    say("drain"),
    say("end"),
]

DAYS = {
    "actions": ACTIONS,
    "blocking": BLOCKING,
    "packages": PACKAGES,
    "rights": RIGHTS,
    "monday": MONDAY,
    "tuesday": TUESDAY,
    "web": WEB,
    "rules": RULES,
    "sequences": SEQUENCES,
    "conductors": CONDUCTORS,
}

if __name__ == "__main__":
    name = sys.argv[1] if len(sys.argv) > 1 else "actions"
    sys.stdout.buffer.write(b"".join(DAYS[name]))
