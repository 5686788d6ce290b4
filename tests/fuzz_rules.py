"""The rules that tests/fuzz_connections holds the service against: how bytes are read as requests, which refusal comes first, who may see
what, and what an answer looks like. They are read from docs/REQUESTS.md, docs/SERVING.md and docs/DEFINITIONS.md, not from the program.
"""
import http
import json
import re

MOST_HEAD, MOST_HEADERS, MOST_BODY = 65_536, 100, 4_194_304

# The number of each refusal, with its status and its text.
TEXTS = {
    0: (500, "No memory."), 1: (400, "The text is no JSON."), 2: (400, "A number is not a whole number of 64 bits."),
    3: (400, "The value is nested deeper than 100."), 4: (400, "A name is empty."), 5: (400, "A name has more than 256 bytes."),
    6: (400, r"A name has a wrong byte at \d+."), 7: (400, "A name ends in a space."), 8: (400, "The path names no entity."),
    9: (400, r"The field \w+ is missing."), 10: (400, r"The field \w+ has a wrong type."), 11: (400, r"The field \w+ is out of range."),
    12: (400, "The kind is unknown."), 13: (413, "The value has too many bytes."), 14: (404, "The resource does not exist."),
    15: (400, "The package is a binding."), 16: (400, r"The parameter [^\0]* is fixed."), 17: (409, "The resource exists."),
    18: (400, "The version cannot be raised."), 19: (400, "The sequence has more than 50 actions."),
    20: (400, "The sequence contains itself."), 21: (409, "The package holds actions."), 23: (401, "The key is unknown."),
    24: (403, "The namespace is not granted."), 25: (429, r"Too many invocations in the last minute: \d+ of \d+."),
    26: (429, r"Too many concurrent activations: \d+ of \d+."), 27: (429, r"Too many fires in the last minute: \d+ of \d+."),
    31: (503, "The store failed."), 32: (503, "The office is draining."), 33: (503, "The book is full."), 34: (503, "The store is full."),
    35: (400, "The request head is malformed."), 36: (404, "There is no such route."), 37: (405, "The method is not allowed."),
    38: (413, "The body has too many bytes."), 39: (400, r"The query value \w+ is wrong."), 40: (400, "The request is cut short."),
    41: (404, "The resource does not exist."), 42: (400, "The extension is unknown."), 43: (400, r"The parameter __ow_[^\0]* is reserved."),
    44: (401, "Authentication is needed."), 45: (502, "The result is no web response."), 46: (503, "The office is busy.")}
REFUSALS = {number: (status, re.compile(text.replace(".", r"\."))) for number, (status, text) in TEXTS.items()}
PHRASES = {it.value: it.phrase for it in http.HTTPStatus} | {413: "Payload Too Large", 203: "Non Authoritative Information", 414: "URI Too Long",
                                                            416: "Range Not Satisfiable"}
# Headers that follow a line end in what web requests give: no action sends them.
INJECTED = {b"x-evil", b"set-cookie"}


class Wrong(Exception):
    """Something that breaks a rule."""


class Refused(Exception):
    """Bytes that are refused, with these numbers: two where a clause allows both."""

    def __init__(self, *numbers):
        super().__init__(numbers)
        self.numbers = numbers


class Cut(Exception):
    """Bytes that end inside a request."""


# ---- how bytes are read

TOKEN, TARGET, VALUE = rb"[!#$%&'*+\-.^_`|~0-9A-Za-z]+", rb"[\x21-\x7e\x80-\xff]+", rb"[\t\x20-\x7e\x80-\xff]*"
START = re.compile(rb"(?:\r?\n)*(" + TOKEN + rb") (" + TARGET + rb") HTTP/1\.([01])\r?\n")
FIELD = re.compile(rb"(" + TOKEN + rb"):(" + VALUE + rb")\r?\n")
END = re.compile(rb"\r?\n")
VERSION_BEGUN = rb"(?:H(?:T(?:T(?:P(?:/(?:1(?:\.(?:[01]\r?)?)?)?)?)?)?)?)?"
START_BEGUN = re.compile(rb"(?:\r?\n)*(?:\r|" + TOKEN + rb"(?: (?:(" + TARGET + rb")( " + VERSION_BEGUN + rb")?)?)?)?")
FIELD_BEGUN = re.compile(rb"(?:\r|" + TOKEN + rb"(?::" + VALUE + rb"\r?)?)?")


class Request:
    """A request, as it was read."""

    def __init__(self, method, target, minor, headers, size):
        self.method, self.headers, self.size, self.body = method.decode(), headers, size, b""
        path, _, self.query = target.partition(b"?")
        self.path, self.pairs = path, pairs_of(self.query)
        self.route = None
        self.closes = minor == b"0" or any(value.lower() == b"close" for value in self.all_of(b"connection"))
        self.key = next(iter(self.all_of(b"x-whisk-key")[::-1]), None)

    def all_of(self, name):
        return [value for it, value in self.headers if it.lower() == name]

    def value(self, name):
        """The first value of a name in the query."""
        return next((value for it, value in self.pairs if it == name), None)


def read_head(data, at):
    """The start line's parts, the headers, and where the head ends."""
    start = START.match(data, at)
    if not start:
        begun = START_BEGUN.fullmatch(data, at)
        if not begun or begun[2] and not is_text(begun[1]):
            raise Refused(35)
        raise Cut
    if not is_text(start[2]):
        raise Refused(35)
    fields, place = [], start.end()
    while not (end := END.match(data, place)):
        field = FIELD.match(data, place)
        if not field:
            if not FIELD_BEGUN.fullmatch(data, place):
                raise Refused(35)
            if len(fields) > MOST_HEADERS:
                raise Refused(35, 40)
            raise Cut
        fields.append((field[1], field[2].strip(b" \t")))
        place = field.end()
    if len(fields) > MOST_HEADERS:
        raise Refused(35)
    return start, fields, end.end()


def read_request(data, at):
    """The request that begins at this place."""
    try:
        start, fields, end = read_head(data, at)
    except Cut:
        if len(data) - at > MOST_HEAD:
            raise Refused(35) from None
        raise
    if end - at > MOST_HEAD or not all(is_text(value) for _, value in fields):
        raise Refused(35)
    length = length_of(fields)
    request = Request(start[1], start[2], start[3], fields, end - at + length)
    request.route, methods = route_of(request.path)
    if request.method not in methods:
        raise Refused(37)
    if length > MOST_BODY:
        raise Refused(38)
    if len(data) < end + length:
        raise Cut
    request.body = data[end:end + length]
    return request


def length_of(fields):
    lengths = [value for name, value in fields if name.lower() == b"content-length"]
    coded = any(name.lower() == b"transfer-encoding" or name.lower() == b"content-encoding" and value != b"identity" for name, value in fields)
    if coded or len(lengths) > 1 or lengths and not re.fullmatch(rb"[0-9]+", lengths[0]):
        raise Refused(35)
    length = int(lengths[0][-30:]) if lengths and len(lengths[0].lstrip(b"0")) <= 20 else 2 ** 64 * len(lengths)
    if length >= 2 ** 64:
        raise Refused(35)
    return length


def judged(data):
    """The requests that bytes are, and what follows them: `clean`, `cut`, `closed`, or the numbers of a refusal."""
    requests, at = [], 0
    while at < len(data):
        try:
            request = read_request(data, at)
        except Cut:
            return requests, "cut"
        except Refused as refused:
            return requests, refused.numbers
        requests.append(request)
        at += request.size
        if request.closes:
            return requests, "closed"
    return requests, "clean"


def is_text(data):
    try:
        data.decode()
        return True
    except UnicodeDecodeError:
        return False


def percent_decoded(data):
    return re.sub(rb"%([0-9A-Fa-f]{2})", lambda it: bytes([int(it[1], 16)]), data) if b"%" in data else data


def pairs_of(query):
    parts = [part.partition(b"=") for part in query.split(b"&") if part]
    return [tuple(percent_decoded(it.replace(b"+", b" ")).decode("utf-8", "replace") for it in (name, value)) for name, _, value in parts]


KINDS = {b"actions": "action", b"packages": "package", b"triggers": "trigger", b"rules": "rule"}
WEB_METHODS = {"GET", "PUT", "POST", "DELETE", "PATCH", "OPTIONS"}


def route_of(path):
    """What a path names, and the methods that it takes."""
    parts = path.split(b"/")
    if parts[:3] != [b"", b"api", b"v1"] or len(parts) < 4:
        raise Refused(36)
    word, rest = parts[3], parts[4:]
    if word == b"web":
        if len(rest) < 3 or not all(rest[:3]) or rest[3:] == [b""]:
            raise Refused(36)
        return ("web", *(percent_decoded(it) for it in rest[:3])), WEB_METHODS
    if word != b"namespaces" or not all(rest):
        raise Refused(36)
    if not rest:
        return ("namespaces",), {"GET"}
    namespace, below = percent_decoded(rest[0]), rest[1:]
    return route_in(namespace, below)


def route_in(namespace, below):
    if below[:1] == [b"activations"] and (len(below) < 4 and below[2:] in ([], [b"logs"], [b"result"])):
        return ("activation" if below[1:] else "activations", namespace, *below[1:]), {"GET"}
    kind = KINDS.get(below[0]) if below else None
    if kind is None or len(below) > 3 or len(below) == 3 and kind != "action":
        raise Refused(36)
    if len(below) == 1:
        return ("list", namespace, kind), {"GET"}
    names = [percent_decoded(it) for it in below[1:]]
    return ("entity", namespace, kind, *names), {"GET", "PUT", "DELETE"} | ({"POST"} if kind != "package" else set())


# ---- JSON


def only_once(pairs):
    """An object of the service: no name twice, in the order of their bytes."""
    names = [name.encode("utf-8", "surrogatepass") for name, _ in pairs]
    if any(one >= other for one, other in zip(names, names[1:])):
        raise ValueError("names aren't in order, or not unique")
    return dict(pairs)


def compact(value):
    return json.dumps(value, ensure_ascii=False, separators=(",", ":"), sort_keys=True).encode()


def parsed(body):
    """The value of a body, which must be compact JSON."""
    try:
        value = json.loads(body.decode(), object_pairs_hook=only_once)
        if compact(value) == body:
            return value
    except (ValueError, RecursionError):
        pass
    raise Wrong("a body is no compact JSON: %r" % body[:300])


def reading(text):
    """The value of a body that a client sends."""
    odd = []

    def other_number(word):
        number = float(word)
        if number in (float("inf"), float("-inf")):
            raise ValueError(word)
        odd.append(word)
        return 0

    def whole(word):
        if word != "-0" and len(word) < 25 and -2 ** 63 <= int(word) < 2 ** 64:
            return int(word)
        return other_number(word)

    def never(word):
        raise ValueError(word)

    try:
        value = json.loads(text.decode(), parse_int=whole, parse_float=other_number, parse_constant=never)
        if b"\\u" in text:
            json.dumps(value, ensure_ascii=False).encode()
        nesting = depth(value)
    except (ValueError, RecursionError):
        raise Refused(1) from None
    if nesting > 127:
        raise Refused(1)
    if odd:
        raise Refused(2)
    if nesting > 100:
        raise Refused(3)
    return value


def depth(value):
    found, level = 0, [value]
    while level := [it for it in level if isinstance(it, (dict, list))]:
        found += 1
        level = [below for it in level for below in (it.values() if isinstance(it, dict) else it)]
    return found


# ---- which refusal comes first


class Holder:
    """The holder of a key: its subject, its own namespace, and the rights in others."""

    def __init__(self, subject, home, **rights):
        self.subject, self.home, self.rights = subject, home, {home: {"read", "write", "invoke"}, **rights}

    def may(self, right, namespace):
        return right in self.rights.get(namespace, ())


def name_fault(name):
    if not name:
        return 4
    if len(name) > 256:
        return 5
    if not re.fullmatch(rb"[A-Za-z0-9_][A-Za-z0-9_ @.\-]*", name):
        return 6
    return 7 if name.endswith(b" ") else None


def right_for(request):
    kind = request.route[2] if request.route[0] == "entity" else None
    if request.method == "GET":
        return "read"
    return "invoke" if request.method == "POST" and kind in ("action", "trigger") else "write"


def namespace_in(request, holder):
    """The namespace of the path, as a text."""
    if len(request.route) < 2:
        return None
    name = request.route[1].decode("utf-8", "replace")
    return holder.home if name == "_" and holder else name


def is_shared(request, namespace, shared):
    """Whether a shared package grants the request: shared are pairs of a namespace and a package."""
    if request.route[0] != "entity" or request.method not in ("GET", "POST"):
        return False
    kind, first = request.route[2], request.route[3].decode("utf-8", "replace")
    if kind == "package" and request.method == "GET" or kind == "action" and len(request.route) == 5:
        return (namespace, first) in shared
    return False


def wrong_query(request):
    """Whether a value of the query that counts is wrong."""
    kind = request.route[0]
    number = lambda text, most: re.fullmatch("0|[1-9][0-9]{0,9}", text) is not None and int(text) <= most
    flag = lambda text: text in ("true", "false")
    if kind in ("list", "activations"):
        tests = {"limit": lambda text: number(text, 200), "skip": lambda text: number(text, 4_294_967_295)}
    elif kind == "entity" and request.method == "PUT":
        tests = {"overwrite": flag}
    elif kind == "entity" and request.method == "POST" and request.route[2] == "action":
        tests = {"blocking": flag, "result": flag}
    else:
        tests = {}
    return any((value := request.value(name)) is not None and not test(value) for name, test in tests.items())


def body_refusal(request):
    """Why a body is no value, no object, or no status; what else a put's body lacks isn't looked at."""
    if request.route[0] != "entity" or request.method in ("GET", "DELETE"):
        return None
    try:
        value = reading(request.body) if request.body else {}
    except Refused as refused:
        return refused.numbers[0]
    if not isinstance(value, dict):
        return 10
    if request.method == "POST" and request.route[2] == "rule":
        status = value.get("status")
        return 9 if "status" not in value else 10 if not isinstance(status, str) else None if status in ("active", "inactive") else 11
    return None


def first_refusal(request, holder, shared):
    """The number with which a request outside the web routes is refused before entities are looked at, or None."""
    if holder is None:
        return 23
    if request.route[0] == "namespaces":
        return None
    namespace = namespace_in(request, holder)
    if not holder.may(right_for(request), namespace) and not is_shared(request, namespace, shared):
        return 24
    if wrong_query(request):
        return 39
    names = request.route[3:] if request.route[0] == "entity" else ()
    return next((fault for name in names if (fault := name_fault(name))), None) or body_refusal(request)


# What may come after that: numbers, and statuses without a number.
ENTITY_FAULTS = {4, 5, 6, 7, 8, 9, 10, 11, 12, 13}
AFTER = {
    ("entity", "GET"): ({14}, {200}), ("entity", "PUT"): (ENTITY_FAULTS | {14, 15, 17, 18, 19, 20}, {200}), ("entity", "DELETE"): ({14, 15, 21}, {200}),
    ("action", "POST"): ({13, 14, 16, 25, 26, 46}, {200, 202, 502}), ("trigger", "POST"): ({13, 14, 27}, {202, 204}),
    ("rule", "POST"): ({14}, {200}), ("list", "GET"): (set(), {200}), ("namespaces", "GET"): (set(), {200}),
    ("activations", "GET"): (set(), {200}), ("activation", "GET"): ({14}, {200})}
WEB_NUMBERS = {1, 2, 3, 4, 5, 6, 7, 10, 13, 14, 16, 25, 26, 41, 42, 43, 44, 45, 46}


def seen_by(request, holder):
    """The namespaces whose texts may be in the answer."""
    if holder is None or request.route[0] == "web":
        return set()
    seen = {namespace for namespace in holder.rights if holder.may("read", namespace)}
    namespace = namespace_in(request, holder)
    if request.method != "GET" and holder.may(right_for(request), namespace):
        seen.add(namespace)
    return seen


# ---- answers


class Answer:
    """An answer, as it was read."""

    def __init__(self, status, headers, body):
        self.status, self.headers, self.body = status, headers, body
        self.kind = next((value for name, value in headers if name.lower() == b"content-type"), None)
        self.value = parsed(body) if self.kind == b"application/json" and body else None
        self.number = None
        if isinstance(self.value, dict) and set(self.value) in ({"code", "error"}, {"code", "error", "result"}):
            self.number = self.value["code"]

    def __repr__(self):
        return "%d %r" % (self.status, self.body[:300])


STATUS_LINE = re.compile(rb"HTTP/1\.1 ([2-5][0-9][0-9]) ([ -~]*)")
HEADER_LINE = re.compile(rb"(" + TOKEN + rb"): ([ -~]*)")


def read_answer(held):
    """The answer at the front of these bytes with its length, or None where more must come."""
    end = held.find(b"\r\n\r\n")
    if end < 0:
        if len(held) > 2 * MOST_HEAD:
            raise Wrong("an answer's head has no end: %r" % held[:300])
        return None
    lines = bytes(held[:end]).split(b"\r\n")
    first, fields = STATUS_LINE.fullmatch(lines[0]), [HEADER_LINE.fullmatch(line) for line in lines[1:]]
    if not first or not all(fields):
        raise Wrong("an answer's head: %r" % bytes(held[:end])[:500])
    status, headers = int(first[1]), [(field[1], field[2]) for field in fields]
    if first[2].decode() != PHRASES.get(status, ""):
        raise Wrong("an answer's phrase: %r" % lines[0])
    length = length_told(status, headers)
    if len(held) < end + 4 + length:
        return None
    return Answer(status, headers, bytes(held[end + 4:end + 4 + length])), end + 4 + length


def length_told(status, headers):
    """The Content-Length, which is there once, with one type; with 204 and 304 neither is."""
    names = [name.lower() for name, _ in headers]
    counts = [names.count(name) for name in (b"content-length", b"content-type", b"transfer-encoding", b"connection")]
    if counts != ([0, 0, 0, 0] if status in (204, 304) else [1, 1, 0, 0]):
        raise Wrong("an answer's headers: %d %r" % (status, headers))
    lengths = [value for name, value in headers if name.lower() == b"content-length"]
    if lengths and not re.fullmatch(rb"0|[1-9][0-9]*", lengths[0]):
        raise Wrong("an answer's length: %r" % lengths[0])
    return int(lengths[0]) if lengths else 0


def check_refusal(answer, wanted):
    """A refusal has the number, and of that the status and the text."""
    if answer.number not in wanted:
        raise Wrong("%r instead of number %s" % (answer, " or ".join(str(it) for it in wanted)))
    status, text = REFUSALS.get(answer.number, (None, None))
    if status != answer.status or not text.fullmatch(answer.value["error"]):
        raise Wrong("a refusal that isn't in the table: %r" % answer)
    if answer.headers[0] != (b"Content-Type", b"application/json") or ("result" in answer.value) != (answer.number == 45):
        raise Wrong("a refusal of another form: %r %r" % (answer.headers, answer))


def check_answer(request, answer, holder, shared, marks):
    """Holds the answer to one request against the rules that need no memory of earlier ones. Marks are words of namespaces."""
    seen = seen_by(request, holder)
    whole = b"".join(name + value for name, value in answer.headers) + answer.body
    sent = request.path + request.query + b"".join(name + value for name, value in request.headers) + request.body
    for namespace, mark in marks.items():
        if namespace not in seen and mark in whole and mark not in sent:
            raise Wrong("the text of %s is in the answer to the key %r: %r" % (namespace, request.key, answer))
    if request.route[0] == "web":
        if any(name.lower() in INJECTED for name, _ in answer.headers):
            raise Wrong("a line end in a header: %r" % answer.headers)
        if answer.number is not None:
            check_refusal(answer, WEB_NUMBERS)
        return
    if answer.status != 204 and (answer.value is None or len(answer.headers) != 2):
        raise Wrong("an answer that is no JSON, or has headers of its own: %r %r" % (answer.headers, answer))
    wanted = first_refusal(request, holder, shared)
    if wanted is not None:
        check_refusal(answer, {wanted})
        return
    word = request.route[2] if request.method == "POST" else request.route[0]
    numbers, statuses = AFTER[word, request.method]
    if answer.number is not None:
        check_refusal(answer, numbers)
    elif answer.status not in statuses:
        raise Wrong("status %d" % answer.status)
