#!/usr/bin/env python3
"""Shows that what a client on this machine sends is read right, and that what is written is read right by
parsers that aren't this project's: curl sends requests to a listener on the loopback, which hands their bytes to
the program as an `ask` of a day and sends the reply's bytes back. Status and body as curl got them are compared
with the reply's bytes as Python's http.client reads them, and with what the requests must be answered.
Build the program first: (cd crates/ow_whisk && rt run -- day < ../../examples/first.day)"""
import http.client
import io
import json
import os
import re
import socket
import subprocess
import sys
import threading

HERE = os.path.dirname(os.path.abspath(__file__))
PROGRAM = os.path.join(HERE, "..", "crates", "ow_whisk", "out", "ow_whisk")
TABLE = os.path.join(HERE, "office.csv")
if not os.access(PROGRAM, os.X_OK):
    sys.exit("build the program first: (cd crates/ow_whisk && rt run -- day < ../../examples/first.day)")
BODY = '{"exec":{"kind":"plain:1","code":"{\\"cases\\":[]}"},"annotations":[{"key":"note","value":"ü"}]}'
PATH = "/api/v1/namespaces"
PUT = ["-X", "PUT", "-d", BODY]
KEY = ["-H", "X-Whisk-Key: k1"]
OTHER_KEY = ["-H", "X-Whisk-Key: k2"]
NO_KEY = ["-H", "X-Whisk-Key:"]
UNKNOWN_KEY = {"code": 23, "error": "The key is unknown."}
NOT_FOUND = {"code": 14, "error": "The resource does not exist."}
EXISTS = {"code": 17, "error": "The resource exists."}
NOT_GRANTED = {"code": 24, "error": "The namespace is not granted."}
BAD_HEAD = {"code": 35, "error": "The request head is malformed."}
NO_ROUTE = {"code": 36, "error": "There is no such route."}
BAD_METHOD = {"code": 37, "error": "The method is not allowed."}
TOO_LARGE = {"code": 38, "error": "The body has too many bytes."}
BAD_LIMIT = {"code": 39, "error": "The query value limit is wrong."}

# What curl is told to send, beside the URL and the key of anna; the URL's path; the status and the phrase; the members that the body
# must have, or what stands in a list: texts, or the names of rows. The requests stand in the order in which the service gets them.
CASES = [
    ([], PATH, 200, "OK", ["guest", "shop"]),
    (OTHER_KEY, PATH, 200, "OK", ["shop"]),
    (NO_KEY, PATH, 401, "Unauthorized", UNKNOWN_KEY),
    (PUT, PATH + "/_/actions/hello", 200, "OK", {"name": "hello", "namespace": "guest", "version": "0.0.1"}),
    (PUT, PATH + "/_/actions/hello", 409, "Conflict", EXISTS),
    (PUT, PATH + "/guest/actions/h%65llo?a=%41+b&overwrite=%74rue&overwrite=x", 200, "OK",
     {"name": "hello", "version": "0.0.2", "annotations": [{"key": "note", "value": "ü"}]}),
    (PUT, PATH + "/_/actions/a%20b", 200, "OK", {"name": "a b"}),
    ([], PATH + "/_/actions", 200, "OK", ["a b", "hello"]),
    (["--http1.0"], PATH + "/_/actions?skip=1&limit=0", 200, "OK", ["hello"]),
    (["-H", "Connection: Close"], PATH + "/_/actions?limit=x", 400, "Bad Request", BAD_LIMIT),
    ([], PATH + "/other/actions", 403, "Forbidden", NOT_GRANTED),
    (["-X", "DELETE"], PATH + "/_/actions/hello", 200, "OK", {"name": "hello", "version": "0.0.2"}),
    ([], PATH + "/_/actions/hello", 404, "Not Found", NOT_FOUND),
    ([], "/", 404, "Not Found", NO_ROUTE),
    (["-X", "POST", "-d", ""], PATH, 405, "Method Not Allowed", BAD_METHOD),
    (["-I"], PATH, 405, "Method Not Allowed", None),
    (PUT + ["-H", "Transfer-Encoding: chunked"], PATH + "/_/actions/n", 400, "Bad Request", BAD_HEAD),
    (PUT + ["-H", "Content-Encoding: gzip"], PATH + "/_/actions/n", 400, "Bad Request", BAD_HEAD),
    (["-X", "PUT", "-H", "Expect:", "--data-binary", "@-"], PATH + "/_/actions/n", 413, "Payload Too Large", TOO_LARGE),
]


def whole_request(link):
    """All bytes of the request that a client sends."""
    seen = b""
    while b"\r\n\r\n" not in seen:
        seen += link.recv(65536)
    head, _, body = seen.partition(b"\r\n\r\n")
    if re.search(rb"(?im)^transfer-encoding: *chunked", head):
        while not body.endswith(b"0\r\n\r\n"):
            body += link.recv(65536)
    length = re.search(rb"(?im)^content-length: *(\d+)", head)
    while length and len(body) < int(length[1]):
        body += link.recv(65536)
    return head + b"\r\n\r\n" + body


def reply_to(day, request):
    """The reply's bytes, as the program writes them to an `ask`."""
    day.stdin.write(b"ask %d\n" % len(request) + request + b"\n")
    day.stdin.flush()
    word, size = day.stdout.readline().split()
    expect(word, b"reply", "the answer to an ask")
    reply = day.stdout.read(int(size))
    expect(day.stdout.read(1), b"\n", "what stands behind a reply")
    return reply


def serve_one(listener, day, seen):
    """Answers one client by what the program writes, and keeps it."""
    link, _ = listener.accept()
    with link:
        reply = reply_to(day, whole_request(link))
        seen.append(reply)
        link.sendall(reply)


class Pretended:
    """The bytes of a reply, in the place of a socket."""

    def __init__(self, reply):
        self.reply = reply

    def makefile(self, *_):
        return io.BytesIO(self.reply)


def parsed(reply, method):
    response = http.client.HTTPResponse(Pretended(reply), method=method)
    response.begin()
    return response, response.read()


def expect(got, wanted, what):
    if got != wanted:
        sys.exit(f"{what}: got {got!r}, wanted {wanted!r}")


def check_body(body, wanted, what):
    if wanted is None:
        return
    value = json.loads(body)
    if isinstance(wanted, list):
        expect([row if isinstance(row, str) else row["name"] for row in value], wanted, what)
    elif "code" in wanted:
        expect(value, wanted, what)
    else:
        expect({name: value[name] for name in wanted}, wanted, what)


def check_curl(listener, day, words, path, status, phrase, wanted):
    seen = []
    server = threading.Thread(target=serve_one, args=(listener, day, seen))
    server.start()
    url = f"http://127.0.0.1:{listener.getsockname()[1]}{path}"
    head_only = "-I" in words
    key = [] if words in (OTHER_KEY, NO_KEY) else KEY
    done = subprocess.run(
        ["curl", "-sS", "--path-as-is", *key, *words, "-w", "\n%{http_code}", *(["-o", "/dev/null"] if head_only else []), url],
        input=b"x" * 4194305, stdout=subprocess.PIPE, check=True, timeout=20)
    server.join()
    what = f"{words} {path}"
    response, body = parsed(seen[0], "HEAD" if head_only else "GET")
    expect((response.version, response.status, response.reason), (11, status, phrase), what)
    expect(response.headers["Content-Type"], "application/json", "the type")
    if not head_only:
        expect(response.headers["Content-Length"], str(len(body)), "the length")
    expect(done.stdout, body + f"\n{status}".encode(), "what curl got")
    check_body(body, wanted, what)


def main():
    with socket.create_server(("127.0.0.1", 0)) as listener, subprocess.Popen(
        [PROGRAM, "day", "--table", TABLE], stdin=subprocess.PIPE, stdout=subprocess.PIPE
    ) as day:
        listener.settimeout(20)
        for case in CASES:
            check_curl(listener, day, *case)
        day.stdin.write(b"end\n")
        day.stdin.close()
        expect(day.wait(timeout=20), 0, "the status of the day")
    print(f"{len(CASES)} requests of curl and their replies are read right on both sides")


main()
