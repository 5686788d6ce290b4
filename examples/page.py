#!/usr/bin/env python3
# A web page, as a program for an action of the kind program:1. GET shows a form; POST answers what was typed into it.
# The web route turns `statusCode`, `headers` and `body` of the answer into the answer of HTTP.
# It is a row of the table of a service:
#
#     { cat examples/office.csv; echo "program,page,$PWD/examples/page.py,,,"; } > pages.csv
#     crates/ow_whisk/out/ow_whisk serve --port 3233 --table pages.csv
#
# and in another terminal
#
#     client/whisk property set --apihost localhost:3233 --auth k1
#     client/whisk action create page page --kind program:1 --web true
#     client/whisk action create start examples/redirect.json --web true
#     client/whisk action get page --url
#
# The last command prints http://localhost:3233/api/v1/web/guest/default/page, where a browser shows the page. The address that ends in
# `start` leads there too.
import html
import json
import sys

PAGE = """<!doctype html>
<html lang="en">
<head><meta charset="utf-8"><title>Greetings</title></head>
<body>
<h1>Greetings</h1>
%s
</body>
</html>
"""
FORM = """<form method="post">
<label>Your name <input name="name"></label>
<button>Greet me</button>
</form>"""


def answer(given):
    """The status of the answer, and what the page shows below its heading."""
    name = str(given.get("name", "")).strip()
    if given["__ow_method"] != "post":
        return 200, FORM
    if not name:
        return 400, "<p>Please type your name.</p>\n" + FORM
    return 200, "<p>Hello, %s!</p>" % html.escape(name)


status, part = answer(json.load(sys.stdin))
print("status", status, file=sys.stderr)
headers = {"Content-Type": "text/html; charset=utf-8", "Cache-Control": "no-store"}
print(json.dumps({"statusCode": status, "headers": headers, "body": PAGE % part}))
