#!/usr/bin/env python3
"""Shows that each statement is answered at once: holds a pipe to the program open, writes a statement, and
writes the next one only when the answer to the last has come. Build the program first:
(cd crates/ow_whisk && rt run -- day < ../../examples/first.day)"""
import os
import select
import subprocess
import sys

PROGRAM = os.path.join(os.path.dirname(__file__), "..", "crates", "ow_whisk", "out", "ow_whisk")
if not os.access(PROGRAM, os.X_OK):
    sys.exit("build the program first: (cd crates/ow_whisk && rt run -- day < ../../examples/first.day)")
ECHO = "/whisk.system/utils/echo"
ID = "00000000000000000000000000000001"
STATEMENTS = [
    (f'call {ECHO} {{"a":1}}', f"accepted {ID}"),
    ("next", f"run 1 {ID} slot 0 gen 1 cold"),
    ("next", "nothing empty"),
    ("drain", "open 1"),
    ('answer 1 {"a":1}', f"recorded {ID} 0"),
    ("drain", "drained 1"),
]


def answer(out):
    """The line that comes within two seconds."""
    line = b""
    while not line.endswith(b"\n"):
        if not select.select([out], [], [], 2.0)[0]:
            sys.exit("no answer within two seconds")
        line += os.read(out.fileno(), 1)
    return line.decode().rstrip("\n")


def main():
    with subprocess.Popen(
        [PROGRAM, "day"], stdin=subprocess.PIPE, stdout=subprocess.PIPE, bufsize=0
    ) as child:
        for statement, wanted in STATEMENTS:
            child.stdin.write(statement.encode() + b"\n")
            told = answer(child.stdout)
            print(f"{statement:45} {told}")
            if told != wanted:
                sys.exit(f"wanted: {wanted}")
        child.stdin.write(b"end\nwhat stands behind end is not looked at\n")
        status = child.wait(timeout=2)
        print(f"{'end':45} status {status}, with the pipe still open")
        sys.exit(status)


main()
