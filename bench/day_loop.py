"""Reads the lines of a day, parses each JSON text, and writes a line for each."""
import json
import sys

for line in sys.stdin:
    word, _, rest = line.rstrip("\n").partition(" ")
    if word == "call":
        name, _, text = rest.partition(" ")
        json.loads(text)
        sys.stdout.write("accepted\n")
    elif word == "answer":
        run, _, text = rest.partition(" ")
        json.loads(text)
        sys.stdout.write("recorded\n")
    else:
        sys.stdout.write("run\n")
