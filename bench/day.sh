#!/usr/bin/env bash
# How fast the program carries out a day of 300,000 statements (a call, a next and an answer, 100,000 times),
# beside a plain Python loop that reads the same lines, parses each JSON text and writes as many lines;
# and how its memory grows. Build the program first: cd crates/ow_whisk && rt run -- day < ../../examples/first.day
set -eu
cd "$(dirname "$0")/.."
program=crates/ow_whisk/out/ow_whisk
[ -x "$program" ] || { echo "build the program first: cd crates/ow_whisk && rt run -- day < ../../examples/first.day"; exit 1; }
python=$(python3 -c 'import sys; print(sys.executable)')
exec "$python" bench/day.py "$program" "$python"
