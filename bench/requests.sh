#!/usr/bin/env bash
# How fast the program carries out requests, and what it keeps of large ones: days that a script makes.
# Build the program first: cd crates/ow_whisk && rt run -- day < ../../examples/first.day
set -eu
cd "$(dirname "$0")/.."
program=crates/ow_whisk/out/ow_whisk
[ -x "$program" ] || { echo "build the program first: cd crates/ow_whisk && rt run -- day < ../../examples/first.day"; exit 1; }
exec python3 bench/requests.py "$program"
