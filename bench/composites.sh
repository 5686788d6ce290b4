#!/usr/bin/env bash
# How long trees of sequences and conductors take in a day, and a step of them after few and many recorded activations.
# Build the program first: cd crates/ow_whisk && rt run -- day < ../../examples/first.day
set -eu
cd "$(dirname "$0")/.."
program=${1:-crates/ow_whisk/out/ow_whisk}
[ -x "$program" ] || { echo "build the program first: cd crates/ow_whisk && rt run -- day < ../../examples/first.day"; exit 1; }
exec python3 bench/composites.py "$program"
