#!/usr/bin/env bash
# Workers make turns over one board and one desk, while others ask, sweep and reap; then the book is made again, event by event.
# The arguments are for how many seconds, and how many workers: 10 and 10 if left out.
# No bench is proved at the gate, which takes each .rt file for a crate's. So the program stands in bench/workers under other names,
# and is built in a copy of the crates, as one more crate: without a proof, with checks of memory, and so not fast.
set -eu
cd "$(dirname "$0")/.."
copy=$(mktemp -d)
trap 'rm -rf "$copy"' EXIT
tar -cf - --exclude=out crates crates.txt HANDLES | tar -xf - -C "$copy"
mkdir -p "$copy/crates/ow_worker_bench/src"
for file in bench/workers/*.rt.txt; do
    name=$(basename "$file" .txt)
    cp "$file" "$copy/crates/ow_worker_bench/src/$name"
done
echo "ow_worker_bench: $(cat bench/workers/libraries.txt)" >> "$copy/crates.txt"
cd "$copy/crates/ow_worker_bench"
rt try -- "$@"
