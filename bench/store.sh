#!/usr/bin/env bash
# Commits a second of stores with pages of 4096 and of 512 bytes, beside a Python loop of commits of one row, with small results and with
# results of 1 MB; and what is stored after a SIGKILL.
# usage: bench/store.sh [PROGRAM] [ROUNDS] [PLACE]; PROGRAM is crates/ow_whisk/out/ow_whisk where it is left out, ROUNDS 3.
# The files lie in a folder of PLACE while it runs, which is the repository where it is left out: it measures the disk of that. Over
# /dev/shm it measures what isn't the disk. Needs Debian's packages python3 and sqlite3.
set -eu
cd "$(dirname "$0")/.."
program=$(realpath "${1:-crates/ow_whisk/out/ow_whisk}")
[ -x "$program" ] || { echo "build the program first: cd crates/ow_whisk && rt run -- day < ../../examples/first.day"; exit 1; }
folder=$(mktemp -d -p "${3:-.}" XXXXXX.tmp)
trap 'rm -rf "$folder"' EXIT
date -u '+%Y-%m-%d %H:%M UTC'
echo "$(nproc) processors, $(sed -n 's/^model name[^:]*: //p' /proc/cpuinfo | head -1); $(stat -f -c %T "$folder"), kernel $(uname -r)"
echo "load of the machine: $(cut -d ' ' -f 1-3 /proc/loadavg)"
python3 bench/store.py "$program" "$folder" deploy/new_store.sh "${2:-3}"
