#!/usr/bin/env bash
# Times `drill N 1` of the program beside a plain program in Rust (bench/drill.rs) with the same counts, records, limits and event log, in the
# same run: processor seconds, microseconds a call, and memory. Their lines must be the same.
# usage: bench/drill.sh PROGRAM [N..]      100,000, 300,000 and 1,000,000 calls without numbers. It needs rustc and Debian's package time.
set -eu
program=$(realpath "$1"); shift
here=$(dirname "$(realpath "$0")")
[ $# -gt 0 ] || set -- 100000 300000 1000000
folder=$(mktemp -d); trap 'rm -rf "$folder"' EXIT; cd "$folder"
rustc -O --edition 2021 -o plain "$here/drill.rs"
timed() { /usr/bin/env time -o times -f "%U %S %M" "$@"; }
# What was timed last: its name, the number of calls.
shown() { awk -v name="$1" -v n="$2" '{ printf "%-8s %8d calls %7.2f s %7.2f us a call %9d kB\n", name, n, $1 + $2, ($1 + $2) * 1e6 / (n > 0 ? n : 1), $3 }' times; }
for n; do
  timed "$program" drill "$n" 1 > ours; shown ow_whisk "$n"
  timed ./plain "$n" 1 > theirs; shown plain "$n"
  cmp ours theirs
done
cat ours
