#!/usr/bin/env bash
# Prints the nanoseconds of a put, a look and a take on the board, on one thread and on four.
# The argument is the number of rounds that each thread makes: 10,000,000 if left out.
set -eu
cd "$(dirname "$0")/../crates/ow_board_bench"
rt run -- "${1:-10000000}"
