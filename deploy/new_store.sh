#!/bin/sh
# Makes a new store whose pages have 512 bytes, for `serve --store FILE` and `day --store FILE`.
# usage: deploy/new_store.sh FILE
# The service writes whole pages, and makes a new file with pages of 4096 bytes: docs/STORE.md says what that costs. The file can be read
# by its owner alone. One that is there is left as it is. Needs Debian's package sqlite3.
set -eu
[ $# = 1 ] || { echo "usage: $0 FILE" >&2; exit 2; }
for file in "$1" "$1-wal" "$1-shm"; do
    [ ! -e "$file" ] || { echo "$file is there already" >&2; exit 1; }
done
umask 077
sqlite3 "$1" 'pragma page_size = 512' 'pragma journal_mode = wal' \
    'create table kept (key text primary key, text text not null)' > /dev/null
