#!/bin/sh
# Copies a store, also while a service has it open, and looks at the copy.
# usage: deploy/copy_store.sh FILE COPY
# A service that has FILE open is held (SIGSTOP) while FILE and its log FILE-wal are copied, and goes on then: its clients wait so long. So
# the copy is what a kill at that moment would leave, which has all that was answered. The log is then taken into the copy, which is one
# file. It can be read by its owner alone. Needs Debian's packages sqlite3 and psmisc (fuser), and the rights of the service's user.
set -eu
[ $# = 2 ] || { echo "usage: $0 FILE COPY" >&2; exit 2; }
[ -f "$1" ] || { echo "there is no file $1" >&2; exit 1; }
for file in "$2" "$2-wal" "$2-shm"; do
    [ ! -e "$file" ] || { echo "$file is there already" >&2; exit 1; }
done
umask 077
holders=$(fuser "$1" 2> /dev/null || true)
go_on() {
    if [ -n "$holders" ]; then
        kill -CONT $holders
    fi
}
trap go_on EXIT
if [ -n "$holders" ]; then
    kill -STOP $holders
    for holder in $holders; do
        while cat "/proc/$holder/task/"*/status | grep '^State:' | grep -qv 'T (stopped)'; do
            sleep 0.01
        done
    done
fi
cp --reflink=auto "$1" "$2"
if [ -e "$1-wal" ]; then
    cp --reflink=auto "$1-wal" "$2-wal"
fi
go_on
trap - EXIT
result=$(sqlite3 "$2" 'pragma wal_checkpoint(truncate)' 'pragma integrity_check' | tail -n 1)
[ "$result" = ok ] || { echo "the copy is damaged: $result" >&2; exit 1; }
echo "copied $(sqlite3 "$2" 'select count(*) from kept') rows to $2"
