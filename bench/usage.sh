#!/usr/bin/env bash
# Times the command `usage` beside what reading its store takes: an opening by a day of no statements, and a loop over the rows in Python.
# usage: bench/usage.sh PROGRAM [RECORDS]      a million records without a number. It needs Debian's packages python3 and time.
set -eu
program=$(realpath "$1"); records=${2:-1000000}
folder=$(mktemp -d); trap 'rm -rf "$folder"' EXIT; cd "$folder"
python3 - "$records" <<'P'
import sqlite3, sys
n = int(sys.argv[1])
con = sqlite3.connect("store.db")
con.execute("create table kept (key text primary key, text text not null)")
con.execute("insert into kept values ('version', '1')")
def row(i):
    count = i + 1
    start = (i * 7919) % 31_536_000_000
    code = i % 10 == 0
    response = '{"result":{"error":"x"},"status":"application error","statusCode":1,"success":false}' if code else '{"result":{"n":%d},"status":"success","statusCode":0,"success":true}' % i
    identity = "%016x%016x" % (1 + i % 20, count)
    return "done/" + identity, '{"activationId":"%s","annotations":[{"key":"kind","value":"plain:1"},{"key":"limits","value":{"logs":10,"memory":256,"timeout":60000}},{"key":"path","value":"guest/hello"},{"key":"waitTime","value":0}],"duration":%d,"end":%d,"logs":[],"name":"hello","namespace":"n%d","response":%s,"start":%d,"subject":"anna","version":"0.0.1"}' % (identity, i % 1000, start + i % 1000, i % 20, response, start)
con.executemany("insert into kept values (?, ?)", (row(i) for i in range(n)))
for k in range(20): con.execute("insert into kept values (?, ?)", ("count/%016x" % (1 + k), str(n)))
con.commit(); con.close()
P
timed() { /usr/bin/env time -o times -f "%U s of the processor, %e s, %M kB" "$@"; }
echo "$records records, $(stat -c %s store.db) bytes"
cp store.db opened.db
timed python3 -c 'import sqlite3; print(sum(len(k) + len(t) for k, t in sqlite3.connect("store.db").execute("select key, text from kept")))' > read.txt
echo "rows read by Python: $(cat times)"
timed "$program" usage --from 1970-01-01 --to 1970-12-31 --store store.db > usage.txt
echo "usage: $(cat times)"
timed "$program" day --store opened.db < /dev/null > day.txt
echo "an opening: $(cat times)"
echo "$(tail -1 usage.txt) ($(wc -l < usage.txt) lines)"
