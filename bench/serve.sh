#!/usr/bin/env bash
# Requests a second and latency of a running service by wrk, beside two common ways to answer the same request on the same machine in the
# same run, the memory that a request leaves, and the commits a second of a store.
# usage: bench/serve.sh [PROGRAM] [SECONDS]; PROGRAM is crates/ow_whisk/out/ow_whisk where it is left out, SECONDS 5.
# Debian's packages wrk and webhook are installed where they are missing. wrk takes processors from the servers that it measures.
# Each line of wrk is: connections, requests a second, the latencies below which 50 % and 99 % lie, and answers that aren't 2xx.
set -eu
cd "$(dirname "$0")/.."
program=$(realpath "${1:-crates/ow_whisk/out/ow_whisk}")
seconds=${2:-5}
[ -x "$program" ] || { echo "build the program first: cd crates/ow_whisk && rt run -- day < ../../examples/first.day"; exit 1; }
for package in wrk webhook; do
    command -v "$package" > /dev/null || apt-get install -y -q "$package" > /dev/null || { apt-get update -q; apt-get install -y -q "$package"; } > /dev/null
done
port=${PORT:-3299}
folder=$(mktemp -d -p . XXXXXX.tmp)
pid=
stop() {
    if [ -n "$pid" ]; then
        kill -9 "$pid" 2> /dev/null || true
        wait "$pid" 2> /dev/null || true
        pid=
    fi
}
trap 'stop; rm -rf "$folder"' EXIT

printf '%s\n' 'namespace,1,guest,4294967295,4294967295,' 'key,k1,anna,guest,,' 'pool,4096,,,,' > "$folder/table"
echo_code='{"exec":{"kind":"plain:1","code":"{\"cases\":[{\"when\":{},\"give\":{\"$all\":true}}]}"}}'
actions=http://127.0.0.1:$port/api/v1/namespaces/_/actions

await() {
    for _ in $(seq 300); do
        if curl -s -o /dev/null "http://127.0.0.1:$port/"; then
            return
        fi
        sleep 0.1
    done
    echo "nothing listens on $port"
    exit 1
}

# The service anew, with the words given, and the action put.
serve() {
    stop
    "$program" serve --port "$port" --table "$folder/table" "$@" &
    pid=$!
    await
    curl -s -o /dev/null -X PUT -H 'X-Whisk-Key: k1' "$actions/echo?overwrite=true" -d "$echo_code"
}

# One line of wrk, with so many connections.
load() {
    wrk -t "$(($1 < 2 ? 1 : 2))" -c "$1" -d "${seconds}s" --latency -s "bench/$2" "$3" > "$folder/wrk"
    awk -v c="$1" '/50%/ { half = $2 } /99%/ { most = $2 } /Requests\/sec/ { rate = $2 } /Non-2xx/ { bad = $NF }
        END { printf "%6d connections %10.0f a second %10s %10s %8d not 2xx\n", c, rate, half, most, bad }' "$folder/wrk"
}

echoes() {
    answer=$(curl -s -X POST -H 'X-Whisk-Key: k1' -H 'Content-Type: application/json' "$1" -d '{"a":1}')
    [ "$answer" = '{"a":1}' ] || { echo "the answer is $answer"; exit 1; }
    for connections in 1 8 64; do
        load "$connections" serve_post.lua "$1"
    done
}

memory() {
    awk '/VmRSS/ { print $2 }' "/proc/$pid/status"
}

# How many activations were recorded, which is the count in the id of the next.
accepted() {
    id=$(curl -s -X POST -H 'X-Whisk-Key: k1' "$actions/echo" | sed 's/.*"\([0-9a-f]*\)".*/\1/')
    echo $((16#${id:16}))
}

echo "serve: blocking echo with its result"
for connections in 1 8 64; do
    serve
    before=$(memory)
    load "$connections" serve_post.lua "$actions/echo?blocking=true&result=true"
    count=$(accepted)
    after=$(memory)
    echo "       $count activations, $(((after - before) * 1024 / count)) bytes of memory each"
done
echo "serve: GET of an action"
for connections in 1 8 64; do
    serve
    load "$connections" serve_get.lua "$actions/echo"
done
echo "serve --store: blocking echo with its result, where each acceptance and each end is a commit"
for connections in 1 8 64; do
    rm -f "$folder/store" "$folder/store-wal"
    serve --store "$folder/store"
    load "$connections" serve_post.lua "$actions/echo?blocking=true&result=true"
    echo "       $((($(accepted) + $(awk '/requests in/ { print $1 }' "$folder/wrk")) / seconds)) commits a second"
done
stop
echo "a Python loop of commits of one row, ahead of a log and in full safety"
python3 bench/serve_commits.py "$folder" "$seconds"

echo "webhook with a shell script that prints its argument"
printf '#!/bin/sh\nprintf "%%s" "$1"\n' > "$folder/echo.sh"
chmod +x "$folder/echo.sh"
printf '[{"id": "echo", "execute-command": "%s", "include-command-output-in-response": true, "pass-arguments-to-command": [{"source": "entire-payload"}]}]' \
    "$(realpath "$folder")/echo.sh" > "$folder/hooks.json"
webhook -ip 127.0.0.1 -port "$port" -hooks "$folder/hooks.json" > /dev/null 2>&1 &
pid=$!
await
echoes "http://127.0.0.1:$port/hooks/echo"
stop
echo "Python's ThreadingHTTPServer"
python3 bench/serve_echo.py "$port" 2> /dev/null &
pid=$!
await
echoes "http://127.0.0.1:$port/"
