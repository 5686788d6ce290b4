#!/usr/bin/env python3
# A program for an action of the kind program:1: its parameters are on standard input, its answer goes to standard output,
# and each line of standard error is a line of the log. It is a row of the table of a service:
#
#     { cat examples/office.csv; echo "program,total,$PWD/examples/total.py,,,"; } > programs.csv
#     crates/ow_whisk/out/ow_whisk serve --port 3233 --table programs.csv
#
# and in another terminal, where the last two are answered {"total":42} and {"logs":["numbers: 3"]} as the first of the namespace:
#
#     api=http://localhost:3233/api/v1/namespaces/_
#     curl -X PUT -H 'X-Whisk-Key: k1' $api/actions/total -d '{"exec":{"kind":"program:1","code":"total"}}'
#     curl -X POST -H 'X-Whisk-Key: k1' "$api/actions/total?blocking=true&result=true" -d '{"numbers":[1,2,39]}'
#     curl -H 'X-Whisk-Key: k1' $api/activations/00000000000000010000000000000001/logs
import json
import sys

numbers = json.load(sys.stdin)["numbers"]
print("numbers:", len(numbers), file=sys.stderr)
print(json.dumps({"total": sum(numbers)}))
