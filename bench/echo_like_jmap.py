"""Answers requests of `Core/echo` on standard input by Python's `json`, with the lines that `jmap batch` writes."""
import json
import sys

write = sys.stdout.write
for line in sys.stdin:
    responses = [[name, arguments, call] for name, arguments, call in json.loads(line)["methodCalls"]]
    reply = {"methodResponses": responses, "sessionState": "0"}
    write(json.dumps(reply, ensure_ascii=False, sort_keys=True, separators=(",", ":")) + "\n")
