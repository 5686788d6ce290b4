"""Times the program and the Python loop over the same day, and measures the program's memory. The day's action stands in a
namespace whose limits are the greatest that an office table may give, so none is reached."""
import json
import os
import subprocess
import sys
import tempfile
import time

ROUNDS = 5
ACTIVATIONS = 100_000
TABLE = "namespace,1,guest,4294967295,4294967295,4294967295\nkey,k1,anna,guest,,\n"


def write_table(path):
    """Writes the office table of the benches, with one namespace and one key."""
    with open(path, "w") as table:
        table.write(TABLE)


def ask(method, path, body=b"", kind="actions"):
    """The statement of a request for an entity of that kind, with that key."""
    head = [f"{method} /api/v1/namespaces/_/{kind}/{path} HTTP/1.1", "Host: localhost", "X-Whisk-Key: k1"]
    if body:
        head += ["Content-Type: application/json", f"Content-Length: {len(body)}"]
    data = "\r\n".join([*head, "", ""]).encode() + body
    return b"ask %d\n%s\n" % (len(data), data)


def every():
    """A body of an action that gives back all that it is given."""
    code = json.dumps({"cases": [{"when": {}, "give": {"$all": True}}]}, separators=(",", ":"))
    return json.dumps({"exec": {"kind": "plain:1", "code": code}}, separators=(",", ":")).encode()


def run(command, day):
    """The wall time in seconds, with the start of the process, and the number of lines written."""
    with open(day, "rb") as source, tempfile.TemporaryFile() as out:
        start = time.perf_counter()
        status = subprocess.call(command, stdin=source, stdout=out)
        seconds = time.perf_counter() - start
        if status != 0:
            sys.exit(f"{command} ended with {status}")
        out.seek(0)
        return seconds, sum(1 for _ in out)


def best(command, day):
    runs = [run(command, day) for _ in range(ROUNDS)]
    return min(seconds for seconds, _ in runs), runs[0][1]


def peak(command, day):
    """The greatest memory in bytes that the process had when it had carried out the day and waited for more."""
    with open(day, "rb") as source, subprocess.Popen(
        command, stdin=subprocess.PIPE, stdout=subprocess.DEVNULL
    ) as child:
        while piece := source.read(1 << 16):
            child.stdin.write(piece)
        child.stdin.flush()
        waiting = 0
        while waiting < 10:
            time.sleep(0.02)
            with open(f"/proc/{child.pid}/stat") as stat:
                state = stat.read().rsplit(")", 1)[1].split()[0]
            waiting = waiting + 1 if state == "S" else 0
        with open(f"/proc/{child.pid}/status") as status:
            lines = dict(line.split(":", 1) for line in status)
        child.stdin.close()
        return int(lines["VmHWM"].split()[0]) * 1024


def write_day(path, count):
    """An action is put, and then so often called, ordered and answered."""
    with open(path, "wb") as day:
        day.write(ask("PUT", "every", every()))
        for k in range(1, count + 1):
            day.write(b'call /guest/every {"a":%d}\nnext\nanswer %d {"a":%d}\n' % (k, k, k))


def main():
    program, python = sys.argv[1], sys.argv[2]
    loop = [python, os.path.join(os.path.dirname(__file__), "day_loop.py")]
    with tempfile.TemporaryDirectory() as folder:
        table, empty, full, idle = (os.path.join(folder, name) for name in ("table", "empty", "full", "idle"))
        write_table(table)
        command = [program, "day", "--table", table]
        write_day(empty, 0)
        write_day(full, ACTIVATIONS)
        with open(idle, "w") as day:
            day.write("next\n" * 3_000_000)
        ours, lines = best(command, full)
        theirs, their_lines = best(loop, full)
        lines -= run(command, empty)[1]
        their_lines -= run(loop, empty)[1]
        if not lines == their_lines == 3 * ACTIVATIONS:
            sys.exit(f"wrote {lines} and {their_lines} lines")
        nothing, memory = peak(command, empty), peak(command, full)
        held = peak(command, idle)
        print(f"program      {ours:.3f} s for {lines} statements, peak memory {memory / 1e6:.1f} MB")
        print(f"Python loop  {theirs:.3f} s for the same lines")
        print(f"the program is {theirs / ours:.1f} times as fast (best of {ROUNDS} runs each)")
        print(f"it keeps {(memory - nothing) / ACTIVATIONS:.0f} bytes of each activation")
        print(f"and {(held - nothing) / 1e6:.2f} MB more for 3,000,000 statements that keep nothing than for none")


if __name__ == "__main__":
    main()
