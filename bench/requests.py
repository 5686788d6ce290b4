"""Times days of requests: puts of actions in rising, falling and mixed order of their names, puts in the place of
what stands, gets among few and many actions, fires of triggers with few and many rules; and measures the memory of a day that calls one
large action often."""
import json
import random
import subprocess
import sys
import tempfile
import time

from day import ask, every, peak, write_table

ROUNDS = 3
PUTS = 10_000
GETS = 100_000
CALLS = 1_000
CODE_BYTES = 900_000


def action(code_bytes):
    """A body whose code has some so many bytes."""
    pad = "x" * max(0, code_bytes - 50)
    code = json.dumps({"cases": [{"when": {}, "give": {"pad": pad}}]}, separators=(",", ":"))
    return json.dumps({"exec": {"kind": "plain:1", "code": code}}, separators=(",", ":")).encode()


def seconds(command, statements):
    """The least wall time of a day, with the start of the process."""
    times = []
    for _ in range(ROUNDS):
        with tempfile.TemporaryFile() as day:
            day.writelines(statements)
            day.seek(0)
            start = time.perf_counter()
            status = subprocess.call(command, stdin=day, stdout=subprocess.DEVNULL)
            times.append(time.perf_counter() - start)
        if status != 0:
            sys.exit(f"the program ended with {status}")
    return min(times)


def show(command, what, before, statements):
    """The microseconds of each statement behind those before."""
    spent = seconds(command, before + statements) - seconds(command, before)
    print(f"{what:44} {spent / len(statements) * 1e6:6.1f} microseconds each")


def main():
    with tempfile.NamedTemporaryFile() as table:
        write_table(table.name)
        measure([sys.argv[1], "day", "--table", table.name])


def measure(command):
    """Prints what each kind of request takes."""
    names = [f"a{k:06}" for k in range(PUTS)]
    small = action(200)
    puts = [ask("PUT", name, small) for name in names]
    mixed = puts[:]
    random.Random(1).shuffle(mixed)
    show(command, f"put, {PUTS} names in rising order", [], puts)
    show(command, f"put, {PUTS} names in falling order", [], puts[::-1])
    show(command, f"put, {PUTS} names in mixed order", [], mixed)
    show(command, "put in the place of what stands", puts[:100], [ask("PUT", "a000007?overwrite=true", small)] * PUTS)
    show(command, "get, of 100 actions", puts[:100], [ask("GET", names[k % 100]) for k in range(GETS)])
    show(command, f"get, of {PUTS} actions", puts, [ask("GET", names[k * 7 % PUTS]) for k in range(GETS)])
    measure_fires(command)
    with tempfile.NamedTemporaryFile() as day:
        day.write(ask("PUT", "large", action(CODE_BYTES)))
        for k in range(1, CALLS + 1):
            day.write(b'call /guest/large {"a":%d}\nnext\nanswer %d {"a":%d}\n' % (k, k, k))
        day.flush()
        memory = peak(command, day.name)
        print(f"an action of {CODE_BYTES} bytes, called {CALLS} times: peak memory {memory / 1e6:.1f} MB")


def rules(count, trigger):
    """The puts of rules that join the trigger to one action."""
    body = json.dumps({"trigger": trigger, "action": "a"}).encode()
    return [ask("PUT", f"{trigger}{k:05}", body, "rules") for k in range(count)]


def measure_fires(command):
    """Prints what a fire and the turns of its activations take, beside an invocation and its turn."""
    begun = [ask("PUT", "a", every()), ask("PUT", "t", b"{}", "triggers"), ask("PUT", "u", b"{}", "triggers")]
    show(command, "invocation, with its turn", begun, [ask("POST", "a", b"{}") + b"turn\n"] * PUTS)
    for count in (1, 100, 1_000):
        fire = ask("POST", "t", b"{}", "triggers") + b"turn\n" * count
        show(command, f"fire of {count} rules, with their turns", begun + rules(count, "t"), [fire] * (PUTS // count))
    fire = ask("POST", "t", b"{}", "triggers") + b"turn\n"
    show(command, f"fire of 1 rule, with {PUTS} of another trigger", begun + rules(1, "t") + rules(PUTS, "u"), [fire] * PUTS)


if __name__ == "__main__":
    main()
