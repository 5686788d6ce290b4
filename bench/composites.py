"""Times sequences and conductors in days: a sequence of 50 components, a conductor that runs 101 times, a tree of 16 composites; and a step
after few and many recorded activations. A tree is to end within a second, and the time of a step is not to grow. It is the time of the
processor, so that other work on the machine matters less."""
import json
import os
import subprocess
import sys
import tempfile

from day import ask, every, write_table

ROUNDS, TREES = 3, 400
ECHO = "/whisk.system/utils/echo"


def body(**fields):
    return json.dumps(fields, separators=(",", ":")).encode()


def sequence(*names):
    return body(exec={"kind": "sequence", "components": list(names)})


def conductor(*cases):
    code = json.dumps({"cases": [{"when": when, "give": give} for when, give in cases]}, separators=(",", ":"))
    return body(exec={"kind": "plain:1", "code": code}, annotations=[{"key": "conductor", "value": True}])


# The name of a composite, the puts that make it, and how many turns one call of it takes.
ONLY_RUNS = conductor(({}, {"action": "nothing"}))
BOTH = conductor(({}, {"action": ECHO}))
TREE = [
    ("a sequence of 50 components", [ask("PUT", "s50", sequence(*[ECHO] * 50))], "s50", 50),
    ("a conductor of 101 runs", [ask("PUT", "runs", ONLY_RUNS)], "runs", 101),
    ("a conductor of 101 runs and 50 components", [ask("PUT", "both", BOTH)], "both", 151),
    ("16 sequences, one in the other", [ask("PUT", f"d{n}", sequence(f"d{n + 1}" if n < 16 else ECHO)) for n in range(1, 17)], "d1", 1),
]


def called(name, turns):
    """One call, with the turns that it takes. Then nothing waits."""
    return b"call /guest/%s {}\n" % name.encode() + b"turn\n" * turns


def seconds(command, statements):
    """The least time of the processor that a day takes, with the start of the process."""
    times = []
    for _ in range(ROUNDS):
        with tempfile.TemporaryFile() as day:
            day.writelines(statements)
            day.seek(0)
            child = subprocess.Popen(command, stdin=day, stdout=subprocess.DEVNULL)
            _, status, used = os.wait4(child.pid, 0)
            times.append(used.ru_utime + used.ru_stime)
        if status != 0:
            sys.exit(f"the program ended with {status}")
    return min(times)


def measure(command):
    for what, puts, name, turns in TREE:
        spent = seconds(command, [*puts, called(name, turns) * TREES]) - seconds(command, puts)
        each = spent / TREES
        print(f"{what:44} {each * 1e3:6.2f} ms, {each / turns * 1e6:6.1f} microseconds for each turn")
    what, puts, name, turns = TREE[0]
    for count in (100, 10_000, 100_000):
        before = [*puts, ask("PUT", "every", every()), *(b'call /guest/every {"a":%d}\nturn\n' % k for k in range(count))]
        spent = seconds(command, [*before, called(name, turns) * TREES]) - seconds(command, before)
        print(f"a component after {count:7,} recorded activations {spent / TREES / turns * 1e6:10.1f} microseconds with its turn")


def main():
    with tempfile.NamedTemporaryFile() as table:
        write_table(table.name)
        measure([sys.argv[1], "day", "--table", table.name])


if __name__ == "__main__":
    main()
