#!/usr/bin/env python3
"""compare_runs.py OLD NEW [--small N] [--large N] [--seed S]: gives random scenarios to two builds of skern, and compares what
`run` writes, on both outputs, and its statuses, byte for byte.

The small scenarios, 10,000 where nothing is said, have up to 300 turns, and all calls and filters in no order. The large ones,
200, have 100,000 turns with 1 to 1000 processes, each of one kind, and of each kind the slowest is told, by NEW's processor
time. The same seed makes the same scenarios. The status is 0 where all agree; a scenario on which the two differ is written
to a file of its own, which is named."""
import argparse
import os
import random
import resource
import subprocess
import sys
import tempfile

SIGNALS = [1, 2, 9, 10, 12, 15, 17, 18, 19, 20, 21, 31]
ODD = [0, 1, 2, 3, 5, 33, 64, 4096, 2**31, 2**32 - 1, 2**32, 2**63, 2**64 - 1]
FILTERS = {
    "allow": ["ret allow"],
    "log": ["ldabs 0", "jeq 39 +0 +1", "ret log/3", "ret allow"],
    "errno": ["ldabs 0", "jeq 110 +0 +1", "ret errno/13", "ret allow"],
    "errnos": ["ldabs 16", "jge 3 +0 +1", "ret errno/5000", "ret allow"],
    "trap": ["ldabs 0", "jeq 24 +0 +1", "ret trap/7", "ret allow"],
    "kill": ["ldabs 0", "jeq 102 +0 +1", "ret kill_process", "ret allow"],
    "thread": ["ldabs 0", "jeq 107 +0 +1", "ret kill_thread", "ret allow"],
    "returns": ["ldabs 0", "jeq 15 +0 +1", "ret errno/0", "ret allow"],
    "exits": ["ldabs 0", "jeq 231 +0 +1", "ret errno/1", "ret allow"],
    "trace": ["ldabs 8", "jset 8 +0 +1", "ret trace/2", "ret allow"],
    "notif": ["ldabs 0", "jeq 62 +0 +1", "ret user_notif", "ret allow"],
}


def call(dice, names):
    """A random line of a program."""
    pid = lambda: str(dice.choice([0, 1, 2, 3, 4, 5, 7, 11, dice.randrange(1, 40)]))
    signal = lambda: str(dice.choice(SIGNALS))
    odd = lambda: str(dice.choice(ODD))
    minus = lambda: f"-{dice.choice([1, 1, 2, 3, 9])}"
    lines = [
        lambda: dice.choice(["getpid", "getppid", "sched_yield", "getuid", "geteuid", "getpgrp", "getresuid", "setsid", "rt_sigpending"]),
        lambda: dice.choice(["fork", f"fork {dice.choice(names)}"]),
        lambda: f"wait4 {dice.choice([minus(), minus(), '0', pid()])}{dice.choice(['', '', ' 0 1', ' 0 3', ' 0 10', ' 0 2', f' 0 {odd()}'])}",
        lambda: f"kill {dice.choice([pid(), pid(), minus(), '-' + pid()])} {dice.choice([signal(), signal(), '0', odd()])}",
        lambda: f"rt_sigaction {signal()} {dice.choice(['0', '1', '&' + dice.choice(names), odd()])}{dice.choice(['', ' 0x4000', ' 0 0 0x200'])}",
        lambda: f"rt_sigprocmask {dice.randrange(4)} {dice.choice(['0x200', '0x10000', '0xffffffff', odd()])}",
        lambda: dice.choice(["pause", "rt_sigreturn", f"exit {dice.randrange(300)}", f"exit_group {dice.randrange(300)}"]),
        lambda: f"execve {dice.choice(['@' + dice.choice(names), odd()])}",
        lambda: f"setpgid {dice.choice(['0', pid()])} {dice.choice(['0', pid()])}",
        lambda: f"{dice.choice(['getpgid', 'getsid'])} {pid()}",
        lambda: f"setuid {dice.choice(['0', '1000', odd()])}",
        lambda: f"setresuid {dice.choice(['-1', '0', '1000'])} {dice.choice(['-1', '0', '1000', '1001'])} {dice.choice(['-1', '0', '1000'])}",
        lambda: dice.choice(["prctl 38 1", "prctl 39", "prctl 36 1", "prctl 37", f"prctl {odd()} {odd()}"]),
        lambda: f"seccomp {dice.choice(['1', '1', '1', odd()])} {dice.choice(['0', '0', '0', '1'])} {dice.choice(['@' + it for it in FILTERS] + [odd()])}",
        lambda: f"call {dice.choice([0, 1, 39, 56, 62, 135, 317, 511, 512, 2**32 - 1])} {odd()} {odd()}",
    ]
    return dice.choices(lines, weights=[6, 4, 4, 4, 4, 2, 2, 2, 3, 2, 2, 2, 2, 2, 2])[0]()


def block(kind, name, lines):
    return [f"{kind} {name}", *lines, "end"]


def filters():
    return [line for name, lines in FILTERS.items() for line in block("filter", f"{name}", lines)]


def small(dice):
    names = [f"p{at}" for at in range(dice.randrange(1, 7))]
    lines = [f"turns {dice.choice([1, 7, 60, 300])}"]
    lines += ["subreapers"] * dice.randrange(2) + filters()
    for name in names:
        said = dice.choice(["", "", f" owner {dice.choice([0, 1000])}", " owner 1000 setuid"])
        calls = [call(dice, names) for _ in range(dice.randrange(30))]
        lines += block("program", f"{name}{said}", calls)
    return lines


def again(name, lines):
    return block("program", name, [lines[at % len(lines)] for at in range(999)] + [f"execve @{name}"])


def large(dice, kind, processes):
    """A scenario of 100,000 turns, whose process 1 forks as many others as there is room for in its script."""
    first = [dice.choice(["fork work", "fork work", "fork idle"]) for _ in range(min(processes - 1, 980))]
    idle = block("program", "idle", [dice.choice(["pause", "wait4 -1", "sched_yield"])])
    work = {
        "calls": ["getpid", "sched_yield", "getresuid", "call 135 0"],
        "forks": ["fork kid", "wait4 -1", "getpid"],
        "orphans": ["fork parent", "getpid"],
        "signals": ["kill 1 10", "getpid", "kill 0 12", f"kill {dice.randrange(1, processes + 1)} 10"],
        "stops": [f"kill {dice.randrange(2, processes + 2)} 19", "getpid", f"kill {dice.randrange(2, processes + 2)} 18"],
        "groups": ["setpgid 0 0", "getpgid 0", "fork kid", "setpgid 0 1", "wait4 -1"],
        "filters": ["getpid", "getppid", "kill 1 0", "sched_yield", "call 0"],
        "waits": ["fork kid", "fork kid", "wait4 -1 0 1", "wait4 -1", "wait4 -1 0 3"],
    }[kind]
    before = ["rt_sigaction 10 &handler", "rt_sigaction 12 1"] if kind in ("signals", "filters") else []
    if kind == "filters":
        before += ["prctl 38 1"] + [f"seccomp 1 0 @{dice.choice(['allow', 'errno', 'log', 'errnos'])}" for _ in range(dice.randrange(1, 8))]
    lines = ["turns 100000", *filters(), *block("program", "init", before + first + ["execve @work"]), *again("work", work), *idle]
    lines += block("program", "kid", [f"exit {dice.randrange(9)}"]) + block("program", "handler", ["getpid"])
    return lines + block("program", "parent", ["fork kid", "fork idle", "exit 0"])


KINDS = ["calls", "forks", "orphans", "signals", "stops", "groups", "filters", "waits"]


def told(program, text):
    before = resource.getrusage(resource.RUSAGE_CHILDREN)
    ran = subprocess.run([program, "run"], input=text, capture_output=True, check=False)
    after = resource.getrusage(resource.RUSAGE_CHILDREN)
    took = after.ru_utime + after.ru_stime - before.ru_utime - before.ru_stime
    return (ran.returncode, ran.stdout, ran.stderr), took


class Comparison:
    def __init__(self, old, new):
        self.old, self.new, self.differ = old, new, 0

    def of(self, lines):
        """Both run the scenario. The turns that were made, and the seconds of the new one."""
        text = ("\n".join(lines) + "\n").encode()
        (before, _), (now, took) = told(self.old, text), told(self.new, text)
        if before != now:
            self.differ += 1
            with tempfile.NamedTemporaryFile("wb", suffix=".scenario", delete=False) as file:
                file.write(text)
            print(f"they differ on {file.name}")
        return now[1].count(b"\n") - 1, took, now


def main():
    words = argparse.ArgumentParser()
    words.add_argument("old")
    words.add_argument("new")
    words.add_argument("--small", type=int, default=10_000)
    words.add_argument("--large", type=int, default=200)
    words.add_argument("--seed", type=int, default=1)
    given = words.parse_args()
    dice, comparison = random.Random(given.seed), Comparison(os.path.abspath(given.old), os.path.abspath(given.new))
    ends, lines = {}, 0
    for _ in range(given.small):
        turns, _, (status, out, _) = comparison.of(small(dice))
        lines += max(turns, 0)
        end = f"status {status}" if status else " ".join(out.decode().splitlines()[-1].split()[:2])
        ends[end] = ends.get(end, 0) + 1
    print(f"{given.small} small scenarios, {lines} turns: {', '.join(f'{count} {end}' for end, count in sorted(ends.items()))}")
    slowest = {}
    for at in range(given.large):
        kind, processes = KINDS[at % len(KINDS)], dice.choice([1, 2, 5, 10, 30, 100, 300, 1000])
        turns, took, _ = comparison.of(large(dice, kind, processes))
        each = took / max(turns, 1) * 1e6
        slowest[kind] = max(slowest.get(kind, (0, 0, 0)), (each, processes, turns))
    for kind, (each, processes, turns) in sorted(slowest.items()):
        print(f"{kind}: at most {each:.2f} us a turn, with {processes} processes, of {turns} turns")
    print(f"{given.small + given.large} scenarios, {comparison.differ} differ")
    return int(comparison.differ > 0 or not given.small + given.large)


if __name__ == "__main__":
    sys.exit(main())
