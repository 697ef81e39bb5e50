#!/usr/bin/env python3
"""Compares the entry of a profile that `ask why` names with the order in which runtimes of containers take the entries.

check_entries.py [PROFILE..]: of each profile, and else of those of examples/profiles, without a capability, with docker's and
with all, `ask why` is asked about each call of x86-64 that an entry names: at the numbers that conditions compare, beside them,
and where all conditions of an entry hold. The order is told a second time here. docker keeps the entries that hold with the
capabilities, on the architecture and on the kernel: setupSeccomp of its profiles/seccomp/seccomp_linux.go. runc passes over an
entry that does what the default does: matchCall of its libcontainer/seccomp/seccomp_linux.go. Of what is left libseccomp lets
the first entry without conditions stand for its call, and else asks for the conditions of each: _db_rule_add of its src/db.c.

The line of an entry is found a second time by python's reader of JSON.

Prints each problem, and at last 'N passed, M failed'."""
import json
import os
import subprocess
import sys
from collections.abc import Iterator
from concurrent.futures import ThreadPoolExecutor
from typing import NamedTuple

sys.dont_write_bytecode = True

from check_calls import PROGRAM, ROOT
from check_profiles import CAPS, PROFILES, document_of, options_of

NATIVE, WORD = "amd64", 1 << 64
DOCKERS = {
    "CAP_CHOWN", "CAP_DAC_OVERRIDE", "CAP_FSETID", "CAP_FOWNER", "CAP_MKNOD", "CAP_NET_RAW", "CAP_SETGID", "CAP_SETUID",
    "CAP_SETFCAP", "CAP_SETPCAP", "CAP_NET_BIND_SERVICE", "CAP_SYS_CHROOT", "CAP_KILL", "CAP_AUDIT_WRITE",
}
HOLDS = {
    "SCMP_CMP_NE": lambda it, one, two: it != one,
    "SCMP_CMP_LT": lambda it, one, two: it < one,
    "SCMP_CMP_LE": lambda it, one, two: it <= one,
    "SCMP_CMP_EQ": lambda it, one, two: it == one,
    "SCMP_CMP_GE": lambda it, one, two: it >= one,
    "SCMP_CMP_GT": lambda it, one, two: it > one,
    "SCMP_CMP_MASKED_EQ": lambda it, one, two: it & one == two,
}


class Condition(NamedTuple):
    index: int
    op: str
    one: int
    two: int

    def holds(self, args: tuple[int, ...]) -> bool:
        return HOLDS[self.op](args[self.index], self.one, self.two)

    def numbers(self) -> list[int]:
        """The numbers at which it turns, and those beside them; one that it lets through is among them."""
        turns = (self.one, self.two, self.one | self.two, WORD - 1)
        return [it % WORD for turn in turns for it in (turn - 1, turn, turn + 1)]


class Entry(NamedTuple):
    number: int
    names: list[str]
    conditions: list[Condition]


def is_held(held: set[str] | None, wanted: str) -> bool:
    return held is None or wanted in held


def is_kept(entry: dict, held: set[str] | None) -> bool:
    """Whether docker keeps an entry on amd64, with these capabilities or all, and on a kernel later than all that are named."""
    includes, excludes = entry.get("includes") or {}, entry.get("excludes") or {}
    if NATIVE in (excludes.get("arches") or []) or any(is_held(held, it) for it in excludes.get("caps") or []) or excludes.get("minKernel"):
        return False
    arches = includes.get("arches") or []
    return (not arches or NATIVE in arches) and all(is_held(held, it) for it in includes.get("caps") or [])


def answer_of(action: str, error: int | None) -> tuple[str, int]:
    """What an action does; the one for errors and the one for tracers have a number, which is EPERM where none is given."""
    kill = {"SCMP_ACT_KILL": "SCMP_ACT_KILL_THREAD"}.get(action, action)
    return kill, (1 if error is None else error) if action in ("SCMP_ACT_ERRNO", "SCMP_ACT_TRACE") else 0


def entries_of(document: dict, held: set[str] | None) -> list[Entry]:
    """The entries that libseccomp is given, by their numbers from 1 on."""
    default = answer_of(document["defaultAction"], document.get("defaultErrnoRet"))
    return [
        Entry(number, it.get("names") or [it["name"]], [
            Condition(one["index"], one["op"], one["value"], one.get("valueTwo") or 0) for one in it.get("args") or []])
        for number, it in enumerate(document["syscalls"], 1)
        if is_kept(it, held) and answer_of(it["action"], it.get("errnoRet")) != default
    ]


def decider(entries: list[Entry], name: str, args: tuple[int, ...]) -> int | None:
    """The number of the entry that counts for a call, if there is one."""
    own = [it for it in entries if name in it.names]
    plain = [it.number for it in own if not it.conditions]
    return next(iter([*plain, *(it.number for it in own if all(one.holds(args) for one in it.conditions))]), None)


def with_number(args: tuple[int, ...], index: int, number: int) -> tuple[int, ...]:
    return args[:index] + (number,) + args[index + 1:]


def arguments(entries: list[Entry], name: str) -> set[tuple[int, ...]]:
    """Arguments of a call, at and beside what conditions compare."""
    found = {(0,) * 6}
    for entry in (it for it in entries if name in it.names):
        fitting = (0,) * 6
        for it in entry.conditions:
            found |= {with_number(fitting, it.index, number) for number in it.numbers()}
            fits = [number for number in it.numbers() if it.holds(with_number(fitting, it.index, number))]
            fitting = with_number(fitting, it.index, fits[0] if fits else 0)
        found.add(fitting)
    return found


def said(profile: str, caps: str, name: str, args: tuple[int, ...]) -> str:
    words = [PROGRAM, "why", *options_of(caps), f"{name}({', '.join(map(hex, args))})", profile]
    ran = subprocess.run(words, stdin=subprocess.DEVNULL, capture_output=True, text=True, timeout=60, check=False)
    return ran.stdout.splitlines()[-1] if ran.returncode == 0 and ran.stdout else f"status {ran.returncode}: {ran.stderr}"


def lines_of(profile: str) -> list[int]:
    """The line in which each entry begins, and of those that are alike the first of these."""
    with open(profile, encoding="utf-8") as file:
        text = file.read()
    at, found = text.index("[", text.index('"syscalls"')) + 1, []
    while text[at] != "]":
        if text[at] == "{":
            entry, end = json.JSONDecoder().raw_decode(text, at)
            found.append((entry, text.count("\n", 0, at) + 1))
        at = end if text[at] == "{" else at + 1
    return [next(line for other, line in found if other == entry) for entry, _ in found]


def problem_of(profile: str, caps: str, entries: list[Entry], lines: list[int], name: str, args: tuple[int, ...]) -> str | None:
    number = decider(entries, name, args)
    wanted = f"entry {number} of syscalls in line {lines[number - 1]} decides" if number else "no entry of syscalls says otherwise than the default"
    answer = said(profile, caps, name, args)
    return None if answer == f"{profile}: {wanted}" else f"{caps}: {name}{args}: {answer}, and {wanted}"


def check(profile: str, known: set[str]) -> Iterator[str | None]:
    """What is wrong with each answer about a profile."""
    document, lines = document_of(profile), lines_of(profile)
    names = sorted(known & {name for it in document["syscalls"] for name in it.get("names") or [it["name"]]})
    for caps in CAPS:
        entries = entries_of(document, {"none": set(), "docker": DOCKERS, "all": None}[caps])
        asked = [(name, args) for name in names for args in sorted(arguments(entries, name))]
        with ThreadPoolExecutor() as lanes:
            yield from lanes.map(lambda it: problem_of(profile, caps, entries, lines, *it), asked)


def main(words: list[str]) -> int:
    with open(os.path.join(ROOT, "examples/calls"), encoding="utf-8") as file:
        known = {line.split()[1] for line in file}
    paths = words or sorted(os.path.join(PROFILES, it) for it in os.listdir(PROFILES) if it.endswith(".json"))
    told = [problem for path in paths for problem in check(path, known)]
    failed = [it for it in told if it]
    print(*failed, sep="\n", end="\n" if failed else "")
    print(f"{len(told) - len(failed)} passed, {len(failed)} failed")
    return 1 if failed or not told else 0


if __name__ == "__main__":
    sys.exit(main(sys.argv[1:]))
