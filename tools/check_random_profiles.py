#!/usr/bin/env python3
"""Compares the filters that `ask` makes of random profiles with what the profiles say, told a second time in Python.

check_random_profiles.py [COUNT [SEED]]: makes so many profiles without contradictions, 1,000 where nothing is said, which list
x32 and i386 beside x86-64 or do not, and runs the filter that `ask filter` writes of each, with --runc or --native or without,
on calls of the three and of others, at the borders of what its rules compare. An entry that contradicts an earlier one is
refused with both numbers and a call that fits both, and left out here: that is judged too, since the two have to say different
things of that call. The numbers of calls that the telling goes by have to be those of the tables, which check_call_names.py
compares with the headers of Linux. Prints each problem, and at last 'N passed, M failed'."""
import random
import re
import subprocess
import sys
from concurrent.futures import ThreadPoolExecutor

sys.dont_write_bytecode = True

from call_tables import TOP, calls_of_table, read
from check_calls import LIMIT, PROGRAM, instructions, judge, results, run
from random_profiles import ACTIONS, FIRST_X32, NAMES, NUMBERS, ONE_OF_SEVERAL, X32, X86_64, Profile, Rule, calls, several

OTHERS = "ask: -: x86-64's part alone: programs of its other architectures are killed\n"
CLASH = re.compile(r"ask: -: entries (\d+) and (\d+) of syscalls clash: both fit (\w+)\((.*)\)(?: of ([\w-]+))?, and they say different things\n")


def ask_filter(given: Profile) -> tuple[int, bytes, str]:
    """The status, the filter, and what is told but for the note that has to be there on other architectures."""
    words = [PROGRAM, "filter", "--raw", *["--runc"] * given.runc, *["--native"] * given.native, "-"]
    ran = subprocess.run(words, input=given.text().encode(), capture_output=True, timeout=60, check=False)
    complaint = ran.stderr.decode(errors="replace")
    if ran.returncode or not given.native or len(given.listed) == 1:
        return ran.returncode, ran.stdout, complaint
    return ran.returncode, ran.stdout, complaint.removeprefix(OTHERS) if complaint.startswith(OTHERS) else f"no note: {complaint}"


def words_of(audit: int, number: int, args: tuple[int, ...]) -> list[int]:
    """The 32-bit words of struct seccomp_data."""
    return [number, audit, 0, 0, *(half for it in args for half in (it % LIMIT, it // LIMIT))]


def value_of(given: Profile, it: Rule, name: str, architecture: str, args: tuple[int, ...]) -> int | None:
    """What an entry says of a call, or none where the call does not fit it: the call is its own, or stands for it on i386. There
    the first entry of a name is named for all that is said of the name."""
    if it.name == name:
        fits = it in given.given() and all(asked.holds(args, architecture != X86_64) for asked in it.conditions)
        return ACTIONS[it.action] if fits else None
    call, at, mask = ONE_OF_SEVERAL.get(it.name, ("", 0, 0))
    return given.unseen(it.name) if (call, at) == (name, args[0] & mask) else None


def problem_of_clash(given: Profile, found: re.Match[str]) -> str | None:
    """What is wrong with a refusal that names two entries and a call."""
    first, second, name, architecture = int(found[1]), int(found[2]), found[3], found[5] or X86_64
    if first == second or not all(0 < it <= len(given.rules) for it in (first, second)):
        return f"entries {first} and {second} of {len(given.rules)}"
    if found[5] == X86_64 or architecture not in given.architectures() or name not in NAMES[architecture]:
        return f"{name} of {found[5]}, and {given.architectures()} are listed"
    args = tuple(int(it, 16) for it in found[4].split(", "))
    said = [value_of(given, given.rules[it - 1], name, architecture, args) for it in (first, second)]
    return None if None not in said and said[0] != said[1] else f"{given.text()}: no clash: {found[0]}"


def check_profile(number: int, seed: int) -> list[str]:
    """What is wrong with the filter of a random profile, without the entries that contradict an earlier one."""
    dice = random.Random(f"{seed} {number}")
    given = several(dice)
    while True:
        status, image, complaint = ask_filter(given)
        clash = CLASH.fullmatch(complaint)
        if not clash or status != 2 or image:
            break
        problem = problem_of_clash(given, clash)
        if problem:
            return [problem]
        at = int(clash[2]) - 1
        given = given._replace(rules=given.rules[:at] + given.rules[at + 1:])
    if (status, complaint) != (0, ""):
        return [f"{given.text()}: status {status}: {complaint}"]
    program = instructions(image.hex())
    answers = ((it, run(program, words_of(*it))[0]) for it in calls(given, dice))
    words = " ".join(["--runc"] * given.runc + ["--native"] * given.native)
    return [
        f"{given.text()} {words}: of {audit:#x} {nr:#x} {args} it says {given.says(audit, nr, args):#x}, and the filter {found:#x}"
        for (audit, nr, args), found in answers if found != given.says(audit, nr, args)
    ]


def number_problems(architecture: str) -> list[str]:
    """Names whose number here is not that of the table, or that only the table has."""
    if architecture == X86_64:
        rows = [line.split() for line in read(TOP / "examples/calls").splitlines()]
        table = {name: int(number) for number, name in rows}
    else:
        table = {name: number | FIRST_X32 * (architecture == X32) for number, name in calls_of_table(architecture).items()}
    return [f"{it}: {NAMES[architecture].get(it)} here, {table.get(it)} in the table" for it in NUMBERS if NAMES[architecture].get(it) != table.get(it)]


def main(words: list[str]) -> int:
    count, seed = map(int, [*words, *("1000", "1")[len(words):]])
    for it in NAMES:
        judge(number_problems(it), f"numbers of {it}")
    with ThreadPoolExecutor() as lanes:
        for number, problems in enumerate(lanes.map(check_profile, range(count), [seed] * count)):
            judge(problems, f"random profile {number}")
    print(f"{results['passed']} passed, {results['failed']} failed")
    return 1 if results["failed"] or not results["passed"] else 0


if __name__ == "__main__":
    sys.exit(main(sys.argv[1:]))
