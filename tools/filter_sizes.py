#!/usr/bin/env python3
"""filter_sizes.py FOLDER PROFILE..: tells how long the filters of profiles are, and how many instructions calls execute in them,
as rows of a table for bench/README.md.

Each PROFILE, NAME.json, is taken with docker's capabilities. The rows are the filter that `ask filter` writes for x86-64 alone,
for all architectures that are listed, and with --runc; those of FOLDER that tools/libseccomp_filters has made of it; and the one
of examples/profiles/runc. A cell has the mean over calls as often as OFTEN of crates/sk_profile/src/weights.rt has them, by
their names where another architecture has other numbers, the mean over all calls with a name, that over those which are allowed
without arguments, and the most. It needs the built program `ask`. The status is 2 where a filter can't be made or read."""
import os
import re
import struct
import subprocess
import sys
from pathlib import Path

sys.dont_write_bytecode = True

from call_tables import X32_BIT, Trouble, calls_of_table, read
from check_calls import PROGRAM, instructions

TOP = Path(__file__).resolve().parent.parent
OFTEN = re.compile(r"OFTEN: [^=]*= \[(.*?)\n\];", re.S)
AUDIT = {"x86-64": 0xC000003E, "x32": 0xC000003E, "i386": 0x40000003}
ALLOW = 0x7FFF0000
# What i386 has for a call of x86-64 under another name.
OTHER_NAMES = {"mmap": "mmap2", "stat": "stat64", "fstat": "fstat64", "lstat": "lstat64", "newfstatat": "fstatat64"}


def names_on(architecture: str) -> dict[int, str]:
    if architecture == "x86-64":
        return {int(number): name for number, name in (line.split() for line in read(TOP / "examples/calls").splitlines())}
    return {number | (X32_BIT if architecture == "x32" else 0): name for number, name in calls_of_table(architecture).items()}


def often_on(architecture: str) -> dict[int, int]:
    """How often each number is called."""
    pairs = re.findall(r"\((\d+), (\d+)\)", OFTEN.search(read(TOP / "crates/sk_profile/src/weights.rt"))[1])
    native = names_on("x86-64")
    numbers = {name: number for number, name in sorted(names_on(architecture).items(), reverse=True)}
    found = {}
    for number, share in pairs:
        name = native[int(number)]
        its = {name, OTHER_NAMES.get(name, name)} if architecture == "i386" else {name}
        found.update((numbers[it], int(share)) for it in its if it in numbers)
    return found


def steps(program: list[tuple[int, int, int, int]], number: int, audit: int) -> tuple[int, int]:
    """What a filter answers to a call without arguments, and how many instructions it executes."""
    words, place, count, a = struct.unpack("<16I", struct.pack("<IIQ6Q", number, audit, *[0] * 7)), 0, 0, 0
    while True:
        code, jt, jf, k = program[place]
        place, count = place + 1, count + 1
        if code == 0x06:
            return k, count
        if code == 0x20:
            a = words[k // 4]
        elif code in (0x00, 0x54):
            a = k if code == 0x00 else a & k
        elif code == 0x05:
            place += k
        elif code in (0x15, 0x25, 0x35, 0x45):
            place += jt if {0x15: a == k, 0x25: a > k, 0x35: a >= k, 0x45: a & k}[code] else jf
        else:
            raise Trouble(f"the filter has an instruction of code {code:#x}")


def cell(program: list[tuple[int, int, int, int]], architecture: str) -> str:
    often = often_on(architecture)
    ran = {it: steps(program, it, AUDIT[architecture]) for it in {*names_on(architecture), *often}}
    weighed = sum(ran[it][1] * share for it, share in often.items()) / sum(often.values())
    named = [ran[it][1] for it in names_on(architecture)]
    allowed = [ran[it][1] for it in names_on(architecture) if ran[it][0] == ALLOW]
    if not allowed:
        return "killed"
    return f"{weighed:.2f} / {sum(named) / len(named):.2f} / {sum(allowed) / len(allowed):.2f} / {max(named)}"


def made(words: list[str], path: str) -> list[tuple[int, int, int, int]]:
    try:
        ran = subprocess.run([PROGRAM, "filter", "--raw", "--cap", "docker", *words, path], capture_output=True, check=False)
    except OSError as why:
        raise Trouble(f"ask can't be run: {why}") from why
    if ran.returncode:
        raise Trouble(ran.stderr.decode(errors="replace").strip())
    return instructions(ran.stdout.hex())


def rows(folder: str, path: str):
    """The filters of a profile, each with what it is."""
    name = os.path.basename(path).removesuffix(".json")
    for what, words in (("x86-64 alone", ["--native"]), ("all that are listed", []), ("all, with `--runc`", ["--runc"])):
        yield what, made(words, path)
    for what, file in (("libseccomp, list", Path(folder, f"{name}-x86-64-docker-linear.hex")),
                       ("libseccomp, tree", Path(folder, f"{name}-x86-64-docker-tree.hex")),
                       ("as runc attached it", TOP / f"examples/profiles/runc/{name}-x86-64-docker.hex")):
        if file.exists():
            yield what, instructions("".join(read(file).split()))


def main(words: list[str]) -> int:
    if len(words) < 2:
        print(__doc__, file=sys.stderr)
        return 2
    lines = []
    for path in words[1:]:
        name = os.path.basename(path).removesuffix(".json")
        for what, program in rows(words[0], path):
            lines.append(f"| {name} | {what} | {len(program)} | {' | '.join(cell(program, it) for it in AUDIT)} |\n")
    print("| Profile | Filter | Instructions | x86-64 | x32 | i386 |\n|---|---|---|---|---|---|\n" + "".join(lines), end="")
    return 0


if __name__ == "__main__":
    try:
        sys.exit(main(sys.argv[1:]))
    except (Trouble, ValueError) as why:
        print(f"filter_sizes.py: {why}", file=sys.stderr)
        sys.exit(2)
