#!/usr/bin/env python3
"""Compares what `ask` makes of the profiles of container runtimes with the filters that libseccomp makes of them.

check_profiles.py [--filters FOLDER] [PROFILE..]: of each profile, and else of those of examples/profiles, `ask diff` has to say
that the filters of FOLDER, and else of examples/profiles/libseccomp, with its name are the same on every call, as a list of
comparisons and as a binary tree, without a capability, with docker's fourteen, and with all; on the kernel that they were made
for. NAME-MACHINE-CAPS-FORM.hex is asked about for each architecture whose calls the machine takes, and for one whose calls it
does not, NAME-CAPS-FORM.hex with --native, and without it where the profile lists nothing else. Standard error may have nothing
but, with --native, that the profile lists other architectures too. Where the filters of two sets of capabilities differ, `ask
diff` has to show a call. The filter that `ask filter` writes has to be the same as the profile, as lines and as raw bytes, and
with itself as one chain. The filters of examples/profiles/runc, with its name, have to be the same with --runc, and not without
it where the default is another answer than runc's. And calls of x86-64, x32 and i386 are made under the filter of a profile that
lists all three: Linux has to answer to each as `ask replay` says, where it takes them.

tools/libseccomp_filters made the first, and `examples/attached runc run` showed the others. Prints each problem, and at last 'N
passed, M failed'."""
import argparse
import json
import os
import random
import struct
import subprocess
import sys
import tempfile
from typing import Iterator, NamedTuple

sys.dont_write_bytecode = True

from check_calls import PROGRAM, ROOT, TAKEN, UNFILTERED, instructions, live_input, replayed, rows_of, text_of

PROFILES = os.path.join(ROOT, "examples/profiles")
CAPS = ("none", "docker", "all")
FORMS = ("linear", "tree")
KERNEL = ["--kernel", "6.12"]
SAME = (0, "the same on every call\n", "")
OTHERS = "x86-64's part alone: programs of its other architectures are killed"
# The machines, with the architectures whose calls are asked about: those that it takes, and one that it does not. What is said
# of x86-64 is said of x32 too, which has its number for filters.
MACHINES = {
    "x86-64": ("x86-64", "i386", "aarch64"),
    "aarch64": ("aarch64", "arm", "x86-64"),
    "riscv64": ("riscv64", "x86-64"),
    "ppc64le": ("ppc64le", "x86-64"),
}
OWN, BESIDE = "SCMP_ARCH_X86_64", {"SCMP_ARCH_X86", "SCMP_ARCH_X32"}
# What arguments of calls on Linux are.
VALUES = (0, 1, 2, 5, 21522, 0x10002, 0x10000000, 0x7E020000, 0xFFFFFFFF)
# Calls that each profile allows which is tried on Linux, as i386 and x86-64 have them.
GETPID = {"i386": 20, "x86-64": 39}


class Said(NamedTuple):
    """A question: what it is about, the words before the files, and the filter that is held beside the profile."""

    what: str
    words: list[str]
    path: str


def ask(*words: str) -> tuple[int, bytes, str]:
    """The status, the bytes of the answer, and what standard error has but, with --native, notes on other architectures."""
    ran = subprocess.run([PROGRAM, *words], stdin=subprocess.DEVNULL, capture_output=True, timeout=600, check=False)
    notes = {f"ask: {it}: {OTHERS}\n" for it in words} if "--native" in words else set()
    lines = ran.stderr.decode(errors="replace").splitlines(keepends=True)
    return ran.returncode, ran.stdout, "".join(it for it in lines if it not in notes)


def diff(*words: str) -> tuple[int, str, str]:
    status, answer, complaint = ask("diff", *words)
    return status, answer.decode(), complaint


def options_of(caps: str) -> list[str]:
    """The words that say which capabilities are held, and the kernel."""
    return KERNEL if caps == "none" else ["--cap", caps, *KERNEL]


def document_of(profile: str) -> dict:
    with open(profile, encoding="utf-8") as file:
        return json.load(file)


def says_enosys(profile: str) -> bool:
    """Whether the profile says by default what runc says: then nothing tells whose answer it is."""
    document = document_of(profile)
    return document["defaultAction"] == "SCMP_ACT_ERRNO" and document.get("defaultErrnoRet") == 38


def lists_others(profile: str) -> bool:
    """Whether the profile lists x32 or i386 for x86-64."""
    document = document_of(profile)
    maps = (it.get("subArchitectures") or [] for it in document.get("archMap") or [] if it["architecture"] == OWN)
    return bool(BESIDE & {*(document.get("architectures") or []), *(it for listed in maps for it in listed)})


def named(profile: str) -> str:
    return os.path.basename(profile).removesuffix(".json")


def cases(profile: str, folder: str) -> Iterator[Said]:
    """Each question about a filter of libseccomp."""
    for caps in CAPS:
        for form in FORMS:
            path = os.path.join(folder, f"{named(profile)}-{caps}-{form}.hex")
            if os.path.exists(path):
                for words in [["--native"]] if lists_others(profile) else [["--native"], []]:
                    yield Said(f"{caps} {form} {' '.join(words)}", [*words, *options_of(caps)], path)
            for machine, architectures in MACHINES.items():
                path = os.path.join(folder, f"{named(profile)}-{machine}-{caps}-{form}.hex")
                if os.path.exists(path):
                    for it in architectures:
                        yield Said(f"{machine} {caps} {form} {it}", ["--machine", machine, "--arch", it, *options_of(caps)], path)


def runc_cases(profile: str) -> Iterator[Said]:
    """Each question about a filter that runc attached."""
    for caps in CAPS:
        for part, words in (("", ["--native"]), ("", []), ("-x86-64", []), ("-x86-64", ["--arch", "i386"])):
            path = os.path.join(PROFILES, "runc", f"{named(profile)}{part}-{caps}.hex")
            if os.path.exists(path) and (part or not lists_others(profile)):
                yield Said(f"{caps} runc {' '.join(words)}", [*words, *options_of(caps)], path)


def check_libseccomp(profile: str, folder: str) -> Iterator[tuple[str, object]]:
    asked = list(cases(profile, folder))
    yield "filters", None if asked else f"{folder} has no filter of it: tools/libseccomp_filters makes them"
    for it in asked:
        for pair in ((profile, it.path), (it.path, profile)):
            said = diff(*it.words, *pair)
            yield it.what, None if said == SAME else said


def check_runc(profile: str) -> Iterator[tuple[str, object]]:
    for it in runc_cases(profile):
        for pair in ((profile, it.path), (it.path, profile)):
            said = diff("--runc", *it.words, *pair)
            yield it.what, None if said == SAME else said
        if not says_enosys(profile):
            said = diff(*it.words, profile, it.path)
            yield f"{it.what} without --runc", None if said[0] == 1 and " -> errno/38 ENOSYS\n" in said[1] else said


def check_capabilities(profile: str, folder: str) -> Iterator[tuple[str, object]]:
    """Each set of capabilities beside libseccomp's trees of each."""
    for part, words in (("", ["--native"]), ("-x86-64", []), ("-x86-64", ["--arch", "i386"])):
        trees = {it: os.path.join(folder, f"{named(profile)}{part}-{it}-tree.hex") for it in CAPS}
        if all(map(os.path.exists, trees.values())):
            for held in CAPS:
                for other in CAPS:
                    same = diff(*words, trees[held], trees[other])
                    said = diff(*words, *options_of(held), profile, trees[other])
                    is_well = said == SAME if same == SAME else said[0] == 1 and said[2] == "" and "\n  record " in said[1]
                    yield f"{held} beside {other} {' '.join(words)}", None if is_well else said


def made(profile: str, words: list[str], folder: str) -> list[str] | None:
    """The files that `ask filter` writes of a profile, as lines and as raw bytes, or None where it does not."""
    paths = []
    for at, raw in enumerate(([], ["--raw"])):
        status, answer, complaint = ask("filter", *raw, *words, profile)
        if (status, complaint) != (0, "") or not answer:
            return None
        paths.append(os.path.join(folder, str(at)))
        with open(paths[-1], "wb") as file:
            file.write(answer)
    return paths


def check_filter(profile: str) -> Iterator[tuple[str, object]]:
    """What `ask filter` writes, for x86-64 with all that is listed and alone."""
    for caps in CAPS:
        for words, asked in (([], []), ([], ["--arch", "i386"]), (["--native"], []), (["--native"], ["--arch", "i386"])):
            with tempfile.TemporaryDirectory() as folder:
                files = made(profile, [*words, *options_of(caps)], folder)
                said = [diff(*words, *asked, *options_of(caps), profile, it) for it in [*files, profile]] if files else []
            yield f"{caps} filter {' '.join(words + asked)}", None if said == [SAME] * 3 else said or "ask filter has no answer"
    whole = [ask("filter", *words, profile) for words in ([], ["--machine", "x86-64"])]
    yield "the machine", None if whole[0] == whole[1] else "x86-64 is not the machine where none is named"
    note = f"ask: {profile}: {OTHERS}\n" if lists_others(profile) else ""
    told = [subprocess.run([PROGRAM, "filter", *words, profile], capture_output=True, text=True, timeout=600, check=False).stderr
            for words in (["--native"], [])]
    yield "notes", None if told == [note, ""] else told


# ---- on Linux


def program_of(profile: str, *words: str) -> list[tuple[int, int, int, int]]:
    return instructions(ask("filter", "--raw", *words, *KERNEL, profile)[1].hex())


def calls_on(architecture: str, dice: random.Random) -> dict[tuple[int, tuple[int, ...]], None]:
    """Calls of each number, with arguments; the sixth of i386 is not made."""
    bit = 1 << 30 if architecture == "x32" else 0
    numbers = (it for it in range(560) if architecture != "x86-64" or it not in UNFILTERED)
    return {(it | bit, (*(dice.choice(VALUES) for _ in range(5)), 0)): None for it in numbers for _ in range(4)}


def refused_on_linux(profile: str, live: str) -> Iterator[tuple[str, object]]:
    """Whether Linux answers by each verdict just the calls that are said to get it: each stands as an error of its own."""
    program = program_of(profile)
    values = sorted({k for code, _, _, k in program if code == 6})
    told = {-1000 - at: text_of(it) for at, it in enumerate(values)}
    for architecture in TAKEN:
        calls = calls_on(architecture, random.Random(architecture))
        ran = subprocess.run([live], input=live_input(program, values, calls, architecture == "i386"), capture_output=True, check=False)
        if ran.returncode == 3:
            print(f"{named(profile)}: {architecture} is not compared with Linux: {ran.stderr.decode().strip()}")
            continue
        names = {row[2]: row[0] for row in rows_of(architecture, profile) if row[2] != "-"}
        said, its = replayed(architecture, calls, names, profile), [told.get(int(it), it) for it in ran.stdout.split()]
        wrong = [(call, it, said.get(call)) for call, it in zip(calls, its) if it != said.get(call)]
        yield f"on Linux: {architecture}", (wrong[:5] or None) if len(its) == len(calls) else ran.stderr.decode()


def performed_on_linux(profile: str, live: str) -> Iterator[tuple[str, object]]:
    """Whether a program of i386 runs under the filter, and is ended under x86-64's part alone."""
    for words, ends in (([], False), (["--native"], True)):
        program = program_of(profile, *words)
        image = b"".join(struct.pack("<HBBI", *it) for it in program)
        calls = b"".join(struct.pack("<II6I", it == "i386", number, *[0] * 6) for it, number in GETPID.items())
        given = struct.pack("<II", len(program), len(GETPID)) + image + calls
        ran = subprocess.run([live, "apart"], input=given, capture_output=True, text=False, check=False)
        if ran.returncode == 3:
            print(f"{named(profile)}: no call of i386 is performed: {ran.stderr.decode().strip()}")
            continue
        lines = ran.stdout.decode().splitlines()
        is_well = len(lines) == 2 and lines[1].isdigit() and (lines[0] == "signal 31" if ends else lines[0].isdigit())
        yield f"performed on Linux {' '.join(words)}", None if is_well else (lines, ran.stderr.decode())


def check_live(profile: str) -> Iterator[tuple[str, object]]:
    with tempfile.TemporaryDirectory() as folder:
        live = f"{folder}/live_calls"
        subprocess.run(["gcc", "-O1", "-o", live, f"{ROOT}/tools/live_calls.c"], check=True)
        yield from refused_on_linux(profile, live)
        yield from performed_on_linux(profile, live)


def check(profile: str, folder: str) -> Iterator[tuple[str, object]]:
    """Each comparison, by what it is of, with what is wrong with it."""
    yield from check_libseccomp(profile, folder)
    yield from check_capabilities(profile, folder)
    yield from check_runc(profile)
    yield from check_filter(profile)
    if lists_others(profile):
        yield from check_live(profile)


def main() -> int:
    parser = argparse.ArgumentParser(description=__doc__, formatter_class=argparse.RawDescriptionHelpFormatter)
    parser.add_argument("--filters", default=os.path.join(PROFILES, "libseccomp"), metavar="FOLDER")
    parser.add_argument("profiles", nargs="*", metavar="PROFILE")
    given = parser.parse_args()
    passed = failed = 0
    for profile in given.profiles or sorted(os.path.join(PROFILES, it) for it in os.listdir(PROFILES) if it.endswith(".json")):
        for what, problem in check(profile, given.filters):
            passed += problem is None
            failed += problem is not None
            if problem is not None:
                print(f"{named(profile)} {what}: {problem}", flush=True)
    print(f"{passed} passed, {failed} failed")
    return 1 if failed or not passed else 0


if __name__ == "__main__":
    sys.exit(main())
