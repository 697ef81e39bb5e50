#!/usr/bin/env python3
"""Checks what `ask` makes of policies.

check_policies.py [COUNT]: of each real filter and each profile in examples/, what `ask when` writes is a policy whose filter answers
the same to every call by `ask diff`, and of which `ask when` writes the same text. So is what it writes with numbers alone, and of the
calls of two other architectures, behind a line that names them.

Of each such file `ask filter --smaller` makes one filter that answers the same to every call by `ask diff`, on three architectures, of
no more instructions, and the note tells how many. It refuses filters that answer calls of other architectures otherwise than by one
verdict, with status 2 and no answer.

Of COUNT random texts (else 1,000) the filter is the same on every call as one that tools/policies.py makes of the text, which
was written from the page on the language and compiles in another way. Of each such text with a word changed both say whether it is a
policy. Texts that are none are refused with status 2, one line on standard error, and no answer. Of each text and of expectations of it
`ask expect` says that all is well where no call of some hundreds shows that it is not, by the second telling; and each call that it
shows is one whose verdict is not as that telling expects, and gets that verdict by `skern eval`.

Prints each problem, and at last 'N passed, M failed'."""
import os
import random
import re
import subprocess
import sys
import tempfile
from concurrent.futures import ThreadPoolExecutor

sys.dont_write_bytecode = True

import policies
import random_policies
from check_calls import PROGRAM, ROOT, SKERN

COUNT = 1000
ARCHITECTURES = ("i386", "aarch64")
SAME = "the same on every call\n"
AS_EXPECTED = "as expected on every call\n"
# How many calls of each expectation are tried.
CALLS = 300
FOLDERS = ("filters", "exports", "profiles", "profiles/libseccomp", "widths", "libseccomp", "policies")
# What `ask when` writes where it does not follow a filter: such a text is no policy.
UNTOLD = (" | ", " any")


def ask(*words: str) -> tuple[int, str, str]:
    ran = subprocess.run([PROGRAM, *words], stdin=subprocess.DEVNULL, capture_output=True, text=True, timeout=600, check=False)
    return ran.returncode, ran.stdout, ran.stderr


def write(path: str, content: str | bytes) -> str:
    with open(path, "wb") as file:
        file.write(content.encode() if isinstance(content, str) else content)
    return path


def comes_back(path: str, text: str, room: str, name: str) -> list[str]:
    """What is wrong with the policy that `ask when` wrote of a file."""
    policy = write(os.path.join(room, name), text)
    status, said, trouble = ask("diff", path, policy)
    if (status, said) != (0, SAME):
        return [f"{name}: diff ends with {status}: {(said or trouble)[:300]}"]
    status, said, trouble = ask("when", *(["--numbers"] if name.endswith(".numbers") else []), policy)
    if (status, said) == (0, text):
        return []
    return [f"{name}: when of its filter ends with {status}: {(trouble or said)[:300]}"]


def check_file(path: str, room: str) -> list[str]:
    name = os.path.relpath(path, os.path.join(ROOT, "examples")).replace("/", "_")
    problems = []
    for words, end in (([], ".policy"), (["--numbers"], ".numbers")):
        status, text, trouble = ask("when", *words, path)
        if status:
            problems.append(f"{name}: when ends with {status}: {trouble.strip()}")
        elif not any(it in line for line in text.splitlines() for it in UNTOLD):
            problems += comes_back(path, text, room, name + end)
        elif ask("filter", write(os.path.join(room, name + end), text))[0] != 2:
            problems.append(f"{name}: what is not followed is taken for a policy")
    # A profile has no filter for the calls of an architecture that it does not list.
    for architecture in ARCHITECTURES[:1] if path.endswith(".json") else ARCHITECTURES:
        problems += comes_back_there(architecture, path, room, f"{name}.{architecture}")
    return problems


def comes_back_there(architecture: str, path: str, room: str, name: str) -> list[str]:
    """The same of the calls of another architecture, which the policy names."""
    status, text, trouble = ask("when", "--arch", architecture, path)
    if status or any(it in line for line in text.splitlines() for it in UNTOLD):
        return [f"{name}: when ends with {status}: {trouble.strip()}"] if status else []
    policy = write(os.path.join(room, name), f"arch {architecture}\n{text}")
    status, said, trouble = ask("diff", "--arch", architecture, path, policy)
    return [] if (status, said) == (0, SAME) else [f"{name}: diff ends with {status}: {(said or trouble)[:300]}"]


def check_smaller(path: str, room: str) -> list[str]:
    """What is wrong with the smaller filter of a file."""
    name = os.path.relpath(path, os.path.join(ROOT, "examples")).replace("/", "_")
    status, text, trouble = ask("filter", "--smaller", path)
    if status:
        fits = status == 2 and not text and trouble.startswith("ask: filter: ")
        return [] if fits and refuses_rightly(path, trouble) else [f"{name}: --smaller ends with {status}: {trouble.strip()}"]
    smaller = write(os.path.join(room, name + ".smaller"), text)
    problems = []
    for words in ([], *(["--arch", it, "--machine", "x86-64"] for it in ARCHITECTURES)):
        status, said, trouble_there = ask("diff", *words, path, smaller)
        if (status, said) != (0, SAME):
            problems.append(f"{name}: diff {words} of the smaller one ends with {status}: {(said or trouble_there)[:300]}")
    old, new = (sum(len(it.split()[1]) // 16 for it in lines.splitlines()) for lines in (ask("filter", path)[1], text))
    wanted = f"{new} instructions in place of {old}\n" if new < old else f"no smaller one was found: {old} instructions\n"
    if new > old or not trouble.endswith(f"ask: filter: {wanted}"):
        problems.append(f"{name}: {old} instructions become {new}, and the note is {trouble.strip()}")
    return problems


def refuses_rightly(path: str, trouble: str) -> bool:
    """Whether the file has no smaller filter for the reason that is told, as far as `ask arches` tells it."""
    if "several verdicts" not in trouble:
        return any(it in trouble for it in ("could not be followed", "no smaller one", "is not known"))
    rows = [it.split(None, 1) for it in ask("arches", path)[1].splitlines()]
    others = {verdicts.strip() for name, verdicts in rows if name.rstrip(":") not in ("x86-64", "x32")}
    return len(others) != 1 or any(it in verdicts for verdicts in others for it in UNTOLD)


def check_expectations(seed: int, room: str) -> list[str]:
    """What is wrong with what `ask expect` says of a random policy and of expectations of it."""
    dice = random.Random(seed)
    text = random_policies.policy(dice)
    wanted = random_policies.expectations(dice, text)
    said, expects = told(text), policies.read(wanted, expects=True)
    if said is None or len(policies.program(said)) > 4096:
        return []
    policy, expected = write(os.path.join(room, f"{seed}.said"), text), write(os.path.join(room, f"{seed}.expected"), wanted)
    status, answer, trouble = ask("expect", "--arch", "x86-64", expected, policy)
    what = f"{seed}: expect ends with {status}: {(answer or trouble)[:500]}\n{wanted}\n{text}"
    if trouble or status not in (0, 1):
        return [what]
    if status:
        return [] if shows_failures(answer, expects, said) and are_confirmed(answer, policy) else [what]
    numbers = [nr for it in (*said.said, *expects.said) for nr in (it.first, it.last)]
    failing = [it for it in random_policies.calls(dice, numbers, CALLS) if not policies.meets(policies.said_of(expects, it), policies.said_of(said, it))]
    others = ask("expect", "--arch", "i386", expected, policy)[0] == (0 if policies.meets(expects.others, said.others) else 1)
    return [] if answer == AS_EXPECTED and not failing and others else [f"{what}\n{failing[:1]} {others}"]


SHOWN = r"(\d+)(?:-(\d+))? \S+: expected (.*?) -> (.*?)(?: where .*(?:\n      .*)*)?\n  record ([0-9a-f]{128})\n  syscall\(.*\n"


def are_confirmed(answer: str, policy: str) -> bool:
    """Whether `skern eval` gives each call that is shown the verdict that is told."""
    filters = ask("filter", policy)[1]
    for _, _, _, verdict, record in re.findall(SHOWN, answer):
        ran = subprocess.run([SKERN, "eval"], input=f"record {record}\n{filters}", capture_output=True, text=True, timeout=60, check=False)
        value = re.search(r"(?:return|verdict) 0x([0-9a-f]{8}) [^\n]*\n$", ran.stdout)
        if value is None or int(value[1], 16) != policies.verdict(verdict.split()):
            return False
    return True


def shows_failures(answer: str, expects: policies.Policy, said: policies.Policy) -> bool:
    """Whether each call that is shown gets another verdict than is expected of it, and both are told."""
    shown = re.findall(SHOWN, answer)
    for first, last, wanted, verdict, record in shown:
        image = bytes.fromhex(record)
        words = [int.from_bytes(image[at:at + 8], "little") for at in range(8, 64, 8)]
        call = policies.Call(int.from_bytes(image[:4], "little"), words[0], tuple(words[1:]))
        there = policies.said_of(expects, call), policies.said_of(said, call)
        if policies.meets(*there) or not int(first) <= call.nr <= int(last or first):
            return False
        if (policies.verdict(wanted.split(), expects=True), policies.verdict(verdict.split())) != there:
            return False
    return bool(shown) and re.sub(SHOWN, "", answer) == ""


def told(text: str) -> policies.Policy | None:
    try:
        return policies.read(text)
    except policies.Wrong:
        return None


def check_text(name: str, text: str, room: str) -> list[str]:
    """What is wrong with the filter that `ask` makes of a text, beside that of the second telling."""
    policy = write(os.path.join(room, name), text)
    status, said, trouble = ask("filter", policy)
    meant = told(text)
    if meant is None:
        fits = status == 2 and not said and trouble.count("\n") == 1 and trouble.startswith(f"ask: {policy}: ")
        return [] if fits else [f"{name}: is no policy, and ends with {status}: {trouble.strip()}\n{text}"]
    code = policies.program(meant)
    if status:
        return [] if len(code) > 4096 else [f"{name}: is a policy, and ends with {status}: {trouble.strip()}\n{text}"]
    other = write(os.path.join(room, name + ".raw"), policies.image(code))
    status, said, trouble = ask("diff", policy, other)
    problems = [] if (status, said) == (0, SAME) else [f"{name}: diff ends with {status}: {(said or trouble)[:500]}\n{text}"]
    for word in ("--arch=i386", "--arch=aarch64"):
        status, said, trouble = ask("diff", *word.split("="), policy, other)
        if (status, said) != (0, SAME):
            problems.append(f"{name}: diff {word} ends with {status}: {(said or trouble)[:500]}\n{text}")
    return problems


def check_random(seed: int, room: str) -> list[str]:
    dice = random.Random(seed)
    text = random_policies.policy(dice)
    problems = check_text(f"{seed}.policy", text, room)
    # A text that begins with a brace is a profile, and one of digits alone a filter.
    changed = random_policies.spoiled(dice, text)
    if any(it not in "0123456789abcdefABCDEF \n\r" for it in changed):
        problems += check_text(f"{seed}.changed", changed, room)
    return problems


def main(words: list[str]) -> int:
    count = int(words[0]) if words else COUNT
    files = [
        os.path.join(ROOT, "examples", folder, name) for folder in FOLDERS for name in sorted(os.listdir(os.path.join(ROOT, "examples", folder)))
        if name.endswith((".hex", ".bpf", ".json", ".policy"))
    ]
    with tempfile.TemporaryDirectory() as room, ThreadPoolExecutor(os.cpu_count()) as pool:
        found = [
            found for check, all_given in (
                (check_file, files), (check_smaller, files), (check_random, range(count)), (check_expectations, range(count)),
            ) for found in pool.map(lambda given, check=check: check(given, room), all_given)
        ]
    for problem in (it for problems in found for it in problems):
        print(problem)
    failed = sum(1 for problems in found if problems)
    print(f"{len(found) - failed} passed, {failed} failed")
    return 1 if failed or not found else 0


if __name__ == "__main__":
    sys.exit(main(sys.argv[1:]))
