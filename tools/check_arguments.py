#!/usr/bin/env python3
"""Compares the tables of sk_arguments with Debian's packages of Linux 6.12, and what `ask when` writes by constants with the numbers
that it writes without them.

check_arguments.py [FILE..]: tools/call_arguments makes each table anew, which has to be the same. A compiler says of each constant,
in each header that has it, whether it is the number of the table. Of the filters in the files, of which each holds some in hexadecimal
digits, and else of those of examples/filters and examples/profiles/libseccomp, `ask when` writes conditions with constants, and with
--numbers without them: each expression with a constant has to be to the compiler what stands at its place among the numbers.

tools/debian.py says where packages come from. A comparison that has nothing to compare fails. Prints what each comes to, and at last
'N passed, M failed'."""
import re
import subprocess
import sys
import tempfile
from pathlib import Path

sys.dont_write_bytecode = True

import argument_rows as by_hand
from argument_tables import DEFINED, ENUMERATED, TABLES, TOP, compiled, headed, include_words, read
from call_tables import Trouble
from debian import HEADERS, KERNEL, LIBRARY, MANUAL, unpacked

PROGRAM = TOP / "crates/ask/out/ask"
FILTERS = (TOP / "examples/filters", TOP / "examples/profiles/libseccomp")
# Headers that do not go together with those of the C library.
APART = {"linux/fcntl.h", "linux/tcp.h", "linux/watch_queue.h"}
NUMBER = re.compile(r"\b\d+\b")
TEXT = re.compile(r'pub const NAMES: &str = "([^"]*)"')
ATOM = r"(?:[A-Z]\w*|0x[0-9a-f]+|\b0\b)"
GROUP = rf"(?:~?(?:{ATOM}|\({ATOM}(?:\|{ATOM})+\)))"
EXPRESSION = re.compile(rf"{GROUP}(?: & {GROUP})*")
WRONG = re.compile(r'static assertion failed: "?([^"\n]*)"?')


def table():
    """The constants of the table in crates/sk_arguments, with their numbers."""
    text = read(TABLES / "constants.rt")
    names = re.sub(r"\\\n\s*", "", TEXT.search(text)[1]).split(" ")
    listed = re.sub(r"//.*", "", text[text.index("&[u32] = &[") + 11:text.index("];")])
    numbers = list(map(int, NUMBER.findall(listed)))
    if len(names) != len(numbers) or len(names) < 1000:
        raise Trouble(f"the table has {len(names)} names and {len(numbers)} numbers")
    return dict(zip(names, numbers))


def headers():
    """All headers that sets and names are taken from."""
    return sorted({row[0] for rows in by_hand.SETS.values() for row in rows} | {row[0] for row in by_hand.READ})


def wrong_asserts(words, head, asserts):
    """The labels of those equations that do not hold, to the compiler."""
    lines = "".join(f'_Static_assert({text} == {number:#x}UL, "{label} is not {number:#x}");\n' for label, text, number in asserts)
    status, _, trouble = compiled([*words, "-w", "-fmax-errors=0", "-fsyntax-only"], head + lines)
    wrong = WRONG.findall(trouble)
    if bool(status) != bool(wrong):
        raise Trouble(trouble[:500])
    return wrong


def known_in(words, *names):
    """The names of constants in headers."""
    status, text, trouble = compiled([*words, "-E", "-dD"], headed(*names))
    if status:
        raise Trouble(f"{' '.join(names)}: {trouble[:300]}")
    return {*DEFINED.findall(text), *ENUMERATED.findall(text)}


def check_names(words, constants):
    """Whether each constant is its number in each header that has it, and is in one."""
    seen, wrong = set(), []
    for header in headers():
        here = sorted(known_in(words, header) & set(constants))
        seen.update(here)
        # One below 0 has 32 bits in the table.
        asserts = [(it, f"(({it}) < 0 ? (unsigned) ({it}) : ({it}))", constants[it]) for it in here]
        wrong += [f"{header}: {it}" for it in wrong_asserts(words, headed(header), asserts)]
    wrong += [f"{it} is in no header" for it in sorted(set(constants) - seen)]
    print("\n".join([*wrong, f"{len(constants)} constants, {len(headers())} headers, {len(wrong)} differences"]), flush=True)
    return not wrong


# ---- what ask writes


def told(*words):
    """What ask writes of a file, each condition in one line."""
    try:
        end = subprocess.run([str(PROGRAM), *map(str, words)], stdin=subprocess.DEVNULL, capture_output=True, text=True, check=False)
    except OSError as why:
        raise Trouble(f"{PROGRAM} can't be run: {why}") from why
    if end.returncode not in (0, 1) or not end.stdout:
        raise Trouble(f"ask {' '.join(map(str, words))}: status {end.returncode}: {end.stderr.strip()[:200]}")
    return end.stdout.replace("\n     ", "")


def pairs_of(named, numbered):
    """The expressions with constants in a text, with the numbers at their places in the other one, which is the same but for these."""
    pairs, lines = set(), (named.splitlines(), numbered.splitlines())
    if len(lines[0]) != len(lines[1]):
        raise Trouble("the texts have not as many lines")
    for one, other in zip(*lines):
        if one == other:
            continue
        if EXPRESSION.sub("#", one) != EXPRESSION.sub("#", other):
            raise Trouble(f"these lines differ in more than numbers:\n{one}\n{other}")
        found = zip(EXPRESSION.findall(one), EXPRESSION.findall(other))
        pairs |= {(text, int(number, 16)) for text, number in found if text != number}
    return pairs


def check_expressions(words, constants, files):
    """Whether each expression with a constant that `ask when` writes of filters is the number that it writes without constants."""
    pairs = set()
    for it in files:
        pairs |= pairs_of(told("when", it), told("when", "--numbers", it))
    together = [it for it in sorted(headers(), key=lambda it: (it.startswith(("linux/", "asm/")), it)) if it not in APART]
    known, head = known_in(words, *together), headed(*together)
    head += "".join(f"#define {name} {number:#x}\n" for name, number in constants.items() if name not in known)
    wrong = wrong_asserts(words, head, [(text, f"(~0UL & {text})", number) for text, number in sorted(pairs)])
    print("\n".join([*wrong, f"{len(files)} filters, {len(pairs)} expressions with constants, {len(wrong)} differences"]), flush=True)
    return bool(pairs) and not wrong


def main(words):
    files = [Path(it) for it in words] or sorted(it for folder in FILTERS for it in folder.iterdir() if it.suffix == ".hex")
    results = []
    try:
        with tempfile.TemporaryDirectory() as room:
            folder = unpacked(room, HEADERS, KERNEL, LIBRARY, MANUAL)
            constants, include = table(), include_words(folder)
            results.append(subprocess.run([str(TOP / "tools/call_arguments"), "--check", folder], check=False).returncode == 0)
            results.append(check_names(include, constants))
            results.append(check_expressions(include, constants, files))
    except Trouble as why:
        print(f"check_arguments.py: {why}")
        results.append(False)
    print(f"{sum(results)} passed, {len(results) - sum(results)} failed")
    return 0 if all(results) else 1


if __name__ == "__main__":
    sys.exit(main(sys.argv[1:]))
