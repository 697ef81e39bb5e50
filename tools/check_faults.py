#!/usr/bin/env python3
"""Checks that tools/faults tells planted faults apart: those that a contract refuses, and those that show nothing; and that
what it keeps of earlier runs serves the same texts alone.

It runs the script on a small repository that is made here, with one fault of each kind. Prints each that is told
otherwise, and at last 'N passed, M failed'."""
import os
import re
import shutil
import subprocess
import sys
import tempfile
from typing import NamedTuple

HERE = os.path.dirname(os.path.realpath(__file__))
SOURCE = """\
//! Small functions to plant faults in.
#![tactic(auto)]

ghost use Rattle.std.specs.Prelude.{◌≡◌, ◌≤◌, ◌+◌};

const STEP: u32 = 3;

pub fn raised(number: u32) -> u32
    requires { number ≤ 100 }
    ensures { result ≡ number + 3 }
{
    number + STEP
}

pub fn raised_twice(number: u32) -> u32
    requires { number ≤ 50 }
    ensures { result ≡ number + 6 }
{
    let once = raised(number);
    raised(once)
}

pub fn counted(most: u32) -> u32
    ensures { result ≡ most }
{
    let bound = most;
    let mut count = 0;
    while count < bound {
        count += 1;
    }
    count
}

pub fn doubled(number: u32) -> u32
    requires { number ≤ 100 }
    ensures { result ≡ number + number }
{
    number + number
}

pub fn taken(rows: &[u32], most: u32) -> u32
    ensures { result ≡ most }
{
    let taken = most;
    taken
}
"""
INVARIANTS = """\
use Rattle.std.proofs.Common.{◌-◌, ◌≤◌}
use Rattle.small.proofs.counted.Given as goal

abbrev pub invariant-loop-count : goal.invariant-loop-count
invariant-loop-count l = l.count ≤ l.bound

abbrev pub decreases-loop-count : goal.decreases-loop-count
decreases-loop-count l = l.bound - l.count
"""
LIBRARY = "//! One function.\n#![tactic(auto)]\n\npub fn same(number: u32) -> u32 {\n    number\n}\n"

ANSWER = """\
//! One answer.
#![tactic(auto)]

ghost use Rattle.std.specs.Prelude.{◌≡◌};

pub fn answer() -> u32
    ensures { result ≡ 42 }
{
    42
}
"""


class Planted(NamedTuple):
    name: str
    changes: list[tuple[str, str]]
    told: str  # a pattern for what is said of it
    look: str = ""  # the function that is looked at first


IN_ONE_CHECK = r"refused: one of \d: .*it is not proved that .*"
PLANTED = [
    Planted("raises_by_one_more", [("number + STEP", "number + STEP + 1")], IN_ONE_CHECK),
    # Another one of the same function is tried for itself, and does nothing.
    Planted("raises_in_another_order", [("number + STEP", "STEP + number")], "NOT REFUSED: .*"),
    # It does nothing, and its function calls one that is not proved.
    Planted("raises_twice_in_place", [("raised(once)", "raised(once + 0)")], "NOT REFUSED: .*"),
    Planted("counts_to_another_bound", [("count < bound", "count < bound / 2")], IN_ONE_CHECK),
    # What it does is right, and a file of proofs names what it takes away.
    Planted("bounds_by_another_name", [("let bound = most", "let limit = most"), ("count < bound", "count < limit")], "BY NAME ONLY: .*"),
    Planted("steps_by_four", [("const STEP: u32 = 3", "const STEP: u32 = 4")], "refused: .*it is not proved that .*"),
    Planted("steps_by_five", [("const STEP: u32 = 3", "const STEP: u32 = 5")], "refused: .*it is not proved that .*", "raised"),
    # Nothing is wrong with the function that it names, and the whole crate refuses it all the same.
    Planted("steps_by_six", [("const STEP: u32 = 3", "const STEP: u32 = 6")], "refused: .*it is not proved that .*", "doubled"),
    Planted("steps_by_seven", [("const STEP: u32 = 3", "const STEP: u32 = 7")], "BAD FAULT: it has no function halved .*", "halved"),
    # No goal fails: the prover does not take what borrows and is not read.
    Planted("borrows_and_takes", [("let taken = most", "let _unread = (rows, most); let taken = most")], "BAD FAULT: .*borrow checker.*"),
    Planted("doubles_nothing", [("number + number", "number +")], "BAD FAULT: .*"),
    Planted("doubles_a_truth", [("number + number", "true")], "BAD FAULT: .*"),
    Planted("doubles_what_is_not_there", [("number + numbers", "number")], "BAD FAULT: its old: text .*"),
    Planted("says_one_name_of_many", [("number", "other")], "BAD FAULT: its old: text .*"),
]


def write(path: str, text: str) -> None:
    os.makedirs(os.path.dirname(path), exist_ok=True)
    with open(path, "w", encoding="utf-8") as file:
        file.write(text)


def furnish(top: str) -> None:
    """Makes the repository: the crate with the faults, and one above a library that can't be proved."""
    for it in ("faults", "crates.py", "kept.py"):
        write(f"{top}/tools/{it}", "")
        shutil.copy(f"{HERE}/{it}", f"{top}/tools/{it}")
    write(f"{top}/crates.txt", "small:\nplain:\nbroken:\nabove: broken\nanswer:\n")
    shutil.copy(f"{os.path.dirname(HERE)}/HANDLES", top)
    write(f"{top}/crates/small/src/lib.rt", SOURCE)
    write(f"{top}/crates/small/proofs/counted/Invariants.antt", INVARIANTS)
    write(f"{top}/crates/plain/src/lib.rt", LIBRARY)
    write(f"{top}/crates/broken/src/lib.rt", LIBRARY.replace("{\n", "{\n    -"))
    write(f"{top}/crates/above/src/lib.rt", LIBRARY)
    write(f"{top}/crates/above/must-fail/changes.edit", "file: src/lib.rt\nold: number\nnew: 0\n")
    write(f"{top}/crates/answer/src/lib.rt", ANSWER)
    write(f"{top}/crates/answer/faults/answers_43.edit", "file: src/lib.rt\nold:     42\nnew:     43\n")
    for it in PLANTED:
        pairs = "".join(f"old: {old}\nnew: {new}\n" for old, new in it.changes)
        looks = f"look: {it.look}\n" if it.look else ""
        write(f"{top}/crates/small/faults/{it.name}.edit", f"file: src/lib.rt\n{looks}{pairs}")


def faults(top: str, *words: str) -> tuple[int, list[str]]:
    how = {"stdin": subprocess.DEVNULL, "stdout": subprocess.PIPE, "text": True, "env": {**os.environ, "XDG_CACHE_HOME": f"{top}/kept"}}
    ran = subprocess.run([f"{top}/tools/faults", "--jobs", "1", *words], **how)
    return ran.returncode, ran.stdout.splitlines()


def kept(top: str) -> list[tuple[str, bool, object]]:
    """Whether a refusal is kept while no text changes, and counts for nothing with `--anew` or where a contract was weakened."""
    said = [faults(top, *words) for words in (["answer"], ["answer"], ["--anew", "answer"])]
    write(f"{top}/crates/answer/src/lib.rt", ANSWER.replace("≡ 42 }", "≡ result }"))
    said.append(faults(top, "answer"))
    told = [lines[0].partition("answers_43: ")[2] for _, lines in said]
    is_by_earlier = [it.startswith("refused: by an earlier run: ") for it in told]
    is_refused = [it.startswith("refused: ") for it in told]
    return [
        ("what an earlier run refused", is_by_earlier == [False, True, False, False], said),
        ("a contract that was weakened since", is_refused == [True, True, True, False] and said[3][0] == 1, said),
    ]


def judgements(top: str) -> list[tuple[str, bool, object]]:
    """What is asked of the script, whether it is so, and what it says."""
    status, lines = faults(top, "small")
    told = dict(line.partition(": ")[::2] for line in lines)
    passed = sum(it.told.startswith("refused") for it in PLANTED)
    judged = [(it.name, bool(re.fullmatch(it.told, told.get(f"small/{it.name}", ""))), lines) for it in PLANTED]
    judged += [("the last line", lines[-1:] == [f"{passed} passed, {len(PLANTED) - passed} failed"] and status == 1, lines)]
    failed = [f"failed: {it}" for it in lines if it.startswith("small/") and ": refused" not in it]
    judged += [("what failed, once more", lines[-1 - len(failed):-1] == failed and len(failed) == len(PLANTED) - passed, lines)]
    nothing = faults(top, "plain")
    judged += [("a run that tries nothing", nothing == (1, ["0 passed, 0 failed"]), nothing)]
    left_out = faults(top, "above")
    judged += [("a fault in must-fail, without --all", left_out == (1, ["0 passed, 0 failed"]), left_out)]
    unproved = faults(top, "--all", "above")
    is_told = "the library broken is not proved" in unproved[1][0] and unproved[1][1:] == [f"failed: {unproved[1][0]}", "0 passed, 1 failed"]
    judged += kept(top)
    return [*judged, ("a library that is not proved", is_told and unproved[0] == 1, unproved)]


def main() -> int:
    failed = 0
    with tempfile.TemporaryDirectory(prefix="small-") as top:
        judged = judgements(top) if not furnish(top) else []
    for what, is_so, said in judged:
        if not is_so:
            failed += 1
            print(f"tools/faults: {what}: {said}")
    print(f"{len(judged) - failed} passed, {failed} failed")
    return 1 if failed else 0


if __name__ == "__main__":
    sys.exit(main())
