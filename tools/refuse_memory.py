#!/usr/bin/env python3
"""refuse_memory.py PROGRAM BENCH: refuses each allocation of worked runs of PROGRAM and BENCH in turn.

Each such run is to give the whole answer, or `skern: out of memory` with status 3, and nothing else, but for the lines of the turns
that a scenario has made before; and whatever it gives, it is to have given back each block of memory that it took. There is a run of
PROGRAM for every text that refuses an input, and for each scenario of `scenarios.txt`. The tasks of forks of BENCH are run with
every allocation refused from the first line of output on, and on a small stack, and are to give their whole answers, in a kernel
over each store. The kernel is stopped by each allocation in turn, too, and is to go on with the same answers. Prints each run that gives something else, and at last 'N passed, M failed'."""
import os
import re
import resource
import subprocess
import sys
import tempfile

HERE = os.path.dirname(os.path.abspath(__file__))
RECORD = "record 270000003e0000c0" + "0" * 112 + "\n"
REFUSES_GETPPID = "2000000000000000\n150000016e000000\n0600000001000500\n060000000000ff7f\n"
NOT_UNDERSTOOD = "skern: line {}: not understood\n"


def insn(code, k=0, jt=0, jf=0):
    return (code.to_bytes(2, "little") + bytes([jt, jf]) + k.to_bytes(4, "little")).hex()


RET = insn(0x06, 0x7FFF0000)
# Programs and their texts of refusal, which `check` and `eval` both write.
REFUSED = [
    (insn(0x30) + RET, "refused 3 code at 0"),
    (insn(0x20, 62) + RET, "refused 4 load at 0"),
    (insn(0x00, 1) + insn(0x34, 0) + insn(0x16), "refused 5 divzero at 1"),
    (insn(0x64, 32) + RET, "refused 6 shift at 0"),
    (insn(0x02, 16) + RET, "refused 7 word at 0"),
    (insn(0x05, 1) + RET, "refused 8 jump at 0"),
    (RET + insn(0x07), "refused 9 no return"),
    (insn(0x60, 3) + insn(0x16), "refused 10 unstored at 0 word 3"),
    ("06", "refused image ragged"),
    ("", "refused image empty"),
    (RET * 4097, "refused image too long"),
]
# Lines that `eval` does not understand, and the line that it tells.
BAD_LINES = [
    ("", 1),
    (RECORD + RECORD, 2),
    ("record 27\n", 1),
    ("record 2700000000000040" + "0" * 112 + "\n", 1),
    ("filter " + RET + "\n", 1),
    (RECORD + f"filter {RET}\n" * 33, 34),
    (RECORD + "filter 0g\n", 2),
    (RECORD + "filter 060\n", 2),
    (RECORD + ";\t\n", 2),
    (RECORD + "verdict\n", 2),
]
# Texts that `asm` refuses.
BAD_TEXTS = [
    ("bogus\n", 1, "not understood"),
    ("ldabs 0\nret errno/65536\n", 2, "not understood"),
    ("ja x\nret 0\n", 1, "no such name"),
    ("a:\na:\nret 0\n", 2, "name given twice"),
    ("jeq 1 x +0\n" + "ret 0\n" * 256 + "x:\nret 0\n", 1, "jump too far"),
    ("top:\nja top\n", 2, "jump backwards"),
    (";" * 256 + "\n", 1, "over the limit"),
    ("ret 0\n" * 4097, 4097, "over the limit"),
]
# The word, the input, the whole answer and its status.
RUNS = [
    ("eval", RECORD + "filter 060000000000ff7f\n", "return 0x7fff0000 allow data 0 steps 1\n", 0),
    ("eval", RECORD + "filter 0600000002000500\nfilter 0600000001000500\n",
     "return 0x00050001 errno data 1 steps 1\nreturn 0x00050002 errno data 2 steps 1\nverdict 0x00050001 errno data 1\n", 0),
    ("check", REFUSES_GETPPID, "ok 4\n", 0),
    ("asm", "ldabs 0\njeq 110 here +1\nhere:\nret errno/1\nret allow\n", REFUSES_GETPPID, 0),
    ("list", REFUSES_GETPPID, "ldabs 0\njeq 110 +0 +1\nret 0x00050001\nret 0x7fff0000\n", 0),
    ("eval", RECORD + f"filter {RET * 4096}\n" * 7 + f"filter {RET * 4069}\n", "filter 7 refused path limit\n", 1),
    ("check", "zz", "skern: not hexadecimal\n", 1),
    ("list", "0", "skern: not hexadecimal\n", 1),
]
RUNS += [("check", image, text + "\n", 1) for image, text in REFUSED]
RUNS += [("list", image, text + "\n", 1) for image, text in REFUSED if "image" in text]
RUNS += [("eval", RECORD + f"filter {image}\n", f"filter 0 {text}\n", 1) for image, text in REFUSED]
RUNS += [("eval", text, NOT_UNDERSTOOD.format(line), 1) for text, line in BAD_LINES]
RUNS += [("asm", text, f"skern: line {line}: {why}\n", 1) for text, line, why in BAD_TEXTS]
RUNS += [(word, " " * 1048577, "skern: line 0: over the limit\n", 1) for word in ("eval", "check", "asm", "list")]
# Texts that are no scenario.
BAD_SCENARIOS = [
    ("program init\ngetpid\n", 3, "not understood"),
    ("program init\nexecve @x\nend\n", 2, "no such name"),
    ("filter f\nret allow\nend\nprogram init\nfork f\nend\n", 5, "no such name"),
    ("filter f\nja far\nend\nprogram init\nseccomp 1 0 @f\nend\n", 2, "no such name"),
    ("filter f\nja far\nend\nprogram init\ngetp", 5, "not understood"),
    ("filter f\nbytes 00\nbytes 0g\nend\n", 3, "not understood"),
    ("filter f\nend\nprogram f\nend\n", 3, "not understood"),
    ("program init\ngetpid\nend\nturns 0\n", 4, "over the limit"),
    ("filter f\nbytes " + "00" * 120 + "\n" + ("bytes " + "00" * 120 + "\n") * 273 + "end\n", 275, "over the limit"),
]


def worked_scenarios():
    """Each scenario of scenarios.txt with its report: a title is behind '# ', and a line '>' stands between the two."""
    with open(os.path.join(HERE, "scenarios.txt"), encoding="utf-8") as file:
        for scenario in re.split(r"^# .*\n", file.read(), flags=re.M)[1:]:
            yield re.fullmatch(r"(.*?)^>\n(.*)", scenario, flags=re.M | re.S).groups()


SCENARIOS = [(text, report, 0) for text, report in worked_scenarios()]
# The last one attaches its filter in turn 5, so one of its runs is refused memory behind four turns.
FOUR_TURNS = SCENARIOS[-1][0]
SCENARIOS += [(text, f"skern: line {line}: {why}\n", 1) for text, line, why in BAD_SCENARIOS]
OUT_OF_MEMORY = b"skern: out of memory\n"
MOST_ALLOCATIONS = 2000
# Not enough for a call for each filter of the longest chain.
STACK = 256 * 1024
# What BENCH writes of forks, with memory and without.
FORKED = "6554 filters\n"
# As many children as there is room for, and as many others once those are gone: 2 to 1024 and 1025 to 2047.
for pids in (range(2, 1025), range(1025, 2048)):
    FORKED += f"1023 forks, pids {sum(pids)} in sum, 1023 with the filters\n"
FORKED += "memory is "
# What it writes of a kernel that stops, and behind how many of its ten events a kernel wants memory: each that attaches a filter.
ANSWERED = b"10 answers\n"
ATTACHES = {0, 1, 3, 7, 8}


def fronts_of(report):
    """What a report may have before it tells that it is out of memory: the lines of its first turns, none to all."""
    lines = report.encode().splitlines(keepends=True)
    return {b"".join(lines[:turns]) for turns in range(len(lines))}


def front_of(output, status):
    """What stands before the text that says `out of memory`; None where nothing says it."""
    if status != 3 or not output.endswith(OUT_OF_MEMORY):
        return None
    return output[: -len(OUT_OF_MEMORY)]


def main():
    if len(sys.argv) != 3:
        sys.exit(__doc__)
    program, bench = (os.path.abspath(name) for name in sys.argv[1:])
    runs = [([program, word], text, output, status, {b""}) for word, text, output, status in RUNS]
    runs += [([program, "run"], text, output, status, fronts_of(output)) for text, output, status in SCENARIOS]
    turns = set()
    passed = failed = 0
    with tempfile.TemporaryDirectory() as folder:
        shim = os.path.join(folder, "refuse_memory.so")
        subprocess.run(["gcc", "-O1", "-shared", "-fPIC", "-o", shim, os.path.join(HERE, "refuse_memory.c"), "-ldl"], check=True)

        left_in = os.path.join(folder, "left")

        def run(words, text, refused, limits=None):
            env = {"LD_PRELOAD": shim, "REFUSE": str(refused), "LEFT": left_in}
            ran = subprocess.run(words, input=text.encode(), capture_output=True, env=env, timeout=60, preexec_fn=limits)
            # BENCH tells what is wrong on standard error, and answers nothing then.
            output = ran.stderr if words == [bench] and ran.returncode and not ran.stdout else ran.stdout
            with open(left_in, encoding="utf-8") as file:
                return (output, ran.returncode), int(file.read())

        def small_stack():
            resource.setrlimit(resource.RLIMIT_STACK, (STACK, STACK))

        # The last line says that the shim did refuse.
        for task in ("forks list\n", "forks slots\n"):
            for refused, memory in [(0, "there"), ("after-output", "refused")]:
                answer, left = run([bench], task, refused, small_stack)
                if answer == ((FORKED + memory + "\n").encode(), 0) and left == 0:
                    passed += 1
                else:
                    failed += 1
                    print(f"{task.strip()}: where memory is {memory} it gives {answer} and keeps {left} blocks")

        stops = set()
        refusals = 0
        for count in range(MOST_ALLOCATIONS):
            answer, left = run([bench], "forks stop\n", count)
            stopped = re.fullmatch(rb"(?:stopped after (\d+)\n)?" + ANSWERED, answer[0])
            if left == 0 and (stopped and answer[1] == 0 or count > 0 and answer == (OUT_OF_MEMORY, 3)):
                passed += 1
            else:
                failed += 1
                print(f"forks stop: with allocation {count} refused it gives {answer} and keeps {left} blocks")
            if stopped and stopped[1]:
                stops.add(int(stopped[1]))
            if answer != (ANSWERED, 0):
                refusals += 1
            # No allocation is left to refuse.
            if count > refusals + 8:
                break
        if ATTACHES <= stops:
            passed += 1
        else:
            failed += 1
            print(f"forks stop: it stopped after {sorted(stops)} alone")

        for words, text, output, status, fronts in runs:
            word = os.path.basename(words[-1])
            whole = (output.encode(), status)
            refusals = 0
            for count in range(MOST_ALLOCATIONS):
                # The first run refuses nothing.
                answer, left = run(words, text, count)
                front = front_of(*answer)
                if count > 0 and front in fronts:
                    refusals += 1
                    if text == FOUR_TURNS:
                        turns.add(front.count(b"\n"))
                elif answer != whole:
                    failed += 1
                    print(f"{word} on {text[:60]!r}: with allocation {count} refused it gives {answer}")
                    continue
                if left != 0:
                    failed += 1
                    print(f"{word} on {text[:60]!r}: with allocation {count} refused it keeps {left} blocks")
                    continue
                passed += 1
                # No allocation is left to refuse.
                if count > refusals + 8:
                    break
            else:
                failed += 1
                print(f"{word} on {text[:60]!r}: {MOST_ALLOCATIONS} allocations did not do")
        if 4 in turns:
            passed += 1
        else:
            failed += 1
            print(f"run: it was out of memory behind {sorted(turns)} turns alone")
    print(f"{passed} passed, {failed} failed")
    return 1 if failed else 0


if __name__ == "__main__":
    sys.exit(main())
