#!/usr/bin/env python3
"""Checks that the scripts fail closed: what they can't read, understand or follow is told on standard error, has a status
of its own, and comes to no answer. And that the programs do with the stack that README.md names.

check_scripts.py [FOLDER]: each row is a command, run by bash in FOLDER, which is this repository where none is named, with
the status that it has to end with, a pattern for what stands on standard error, and one for standard output, each for the
whole of it. Prints each row that comes out otherwise, and at last 'N passed, M failed'. A row that needs a privilege which
is not there is told, and not counted."""
import os
import re
import shutil
import subprocess
import sys
import tempfile
from typing import NamedTuple

ROOT = os.path.dirname(os.path.dirname(os.path.abspath(__file__)))
SECONDS = 120
# As README.md names it, in KiB.
STACK = 256
# What each row may name: filters, a folder of its own, and ways to give up a privilege that root has.
PRELUDE = """
tree=examples/filters/docker-default-tree.hex
linear=examples/filters/docker-default-linear.hex
openat=010100003e0000c0$(printf 0%.0s $(seq 112))
fail() { echo "$1" >&2; exit 99; }
sandboxed() { # starts a process that has attached a filter, as $pid
    ./ask filter $linear | examples/attach sleep 100 &
    pid=$!
    for turn in $(seq 100); do
        if grep -q '^Seccomp:.2' /proc/$pid/status; then return; fi
        sleep 0.1
    done
    fail 'no process attached a filter'
}
"""
THREADS = """
import os, threading, time
for _ in range(8):
    threading.Thread(target=lambda: [os.getppid() for _ in iter(int, 1)], daemon=True).start()
time.sleep(0.2)
os._exit(7)
"""


class Row(NamedTuple):
    command: str
    status: int
    complaint: str
    answer: str


# Good uses, so that a row below fails for what it says and for nothing else.
GOOD = [
    Row("./ask why clone3 $tree | tail -n 1", 0, "", r"errno/38 ENOSYS by filter 0 at \d+\n"),
    Row("./ask filter $tree | examples/attach echo ran", 0, "", r"ran\n"),
    Row("./ask filter $tree | examples/attached examples/attach true | grep -c '^filter '", 0, "", r"1\n"),
    Row("sandboxed; examples/process-filters $pid > $room/seen; status=$?; kill $pid; ./ask diff $room/seen $linear || status=1; exit $status",
        0, "", r"the same on every call\n"),
]
# A filter that can't be read is not left out: what comes behind a pipe finds no filter, and answers nothing.
NO_FILTER = r"ask: -: holds no filter: .*\n"
ASKED = [
    Row("examples/process-filters | ./ask why openat -", 2, r"process-filters: process-filters PID\n" + NO_FILTER, ""),
    Row("examples/process-filters 1x | ./ask why openat -", 2, r"process-filters: process-filters PID\n" + NO_FILTER, ""),
    Row("examples/process-filters $$ | ./ask why openat -", 2, r"(process-filters: .*\n)?" + NO_FILTER, ""),
    Row("examples/process-filters 4194305 | ./ask why openat -", 2, r"process-filters: process 4194305: .*\n" + NO_FILTER, ""),
    Row("sandboxed; $unprivileged examples/process-filters $pid | ./ask why openat -; status=$?; kill $pid; exit $status",
        2, r"process-filters: process \d+: (Operation not permitted|Permission denied)\n" + NO_FILTER, ""),
    Row("examples/attached true | ./ask why openat -", 2, r"attached: no filter was attached\nask: -: line \d+: .*\n", ""),
    Row("./ask filter nofile | ./ask why openat -", 2, r"ask: nofile: no such file\n" + NO_FILTER, ""),
]
# Nothing is run outside the filters that it was to have.
ATTACHED = [
    Row("./ask filter nofile | examples/attach echo ran", 125, r"ask: .*\nattach: standard input names no filter; nothing was run\n", ""),
    Row("examples/attach echo ran < /dev/null", 125, r"attach: standard input names no filter; nothing was run\n", ""),
    Row("echo '; none' | examples/attach echo ran", 125, r"attach: standard input names no filter; nothing was run\n", ""),
    Row("{ ./ask filter $tree; echo filters 060000000000ff7f; } | examples/attach echo ran", 125, r"attach: line 2 .*; nothing was run\n", ""),
    Row("examples/attach echo ran < $tree", 125, r"attach: line 1 .*; nothing was run\n", ""),
    Row("echo filter 060000000000ff7 | examples/attach echo ran", 125, r"attach: line 1 .*; nothing was run\n", ""),
    Row("echo filter 060000000000ff7f06 | examples/attach echo ran", 125, r"attach: line 1 .*; nothing was run\n", ""),
    Row("echo filter | examples/attach echo ran", 125, r"attach: line 1 .*; nothing was run\n", ""),
    Row("echo filter 0000000000000000 | examples/attach echo ran", 125, r"attach: Invalid argument; nothing was run\n", ""),
    Row("examples/attach < $tree", 125, r"usage: attach .*\n", ""),
    Row("./ask filter $tree | examples/attach nosuchcommand", 127, r"attach: nosuchcommand: .*\n", ""),
    Row("./ask filter $tree | examples/attach $tree", 126, r"attach: \S+: Permission denied\n", ""),
    Row("./ask filter $linear | examples/attached examples/attach sh -c 'exit 7' | tail -n 1 | cut -c 1-22; exit ${PIPESTATUS[1]}",
        7, "", r"filter 200000000400000\n"),
    Row("./ask filter $linear | examples/attached examples/attach sh -c 'kill -9 $$' > /dev/null", 137, "", ""),
    Row("for turn in $(seq 12); do ./ask filter $linear | examples/attached examples/attach python3 -c \"$threads\" > /dev/null; echo $?; done",
        0, "", r"(7\n){12}"),
    Row("examples/attached true > /dev/null", 125, r"attached: no filter was attached\n", ""),
    Row("examples/attached nosuchcommand", 127, r"attached: nosuchcommand: .*\n", r"unread\n"),
    Row("examples/attached", 125, r"usage: attached .*\n", r"unread\n"),
]
# What is made of profiles, where Python has libseccomp's module and where it has not.
MADE = [
    Row("tools/libseccomp_filters $room $room/none.json", 2, r"libseccomp_filters: .*\n", ""),
    Row("tools/libseccomp_filters $room gate", 2, r"libseccomp_filters: .*\n", ""),
    Row("echo [1] > $room/list.json; tools/libseccomp_filters $room $room/list.json", 2, r"libseccomp_filters: .*\n", ""),
    Row("tools/libseccomp_filters --native $room $room/none.json", 2, r"libseccomp_filters: .*\n", ""),
    Row("tools/libseccomp_filters --machine s390x $room examples/profiles/service.json", 2, r"(libseccomp_filters|usage): [\s\S]*\n", ""),
    Row("tools/filter_sizes.py $room $room/none.json", 2, r"filter_sizes.py: .*\n", ""),
]
# What compares tables with headers: where there are none, and where these say something else.
COMPARED = [
    Row("tools/call_names --arch vax --check $room", 2, r"call_names: .*\n", ""),
    Row("tools/call_arguments --check $room", 2, r"call_arguments: [\s\S]*\n", ""),
    Row("tools/call_names --arch i386 --check $room", 2, r"call_names: \S+: asm/unistd.h can't be read: [\s\S]*", ""),
    Row("mkdir $room/asm; echo '#define __NR_read 3' > $room/asm/unistd.h; tools/call_names --arch i386 --check $room", 2,
        r"call_names: \S+ has no headers of calls of i386\n", ""),
    Row("mkdir $room/asm; { printf '#define __NR_%s\\n' 'read 3' 'write 4' 'execve 12'; for it in $(seq 1000 1300); do echo \"#define __NR_call$it $it\"; "
        "done; } > $room/asm/unistd.h; tools/call_names --arch i386 --check $room | grep '^1[12]:'", 1, "",
        r"11: no call in the headers, execve in the table of i386\n12: execve in the headers, chdir in the table of i386\n"),
    Row("tools/check_call_names.py $room", 1, "", r"check_call_names.py: \S+: linux/version.h can't be read: [\s\S]*\n0 passed, 1 failed\n"),
    Row("tools/call_names --audit $room", 2, r"call_names: \S+: linux/audit.h can't be read: [\s\S]*", ""),
    Row("tools/other_architectures.py $room/none", 2, r"other_architectures.py: .*\n", ""),
]
# Each program under the stack that is named, on input that takes as much of its depth as any that is known.
UNDER_STACK = [
    Row("{ echo record $openat; for turn in $(seq 24); do ./ask filter $tree; done; } > $room/in; narrow skern eval | tail -n 1", 0, "",
        r"verdict 0x7fff0000 allow data 0\n"),
    Row("printf '0600000000000000%.0s' $(seq 4096) > $room/in; narrow skern check", 0, "", r"ok 4096\n"),
    Row("printf '0600000000000000%.0s' $(seq 4096) > $room/in; narrow skern list | uniq -c", 0, "", r" *4096 ret 0x00000000\n"),
    Row("{ printf 'jeq 1 end +0\\n%.0s' $(seq 200); echo end:; echo ret allow; } > $room/in; narrow skern asm | tail -n 1", 0, "", r"060000000000ff7f\n"),
    Row("container=$(echo filter container; sed 's/^/bytes /' $tree; echo end); for it in examples/scenarios/*.scenario examples/differences/*.scenario; do { [[ $it != */start.scenario ]] || echo \"$container\"; cat $it; } > $room/in; narrow skern run | tail -n 1; done | cut -c 1-4 | uniq",
        0, "", r"end \n"),
    Row("./ask filter $tree > $room/in; narrow ask calls --examples - | grep -c ' filter 0 at '", 0, "", r"[1-9]\d\d\n"),
    Row("./ask filter $tree > $room/in; narrow ask when - | grep -c else", 0, "", r"2\n"),
    Row("./ask filter $tree > $room/in; narrow ask diff $linear -", 0, "", r"the same on every call\n"),
    Row("{ for turn in $(seq 24); do ./ask filter $tree; done; } > $room/in; narrow ask why openat - | tail -n 1", 0, "", r"allow by filter 23 at \d+\n"),
]


def without(capabilities):
    """Words before a command that take these from root; nothing where it has none; None where it can't be done."""
    if os.geteuid():
        return ""
    return f"setpriv --bounding-set={','.join('-' + it for it in capabilities)}" if shutil.which("setpriv") else None


def variables(room):
    """What the rows name beside the prelude."""
    return {"room": room, "threads": THREADS, "as_owner": without(["dac_override", "dac_read_search"]), "unprivileged": without(["sys_admin"])}


def narrow(folder):
    """The shell's function that runs a program on the file `in`, under the stack that is named, with no environment."""
    place = f"{folder}/crates/$1/out/$1" if os.path.exists(f"{folder}/crates") else f"{folder}/$1"
    return f'narrow() {{ (ulimit -S -s {STACK} && exec env -i "{place}" "${{@:2}}" < "$room/in"); }}\n'


def judged(row, folder):
    """What is wrong with a row, or nothing; None where it can't be tried."""
    with tempfile.TemporaryDirectory() as room:
        given = variables(room)
        if any(value is None and f"${name}" in row.command for name, value in given.items()):
            return None
        script = "set -o pipefail\n" + PRELUDE + narrow(folder) + row.command
        env = {**os.environ, "SKERN_PROVED": "1", **{name: value or "" for name, value in given.items()}}
        ran = subprocess.run(["bash", "-c", script], cwd=folder, env=env, stdin=subprocess.DEVNULL, capture_output=True,
                             text=True, timeout=SECONDS, check=False)
    return [f"{what} is {it!r} and not {wanted!r}" for what, it, wanted, is_so in (
        ("status", ran.returncode, row.status, ran.returncode == row.status),
        ("standard error", ran.stderr[-400:], row.complaint, re.fullmatch(row.complaint, ran.stderr)),
        ("standard output", ran.stdout[:400], row.answer, re.fullmatch(row.answer, ran.stdout))) if not is_so]


def main(words):
    folder = os.path.abspath(words[0]) if words else ROOT
    passed = failed = 0
    made = MADE + COMPARED if os.path.exists(f"{folder}/tools") else []
    for row in GOOD + ASKED + ATTACHED + made + UNDER_STACK:
        try:
            problems = judged(row, folder)
        except subprocess.TimeoutExpired:
            problems = [f"there is no end within {SECONDS} seconds"]
        if problems is None:
            print(f"not tried, for want of setpriv: `{row.command}`")
            continue
        passed += not problems
        failed += bool(problems)
        for problem in problems:
            print(f"`{row.command}`: {problem}")
    print(f"{passed} passed, {failed} failed")
    return 1 if failed else 0


if __name__ == "__main__":
    sys.exit(main(sys.argv[1:]))
