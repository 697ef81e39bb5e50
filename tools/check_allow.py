#!/usr/bin/env python3
"""Compares the policies that `ask allow` makes of logs with the calls of these logs.

check_allow.py: of logs of strace(1) and of the kernel, those of examples/logs and some that it makes here, where strace is
installed. Of each log the policy becomes a filter, by `ask filter`. By `ask replay` the filter performs each call of the log. By
`ask calls` it allows just the numbers of the log, whose names are read here a second time, and refuses each other one. Where
this Linux lets a process attach a filter, the command runs again under it, and ends as before. So it does under bubblewrap,
where that is installed and runs. So it does with `--args`, where the calls of NARROWED have only the numbers of the log: each that came
is allowed, whatever bits stand above those that Linux reads, and another one is not. Of a log with strace's texts all calls are
narrowed but those of VARYING. Where runc runs, a container is traced and runs again under its own profile: that of the calls
from under the first filter, and that of the program's calls and the runtime's.

Prints what was left out, each problem, and at last 'N passed, M failed'."""
import json
import os
import re
import shutil
import subprocess
import sys
import tempfile

ROOT = os.path.dirname(os.path.dirname(os.path.abspath(__file__)))
ASK = os.path.join(ROOT, "crates/ask/out/ask")
ATTACH = os.path.join(ROOT, "examples/attach")
LOGS = os.path.join(ROOT, "examples/logs")
BUBBLEWRAP = ["bwrap", "--ro-bind", "/", "/", "--dev", "/dev", "--proc", "/proc"]
# The options of strace, and a command: of calls of files, of processes, of sockets, of memory and of time.
RAW = "-f -X raw -e raw=all"
COMMANDS = [
    (RAW, ["/bin/true"]),
    ("-f", ["/bin/echo", "allowed"]),
    ("-f -y", ["/bin/ls", "/"]),
    (RAW, ["/bin/sh", "-c", "echo one | cat; exit 3"]),
    (RAW, ["/bin/ls", "/etc"]),
    (RAW, ["/usr/bin/git", "--version"]),
    ("-f -tt -T", ["/bin/sh", "-c", "(exit 3) & wait $!"]),
    ("-f -t", ["/usr/bin/env", "sort", "/etc/passwd"]),
    ("-f -r -s 200", ["/bin/date", "-u", "+%Y"]),
    ("-f -i", ["/bin/bash", "-c", "for it in 1 2 3; do echo $it; done | sort -r"]),
    ("-f", ["/usr/bin/git", "--version"]),
    ("-f -yy", ["/usr/bin/perl", "-e", "print join ',', map { $_ * 2 } 1 .. 3"]),
    ("-f -v", ["/usr/bin/find", "/etc", "-maxdepth", "1", "-name", "host*"]),
    ("-f -ttt", ["/bin/tar", "cf", "-", "/etc/hostname"]),
    ("-f", ["/usr/bin/awk", 'BEGIN { "echo one" | getline it; print it }']),
    ("-f -a 60", ["/usr/bin/gcc", "--version"]),
    ("-f", ["/usr/bin/python3", "-c", "import json; print(json.dumps([1, 2]))"]),
    ("-f -y", ["/usr/bin/curl", "-s", "http://127.0.0.1:1/"]),
    ("-f -tt", ["/usr/bin/zsh", "-f", "-c", "print $((2 + 3))"]),
    ("-f", ["/usr/bin/sqlite3", ":memory:", "select 1 + 1"]),
    ("-f", ["/usr/sbin/nginx", "-v"]),
    ("-f", ["/usr/sbin/sshd", "-T"]),
    ("-f", ["/usr/bin/bwrap", "--ro-bind", "/", "/", "--unshare-pid", "--dev", "/dev", "/bin/true"]),
]
# What runs in a container: it writes a line, and has a child.
PROGRAM = """#include <stdio.h>
#include <sys/wait.h>
#include <unistd.h>
int main(void) { if (fork() == 0) return 3; int status; wait(&status); printf("child %d\\n", WEXITSTATUS(status)); return 0; }
"""
# Calls with the arguments that are no addresses, and the bits that Linux reads of each: the manual, and int and size_t of C.
NARROWED = {
    "openat": {0: 32, 2: 32}, "access": {1: 32}, "fcntl": {0: 32, 1: 32}, "ioctl": {0: 32, 1: 32}, "socket": {0: 32, 1: 32, 2: 32},
    "prlimit64": {0: 32, 1: 32}, "dup2": {0: 32, 1: 32}, "close": {0: 32}, "lseek": {0: 32, 1: 64, 2: 32},
    "mmap": {1: 64, 2: 32, 3: 64, 4: 32, 5: 64}, "mprotect": {1: 64, 2: 64}, "munmap": {1: 64},
}
# Of these the first argument is an address, which is another one in each run.
ADDRESSES = {"mmap", "mprotect", "munmap"}
# Numbers of times and of processes, and what is read from others, are others in each run.
VARYING = {"poll", "ppoll", "epoll_wait", "nanosleep", "clock_nanosleep", "futex", "wait4", "kill", "tgkill", "setpgid", "read", "write"}
SHOWN = re.compile(r"^(?:\d+ +)?(\w+)\((.*?)(?:\)? += .*| <unfinished \.\.\.>)$", re.M)
SECONDS = 60
X32 = 1 << 30
CALL = re.compile(r"^(?:\d+ +)?(?:(?:[\d:.]+|\[[0-9a-f]+\]) +)?(\w+)\(", re.M)
LOGGED = re.compile(r"\btype=1326 .*\barch=c000003e syscall=(\d+) ")
ROW = re.compile(r"^(\d+)(?:-(\d+))? (\S+) (.+)$")

passed = failed = 0


def judge(holds, what):
    global passed, failed
    if holds:
        passed += 1
    else:
        failed += 1
        print(f"FAILED {what}")


def run(words, given=b""):
    return subprocess.run(words, input=given, capture_output=True, timeout=SECONDS, check=False)


def ask(*words, given=b""):
    return run([ASK, *words], given)


def calls_in(log):
    """The names of the calls of a log, each read by one expression; and their numbers, of lines of the kernel."""
    with open(log, encoding="utf-8", errors="replace") as file:
        text = file.read()
    return {it for it in CALL.findall(text) if not it.startswith("syscall_0x")}, set(map(int, LOGGED.findall(text)))


def rows_of(text):
    return [(int(row[1]), int(row[2] or row[1]), row[3], row[4]) for row in map(ROW.match, text.splitlines()) if row]


def check_rows(what, policy, names, known):
    """The rows of a policy are the calls of its log, each once and in rising order."""
    lines = policy.splitlines()
    rows = rows_of(policy)
    judge(lines[:1] == ["default errno/1 EPERM"] and len(rows) + 1 == len(lines), f"{what}: the lines of the policy")
    judge([row[0] for row in rows] == sorted({row[0] for row in rows}), f"{what}: its rows rise")
    told = {row[2] for row in rows if row[0] not in known} - {"-"}
    judge(told == names and known <= {row[0] for row in rows} and all(row[3] == "allow" for row in rows), f"{what}: its rows are the calls of the log")
    return {row[0] for row in rows}


def check_filter(what, log, policy, numbers):
    """The filter of a policy performs each call of the log, and allows no number but theirs."""
    made = ask("filter", "-", given=policy.encode())
    judge(made.returncode == 0 and made.stdout.startswith(b"filter "), f"{what}: ask filter makes a filter of the policy")
    replayed = ask("replay", log, "-", given=made.stdout)
    judge(replayed.returncode == 0, f"{what}: each call of the log is performed")
    told = rows_of(ask("calls", "-", given=made.stdout).stdout.decode())
    allowed = {row[0] for row in told if row[0] == row[1] and row[3] == "allow"}
    judge(allowed == numbers, f"{what}: these numbers are allowed, and no others")
    wide = [row for row in told if row[0] != row[1] and "allow" in row[3]]
    judge(told and not wide, f"{what}: no other number is allowed")
    ended = [row for row in told if row[3] == "kill_process"]
    judge(all(X32 <= row[0] for row in ended) and all(row[3] in ("allow", "errno/1 EPERM", "kill_process") for row in told),
          f"{what}: all others get EPERM, but for those of x32")
    return made.stdout


def can_attach():
    return run([sys.executable, ATTACH, "/bin/true"], b"filter 060000000000ff7f\n").returncode == 0


def can_wrap():
    return shutil.which(BUBBLEWRAP[0]) is not None and run([*BUBBLEWRAP, "/bin/true"]).returncode == 0


def check_again(what, command, policy, before):
    """The command ends under the filter of its policy as it did without it."""
    ran = run([sys.executable, ATTACH, *command], ask("filter", "-", given=policy).stdout)
    judge((ran.returncode, ran.stdout) == (before.returncode, before.stdout), f"{what}: it runs under the filter as before")


def check_wrapped(what, command, policy):
    """The command ends in a sandbox with the filter of its policy as it does in one without it."""
    before = run([*BUBBLEWRAP, *command])
    with tempfile.TemporaryFile() as file:
        file.write(ask("filter", "--to", "raw", "-", given=policy).stdout)
        file.seek(0)
        words = [*BUBBLEWRAP, "--seccomp", str(file.fileno()), *command]
        ran = subprocess.run(words, stdin=subprocess.DEVNULL, capture_output=True, timeout=SECONDS, check=False, pass_fds=[file.fileno()])
    judge((ran.returncode, ran.stdout) == (before.returncode, before.stdout), f"{what}: it runs in a sandbox with the filter as in one without")


def arguments_in(log):
    """The arguments that each line with a call of NARROWED shows, in a log of numbers."""
    with open(log, encoding="utf-8", errors="replace") as file:
        found = {}
        for name, text in SHOWN.findall(file.read()):
            if name in NARROWED:
                found.setdefault(name, []).append([int(it, 16) for it in text.split(", ")])
    return found


def check_narrowed(what, log):
    """Calls of a log of numbers are allowed with the numbers of the log, as far as Linux reads them, and with no others."""
    found = arguments_in(log)
    if not found:
        return b""
    policy = ask("allow", "--args", ",".join(sorted(found)), log).stdout
    judge(ask("replay", log, "-", given=policy).returncode == 0, f"{what}: each call of the log is allowed with its arguments")
    told = ask("filter", "-", given=policy).stdout

    def verdict(name, arguments):
        return ask("why", f"{name}({', '.join(map(hex, arguments))})", "-", given=told).stdout.splitlines()[-1].split(b" by ")[0]

    for name in sorted(ADDRESSES & set(found)):
        judge(verdict(name, [0x123000, *found[name][0][1:]]) == b"allow", f"{what}: {name} is allowed at another address")
    for name, calls in sorted(found.items()):
        for i, bits in NARROWED[name].items():
            # A call that has not returned may show fewer.
            if any(len(call) <= i for call in calls):
                continue
            came = {call[i] % (1 << bits) for call in calls}
            other = next(it for it in range(7, 7 + len(came) + 1) if it not in came)
            one = [*calls[0][:i], other, *calls[0][i + 1:]]
            judge(verdict(name, one) == b"errno/1 EPERM", f"{what}: {name} is refused with {other} as argument {i + 1}")
            wide = [*calls[0][:i], calls[0][i] | (5 << bits if bits < 64 else 0), *calls[0][i + 1:]]
            judge(verdict(name, wide) == b"allow", f"{what}: {name} is allowed whatever stands above {bits} bits of argument {i + 1}")
    return policy


def narrowed_wholly(what, log):
    """The policy that narrows the calls of a log, but for those of VARYING and those whose arguments, it says, no line shows."""
    names = calls_in(log)[0] - VARYING
    while names:
        made = ask("allow", "--args", ",".join(sorted(names)), log)
        if made.returncode != 2:
            judge(made.returncode == 0 and ask("replay", log, "-", given=made.stdout).returncode in (0, 1), f"{what}: all its calls are narrowed")
            return made.stdout
        names.remove(made.stderr.decode().split()[-1])
    return b""


def check_log(what, log):
    made = ask("allow", log)
    judge(made.returncode == 0 and not made.stderr, f"{what}: ask allow answers")
    policy = made.stdout.decode()
    numbers = check_rows(what, policy, *calls_in(log))
    return policy, check_filter(what, log, policy, numbers)


def check_command(folder, number, options, command, attaches, wraps):
    what = f"strace {options} {' '.join(command)}"
    log = os.path.join(folder, f"{number}.strace")
    before = run(command)
    traced = run(["strace", *options.split(), "-o", log, *command])
    if traced.returncode != before.returncode or not os.path.exists(log):
        print(f"left out: strace can't trace {what} here")
        return
    check_log(what, log)
    # The filter stands before the command's execve, which is in the log; what attaches it goes on in between.
    narrowed = (check_narrowed if options == RAW else narrowed_wholly)(what, log)
    for policy in filter(None, (ask("allow", log).stdout, narrowed)):
        if attaches:
            check_again(what, command, policy, before)
        if wraps:
            check_wrapped(what, command, policy)


def contained(folder, name, profile, *before):
    """Runs the program in a container with this profile."""
    run(["runc", "spec", "--bundle", folder])
    path = os.path.join(folder, "config.json")
    with open(path, encoding="utf-8") as file:
        configuration = json.load(file)
    configuration["process"].update(args=["/bin/program"], terminal=False)
    configuration["linux"]["seccomp"] = profile
    with open(path, "w", encoding="utf-8") as file:
        json.dump(configuration, file)
    ran = run([*before, "runc", "run", "--bundle", folder, f"check-{os.getpid()}-{name}"])
    os.unlink(path)
    return ran


def check_container(folder):
    """A container runs again under the profile of its own log, and under that of its program and its runtime."""
    os.makedirs(os.path.join(folder, "rootfs/bin"))
    program, log = os.path.join(folder, "rootfs/bin/program"), os.path.join(folder, "runc.strace")
    if run(["gcc", "-static", "-o", program, "-x", "c", "-"], PROGRAM.encode()).returncode:
        return print("left out: a container, since gcc makes no static program here")
    allowing = {"defaultAction": "SCMP_ACT_LOG"}
    before = contained(folder, "before", allowing)
    if (before.returncode, before.stdout) != (0, b"child 3\n"):
        return print("left out: a container, since runc does not run here")
    contained(folder, "traced", allowing, "strace", "-f", "-o", log)
    made = ask("allow", "--since-seccomp", "--for", "docker", "--to", "profile", log)
    judge(made.returncode == 0 and not made.stderr, "the log of a container has no line that is not understood")
    ran = contained(folder, "under", json.loads(made.stdout))
    judge((ran.returncode, ran.stdout) == (0, b"child 3\n"), "a container runs under the profile of its log")
    names, every = set(json.loads(made.stdout)["syscalls"][0]["names"]), calls_in(log)[0]
    judge({"execve", "wait4", "exit_group"} <= names and not names & {"mount", "pivot_root", "unshare", "setns"},
          "no call counts that runc makes before the filter")
    judge({"mount", "pivot_root"} <= every, "runc makes such calls")
    run(["strace", "-f", "-o", log, program])
    made = ask("allow", "--for", "docker", "--to", "profile", log)
    ran = contained(folder, "apart", json.loads(made.stdout))
    judge((ran.returncode, ran.stdout) == (0, b"child 3\n"), "a container runs under the profile of its program and its runtime")
    refused = json.loads(made.stdout)
    refused["syscalls"][0]["names"].remove("execve")
    ran = contained(folder, "refused", refused)
    judge(ran.returncode != 0, "a container does not run without the call that starts its program")


def check_several(folder):
    """Several logs are one, and what is no log is refused."""
    read, write = os.path.join(folder, "read"), os.path.join(folder, "write")
    empty, cut = os.path.join(folder, "empty"), os.path.join(folder, "cut")
    for path, text in ((read, "9 read(0, 0, 0) = 0\n"), (write, "9 write(0x1, 0, 0) = 0\n9 +++ exited with 0 +++\n"), (empty, ""),
                       (cut, "9 read(0, 0, 0) = 0\nno line of strace\n")):
        with open(path, "w", encoding="utf-8") as file:
            file.write(text)
    both = ask("allow", write, read)
    judge((both.returncode, both.stdout) == (0, b"default errno/1 EPERM\n0 read allow\n1 write allow\n"), "several logs are one")
    given = ask("allow", "-", given=b"9 getpid() = 0x9\n")
    judge((given.returncode, given.stdout) == (0, b"default errno/1 EPERM\n39 getpid allow\n"), "a log on standard input")
    other = ask("allow", "--arch", "aarch64", read)
    judge((other.returncode, other.stdout) == (0, b"arch aarch64\ndefault errno/1 EPERM\n63 read allow\n"), "a log of aarch64")
    none = ask("allow", read, empty)
    judge((none.returncode, none.stdout) == (2, b"") and b"holds no call" in none.stderr, "a log without a call is refused")
    unclear = ask("allow", cut)
    judge((unclear.returncode, unclear.stdout, unclear.stderr.count(b"\n")) == (1, b"default errno/1 EPERM\n0 read allow\n", 1)
          and unclear.stderr.endswith(b": 1 line is not understood\n"), "a line that is not understood is told")


def main():
    for name in sorted(os.listdir(LOGS)):
        check_log(name, os.path.join(LOGS, name))
    with tempfile.TemporaryDirectory() as folder:
        check_several(folder)
        if shutil.which("strace") is None:
            print("left out: logs that are made here, since strace is not installed")
        else:
            attaches, wraps = can_attach(), can_wrap()
            if not attaches:
                print("left out: commands under their filters, since none can be attached here")
            if not wraps:
                print("left out: commands in a sandbox, since bubblewrap is not installed or does not run here")
            for number, (options, command) in enumerate(COMMANDS):
                if shutil.which(command[0]) is None:
                    print(f"left out: {command[0]} is not installed")
                else:
                    check_command(folder, number, options, command, attaches, wraps)
            if shutil.which("runc") is None or os.geteuid():
                print("left out: a container, since runc is not installed or this is not root")
            else:
                check_container(folder)
    print(f"{passed} passed, {failed} failed")
    return failed != 0 or passed == 0


if __name__ == "__main__":
    sys.exit(main())
