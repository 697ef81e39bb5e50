#!/usr/bin/env python3
"""Checks what the built program `ask` does with files, words and streams that are good, bad or missing: what is wrong is one
line on standard error with status 2, and nothing is answered then. And that it names errors as errno(3) of this machine does.

check_ask.py [PROGRAM]: each row is a command, run by bash in a folder of files, with the status, the whole of standard error
and the whole of standard output that it has to end with. `ask` in a command is PROGRAM, or else the one that is built here.
Prints each row that comes out otherwise, and at last 'N passed, M failed'. A row that needs a privilege to be given up where
that can't be done is told, and not counted."""
import errno
import gzip
import itertools
import json
import os
import re
import shutil
import struct
import subprocess
import sys
import tempfile
from typing import NamedTuple

ROOT = os.path.dirname(os.path.dirname(os.path.abspath(__file__)))
SECONDS = 60
# What proves the program.
KIT = subprocess.run(["rt", "version"], capture_output=True, text=True, check=True).stdout.split()[0]
MIB = 1 << 20


def insn(code, jt=0, jf=0, k=0, order="<"):
    return struct.pack(order + "HBBI", code, jt, jf, k)


LOAD_NUMBER, RETURN_ALLOW = insn(0x20), insn(0x06, k=0x7FFF0000)
ALLOW = RETURN_ALLOW
# getpid is call 39, and gets errno 1.
GETPID = LOAD_NUMBER + insn(0x15, 0, 1, 39) + insn(0x06, k=0x00050001) + ALLOW
# socket(2) with domain 16 gets errno 22: by all 64 bits, and by the lower 32; and all but that domain does, by all 64 bits.
WIDE = LOAD_NUMBER + insn(0x15, 0, 5, 41) + insn(0x20, k=16) + insn(0x15, 0, 3, 16) + insn(0x20, k=20) + insn(0x15, 0, 1, 0) + insn(0x06, k=0x00050016) + ALLOW
NARROW = LOAD_NUMBER + insn(0x15, 0, 3, 41) + insn(0x20, k=16) + insn(0x15, 0, 1, 16) + insn(0x06, k=0x00050016) + ALLOW
ONLY = LOAD_NUMBER + insn(0x15, 0, 5, 41) + insn(0x20, k=16) + insn(0x15, 0, 2, 16) + insn(0x20, k=20) + insn(0x15, 1, 0, 0) + insn(0x06, k=0x00050016) + ALLOW
# The calls of aarch64 come to 5, those of x86-64 to 7, and both to 8.
OF_TWO = insn(0x20, k=4) + insn(0x15, 2, 0, 0xC00000B7) + insn(0x15, 3, 0, 0xC000003E) + insn(0x06, k=0x80000000) + LOAD_NUMBER \
    + insn(0x15, 2, 2, 221) + LOAD_NUMBER + insn(0x15, 0, 0, 59) + insn(0x15, 0, 0, 63) + ALLOW
# 4000 instructions: nine times they are past the limit of a chain.
LONG = LOAD_NUMBER * 3999 + ALLOW


def entry(name, action="SCMP_ACT_ALLOW", **more):
    return {"names": [name], "action": action, **more}


def argument(index, value, op="SCMP_CMP_EQ", **more):
    return {"index": index, "value": value, "op": op, **more}


def profile(*entries, default="SCMP_ACT_ALLOW", **more):
    return json.dumps({"defaultAction": default, **more, "syscalls": entries}).encode()


# getpid has errno 1, as by GETPID; read is allowed where CAP_SYS_ADMIN is held, and ptrace from Linux 4.8 on.
PROFILE = profile(entry("getpid", "SCMP_ACT_ERRNO"), entry("read", "SCMP_ACT_LOG", excludes={"caps": ["CAP_SYS_ADMIN"]}),
                  entry("ptrace", "SCMP_ACT_KILL", excludes={"minKernel": "4.8"}))


# Where a profile stands in other documents.
def configuration(seccomp):
    process = {"user": {"uid": 0, "gid": 0}, "args": ["sh"], "cwd": "/", "capabilities": {"bounding": ["CAP_KILL"]}, "noNewPrivileges": True}
    linux = {"namespaces": [{"type": "pid"}], "maskedPaths": ["/proc/kcore"]}
    return json.dumps({"ociVersion": "1.0.2-dev", "process": process, "root": {"path": "rootfs"}, "linux": {**linux, "seccomp": seccomp}}).encode()


def kubernetes(spec):
    return json.dumps({"apiVersion": "security-profiles-operator.x-k8s.io/v1beta1", "kind": "SeccompProfile", "metadata": {"name": "it"}, "spec": spec}).encode()


def inspected(*options):
    """What docker inspect prints of a container that has these options of security, as far as it has to do with them."""
    settings = {"NetworkMode": "default", "CapAdd": None, "SecurityOpt": list(options) if options else None, "Privileged": False}
    return json.dumps([{"Id": "e3b0", "Path": "sh", "State": {"Status": "running"}, "HostConfig": settings}], indent=4).encode()


def line(image):
    return f"filter {image.hex()}\n".encode()


DIGITS = GETPID.hex()
SPREAD = " ".join(DIGITS[place:place + 16] for place in range(0, len(DIGITS), 16))
FILES = {
    "raw": GETPID,
    "digits": DIGITS.encode() + b"\n",
    "upper": DIGITS.upper().encode(),
    "spread": SPREAD.replace(" ", " \n").encode() + b"\n",
    "crlf": SPREAD.replace(" ", "\r\n").encode() + b"\r\n",
    "lines": b"; a filter\n# and another comment\n\n" + line(GETPID),
    "lines_crlf": b"; a filter\r\n" + line(GETPID).replace(b"\n", b"\r\n"),
    "all": ALLOW.hex().encode(),
    "two": line(ALLOW) + line(GETPID),
    "sixteen": line(ALLOW) * 16,
    "thirty_two": line(ALLOW) * 32,
    "thirty_three": b"; one too many\n" + line(ALLOW) * 33,
    "empty": b"",
    "blank": b" \n\r\n  ",
    "comments": b"; nothing\n# here\n",
    "odd": b"060000000000ff7",
    "word": b"; one\nhello\n",
    "bad_digits": line(ALLOW) + b"filter 06zz\n",
    "odd_line": b"filter 060000000000ff7\n",
    "no_digits": b"filter\n",
    # What is no filter, by how it begins: the start of a program, a profile as gzip, Windows' editors and yq write it, what
    # seccomp_export_pfc(3) writes, and a unit. And what begins nearly so.
    "elf": b"\x7fELF\x02\x01\x01" + bytes(57), "gzip": gzip.compress(PROFILE, mtime=0), "utf16": PROFILE.decode().encode("utf-16"),
    "utf16_big": b"\xfe\xff" + PROFILE.decode().encode("utf-16-be"), "yaml": b"defaultAction: SCMP_ACT_ALLOW\nsyscalls: []\n",
    "yaml_document": b"---\ndefaultAction: SCMP_ACT_ALLOW\n", "manifest": b"apiVersion: security-profiles-operator.x-k8s.io/v1beta1\nkind: SeccompProfile\n",
    "pseudo_code": b"#\n# pseudo filter code start\n#\n# filter for arch x86_64 (3221225534)\nif ($arch == 3221225534)\n  # default action\n  action ALLOW;\n",
    "unit": b"[Unit]\nDescription=it\n[Service]\nSystemCallFilter=@system-service\n", "service": b"[Service]\nSystemCallFilter=~@mount\n",
    "minijail": b"@include /usr/share/policy/common.policy\nread: 1\n", "minijail_default": b"@default kill-thread\nread: 1\n",
    "policy_of_code": b"#\n# pseudo filter code start\n#\n# filter for a service\ndefault allow\nothers allow\n39 getpid errno/1\n",
    "elf_nearly": b"\x7fELV" + bytes(60), "gzip_nearly": b"\x1f\x8c" + bytes(62), "dashes": b"--- \ndefault allow\n",
    # getpid as tcpdump -dd and -ddd write a filter, of which one begins as a profile does; tools/check_forms.py has the other forms.
    "array": b"{ 0x20, 0, 0, 0x00000000 },\n{ 0x15, 0, 1, 0x00000027 },\n{ 0x6, 0, 0, 0x00050001 },\n{ 0x6, 0, 0, 0x7fff0000 },\n",
    "array_in_one_line": b"{32, 0, 0, 0}, {21, 0, 1, 39}, {6, 0, 0, 327681}, {6, 0, 0, 2147418112}",
    "array_marked": b"\xef\xbb\xbf{32, 0, 0, 0}, {21, 0, 1, 39}, {6, 0, 0, 327681}, {6, 0, 0, 2147418112}",
    "array_cut": b"{ 0x20, 0, 0, 0x00000000 },\n{ 0x15, 0, 1, 0x00000027 },\n{ 0x6, 0, 0, 0x0005", "array_of_three": b"{ 0x20, 0, 0 },\n",
    "decimals": b"4\n32 0 0 0\n21 0 1 39\n6 0 0 327681\n6 0 0 2147418112\n", "decimals_short": b"5\n32 0 0 0\n21 0 1 39\n6 0 0 327681\n6 0 0 2147418112\n",
    "decimals_long": b"3\n32 0 0 0\n21 0 1 39\n6 0 0 327681\n6 0 0 2147418112\n", "decimals_none": b"0\n6 0 0 2147418112\n", "decimals_in_one_line": b"2,6 0 0 2147418112,\n",
    # A byte order mark stands before a text alone, and once.
    "marked": b"\xef\xbb\xbf" + line(GETPID), "marked_digits": b"\xef\xbb\xbf" + GETPID.hex().encode(), "marked_policy": b"\xef\xbb\xbfdefault allow\nothers allow\n39 getpid errno/1\n",
    "marked_twice": b"\xef\xbb\xbf\xef\xbb\xbf" + line(GETPID), "half_marked": b"\xef\xbb" + line(GETPID), "mark": b"\xef\xbb\xbf", "raw_marked": b"\xef\xbb\xbf" + GETPID,
    "tab": line(ALLOW).replace(b" ", b"\t"),
    "glued": b"filter060000000000ff7f\n",
    "record": b"record 00\n" + line(ALLOW),
    "big_endian": insn(0x20, order=">") + insn(0x06, k=0x7FFF0000, order=">"),
    "turned": insn(0x20, order=">") + insn(0x15, 0, 1, 20, order=">") + insn(0x06, k=0x00050001, order=">") + insn(0x06, k=0x7FFF0000, order=">"),
    "of_two": OF_TWO,
    "wide": WIDE,
    "narrow": NARROW,
    "only": ONLY,
    "ragged": GETPID + b"\0",
    "mib": b" " * MIB,
    "mib_and_one": b" " * (MIB + 1),
    "no_return": LOAD_NUMBER,
    "load": ALLOW + insn(0x20, k=2) + ALLOW,
    "load_past": insn(0x20, k=64) + ALLOW,
    "division": insn(0x34) + ALLOW,
    "shift": insn(0x64, k=32) + ALLOW,
    "scratch": insn(0x02, k=16) + ALLOW,
    "jump": insn(0x05, k=1) + ALLOW,
    "unstored": insn(0x60, k=3) + insn(0x16),
    "code": line(ALLOW) + line(LOAD_NUMBER + insn(0x35, 0, 0, 1) + insn(0x21) + ALLOW),
    "long": ALLOW * 4097,
    "chain": line(LONG) * 9,
    "trap": insn(0x06, k=0x00030005).hex().encode(),
    "kill": insn(0x06, k=0x80000000).hex().encode(),
    "argument": insn(0x20, k=16) + insn(0x16), "second": insn(0x20, k=24) + insn(0x16),
    "every_word": b"".join(insn(0x20, k=place) for place in range(0, 64, 4)) + ALLOW,
    # i386 gets errno 1, every other architecture what is allowed.
    "i386": insn(0x20, k=4) + insn(0x15, 0, 1, 0x40000003) + insn(0x06, k=0x00050001) + ALLOW,
    "flag": insn(0x20, k=16) + insn(0x45, 0, 1, 1) + insn(0x06, k=0x00050026) + ALLOW,
    "log": b"7 read(0x3, 0x7ffd, 0x40) = 0x40\n7 getpid() = 0x7\n7 read(0x3, 0x7ffd, 0x40) = 0x3\n7 +++ exited with 0 +++\n",
    # A runtime probes, and starts a program that has a child: 6 is outside, 7 attaches, 8 comes later.
    "log_attached": b"6 getuid() = 0\n7 mmap(0, 4096, 0x3, 0x22, -1, 0) = 0x7ffd\n7 seccomp(SECCOMP_SET_MODE_FILTER, SECCOMP_FILTER_FLAG_TSYNC, NULL <unfinished ...>\n"
        b"6 read(4,  <unfinished ...>\n7 <... seccomp resumed>) = -1 EFAULT (Bad address)\n7 getgid() = 0\n"
        b"7 prctl(PR_SET_SECCOMP, SECCOMP_MODE_FILTER, {len=9, filter=0xc0} <unfinished ...>\n6 <... read resumed>\"\", 8) = 0\n7 <... prctl resumed>) = 0\n"
        b"7 read(0x3, 0x7ffd, 0x40) = 0x40\n6 getuid() = 0\n8 getpid() = 8\n7 +++ exited with 0 +++\n",
    "log_named": b"7 getpid() = 7\n7 syscall_0x1388(0x1) = -1 ENOSYS (Function not implemented)\n",
    "log_i386": b"7 getuid32() = 0\n7 socketcall(0x1, 0x7ffd) = 3\n7 syscall_0x1388(0x1) = -1 ENOSYS (Function not implemented)\n",
    "log_cut": b"7 getpid() = 0x7\n7 read(0x3, 0x7f",
    "log_crlf": b"7 getpid() = 0x7\r\n",
    "log_ends": b"7 +++ exited with 0 +++\n",
    "log_of_kernel": b'[ 8.5] audit: type=1326 audit(1796.2:3): auid=0 pid=9 comm="x" exe="/bin/x" sig=31 arch=c000003e syscall=39 compat=0 ip=0x7f code=0x50001\n'
                     b'type=SECCOMP msg=audit(1796.2:4): auid=0 pid=9 comm=6120622063 sig=0 arch=c000003e syscall=0 compat=0 ip=0x7f code=0x7ffc0000\n',
    "log_of_journal": b'Dec 01 11:00:00 host audit[9]: SECCOMP auid=0 pid=9 comm="a(b" exe="/bin/x" sig=31 arch=c000003e syscall=39 compat=0 ip=0x7f code=0x80000000\n'
                      b'7 write(2, "audit[9]: SECCOMP arch=c000003e syscall=1", 3) = 3\n',
    "log_with_flags": b'7 openat(AT_FDCWD, "a", O_RDONLY|O_CLOEXEC) = 3\n7 openat(AT_FDCWD, "b", O_WRONLY|O_CREAT, 0644) = 3\n7 openat(AT_FDCWD, "c", O_RDONLY|O_CLOEXEC) = 3\n'
                      b'7 socket(AF_UNIX, SOCK_STREAM, 0) = 4\n7 fcntl(3, F_GETFD) = 0\n7 fcntl(4, F_SETFD, FD_CLOEXEC) = 0\n7 getpid() = 7\n',
    "log_of_i386": b'type=1326 audit(1796.2:3): pid=9 arch=40000003 syscall=20 compat=1 ip=0x7f code=0x0\n9 getpid() = 9\n',
    "log_of_modes": b'[ Process PID=9 runs in 32 bit mode. ]\n9 getpid() = 9\n',
    "log_decoded": b'7 read(3, "ab", 64) = 2\n7 close(3) = 0\n',
    "expected": b"getpid: errno/EPERM\nread, socket: performed\n",
    "expected_case": b"# What is to stay.\nread\n  refused where args[0] == 1\n",
    "expected_wrong": b"getpid: errno/EPERM\nread: refuse\n",
    "expected_i386": b"arch i386\nothers: refused\nread: performed\n",
    "expected_s390x": b"arch s390x\nread: performed\n",
    "policy_refused": b"default allow\nread: refused\n",
    "guarded": insn(0x20, k=4) + insn(0x15, 1, 0, 0xC000003E) + insn(0x06, k=0x80000000) + GETPID,
    "guarded_argument": insn(0x20, k=4) + insn(0x15, 1, 0, 0xC000003E) + insn(0x06, k=0x80000000) + insn(0x20, k=16) + insn(0x16),
    "profile": PROFILE,
    "profile_blank": b" \t\r\n" + PROFILE.replace(b",", b",\r\n"),
    "profile_marked": b"\xef\xbb\xbf" + PROFILE,
    "profile_nul": PROFILE + b"\0",
    "profile_object": b"{}",
    # config.json of the OCI runtime specification as `runc spec` writes it, with a profile, and a SeccompProfile of Kubernetes.
    "configuration": configuration(json.loads(PROFILE)), "kubernetes": kubernetes(json.loads(PROFILE)),
    "configuration_without": configuration(None), "configuration_wrong": configuration(json.loads(profile(entry("read"), entry("write", "SCMP_ACT_DENY")))),
    "configuration_number": configuration(7), "kubernetes_base": kubernetes({"baseProfileName": "runtime/default", **json.loads(PROFILE)}),
    "kubernetes_both": json.dumps({"linux": {"seccomp": json.loads(PROFILE)}, "spec": json.loads(profile())}).encode(),
    "configuration_twice": b'{"linux": {"seccomp": ' + PROFILE + b'}, "linux": {}}',
    "profile_seccomp": b'{"seccomp": ' + PROFILE + b"}", "profile_linux": b'{"linux": ' + PROFILE + b"}",
    "profile_open": PROFILE[:-1],
    "inspected": inspected("no-new-privileges", f"seccomp={PROFILE.decode()}"), "inspected_twice": inspected("seccomp=unconfined", f"seccomp={PROFILE.decode()}"),
    "inspected_without": inspected(), "inspected_other": inspected("apparmor=docker-default"), "inspected_unconfined": inspected("seccomp=unconfined"),
    "inspected_builtin": inspected("seccomp=builtin"), "inspected_wrong": inspected("seccomp=/etc/profile.json"), "inspected_entry": inspected(f"seccomp={profile(entry('write', 'SCMP_ACT_DENY')).decode()}"),
    "profile_comma": b'{\n  "defaultAction": "SCMP_ACT_ALLOW",\n  "syscalls": [],\n}\n', "profile_comment": b'{\n  // all calls\n  "defaultAction": "SCMP_ACT_ALLOW", "syscalls": []}\n',
    "profile_address": b'{"defaultAction": "SCMP_ACT_ALLOW", "listenerPath": "http://a,]", "syscalls": [}\n',
    "profile_two": PROFILE + PROFILE,
    "profile_latin": PROFILE.replace(b"getpid", b"getp\xefd"),
    "profile_keys": PROFILE[:-1] + b', "defaultAction": "SCMP_ACT_ALLOW"}',
    "profile_list": b"[" + PROFILE + b"]",
    "profile_unknown": PROFILE[:-1] + b', "syscals": []}',
    "profile_action": profile(entry("read"), entry("write", "SCMP_ACT_DENY")),
    "profile_errno": profile(entry("read", "SCMP_ACT_ERRNO", errnoRet=4095)),
    "profile_index": profile(entry("read"), entry("read", "SCMP_ACT_LOG", args=[argument(0, 1), argument(6, 1)])),
    "profile_mask": profile(entry("read", "SCMP_ACT_LOG", args=[argument(0, 1, "SCMP_CMP_MASKED_EQ", valueTwo=3)])),
    "profile_write": profile(entry("write", "SCMP_ACT_NOTIFY")),
    "profile_clash": profile(entry("read", "SCMP_ACT_LOG"), entry("write", "SCMP_ACT_LOG", args=[argument(0, 1)]),
                             entry("write", "SCMP_ACT_KILL", args=[argument(1, 2)])),
    "profile_long": profile(*[entry("read", "SCMP_ACT_LOG", args=[argument(0, it << 32)]) for it in range(1000)]),
    "profile_runc": profile(entry("getpid"), default="SCMP_ACT_ERRNO", architectures=["SCMP_ARCH_X86_64"]),
    "profile_x32": profile(entry("getpid"), default="SCMP_ACT_ERRNO", architectures=["SCMP_ARCH_X86_64", "SCMP_ARCH_X32"]),
    "profile_i386": profile(entry("getpid"), entry("chown32", "SCMP_ACT_LOG"), default="SCMP_ACT_ERRNO", architectures=["SCMP_ARCH_X86_64", "SCMP_ARCH_X86"]),
    "profile_arm": profile(entry("getpid"), entry("set_tls", includes={"arches": ["arm64"]}), default="SCMP_ACT_ERRNO", archMap=[
        {"architecture": "SCMP_ARCH_AARCH64", "subArchitectures": ["SCMP_ARCH_ARM"]}]),
    "profile_ipc": profile(entry("semget"), entry("semop", args=[argument(1, 1)]), default="SCMP_ACT_ERRNO", architectures=["SCMP_ARCH_X86_64", "SCMP_ARCH_X86"]),
    "profile_several": profile(entry("ipc", "SCMP_ACT_LOG", args=[argument(1, 7)]), entry("semget", "SCMP_ACT_ERRNO"),
                               architectures=["SCMP_ARCH_X86_64", "SCMP_ARCH_X86"]),
    "profile_mapped": profile(entry("getpid"), default="SCMP_ACT_TRAP", archMap=[{"architecture": "SCMP_ARCH_X86_64"}]),
    **{f"profile_{it}": profile(entry("getpid"), default=f"SCMP_ACT_{it.upper()}", architectures=["SCMP_ARCH_X86_64"]) for it in (
        "log", "trace")},
    "profile_unlisted": profile(entry("getpid"), default="SCMP_ACT_ERRNO"),
    "profile_none": profile(default="SCMP_ACT_ERRNO", architectures=["SCMP_ARCH_X86_64"]),
    "profile_noted": profile(entry("getpid", "SCMP_ACT_ERRNO"), entry("opennat", "SCMP_ACT_LOG")),
}


# EHWPOISON is in asm-generic/errno.h; Python has no name for it.
ERRORS = {**errno.errorcode, 133: "EHWPOISON"}


class Row(NamedTuple):
    command: str
    status: int
    complaint: str
    answer: str


GOT = "39 getpid errno/1 EPERM\n"
LINE = line(GETPID).decode()
NO_CALL = "holds no call: expected lines as strace -f writes them, or the kernel's with type=1326"
NO_ATTACHMENT = "holds no call that attaches a filter: expected seccomp or prctl in lines as strace -f writes them"
NO_FILTER = "holds no filter: expected bytes of struct sock_filter, hexadecimal digits, lines filter HEX, another form of a filter, a policy, or a profile in JSON"


def record(number, first=0, architecture=0xC000003E):
    """The digits of struct seccomp_data of a call, on x86-64 where nothing else is said, with this first argument."""
    return struct.pack("<IIQ6Q", number, architecture, 0, first, *[0] * 5).hex()


def difference(number, name, old, new, first=0, where=""):
    """The lines on a call that gets another verdict, by the condition under which calls of its row do."""
    arguments = "".join(f", {it:#x}" for it in (first, 0, 0, 0, 0, 0))
    return f"{number} {name}: {old} -> {new}{where}\n  record {record(number, first)}\n  syscall(SYS_{name}{arguments})\n"


def step(place, insn, a, jump=""):
    """The line of an instruction that a call comes to, where X holds 0."""
    return f"{place:4} {insn:<24} A={a} X=0{jump}\n"


def flag_path(low, outcome, end, value, verdict):
    """What `why` says of the filter `flag`, by the low half of the first argument."""
    return "filter 0\n" + step(0, "ldabs 16", low) + step(1, "jset 1 +0 +1", low, f"  {low} & 1 {outcome} 0: to {end}") \
        + step(end, f"ret {value}", low) + f"  {verdict}\n{verdict} by filter 0 at {end}\n"


# The names that may be meant: calls of x86-64 by their numbers, words, and the options of each word, those of several words first.
with open(f"{ROOT}/docs/ask.bash", encoding="ascii") as completion:
    CALLS = completion.read().split("_ask_calls='")[1].split("'")[0].split()
WORDS_OF_ASK = ["calls", "filter", "when", "diff", "expect", "lint", "replay", "allow", "why", "show", "arches", "check", "page"]
OPTIONS = {
    "--help": WORDS_OF_ASK, "--arch": [it for it in WORDS_OF_ASK if it not in ("filter", "lint", "arches", "page")],
    **{it: WORDS_OF_ASK for it in ("--cap", "--kernel", "--machine", "--native", "--runc", "--strict")},
    "--numbers": ["when", "diff", "expect", "lint", "allow", "page"], "--json": [it for it in WORDS_OF_ASK if it not in ("filter", "allow", "show", "check", "page")], "--call": ["calls", "when"], "--only": ["calls", "when"], "--examples": ["calls"], "--to": ["filter", "allow"],
    "--raw": ["filter"], "--smaller": ["filter"], "--dot": ["when"], "--stricter": ["diff"], "--all": ["lint"], "--old": ["page"], "--since-seccomp": ["replay", "allow"], "--for": ["allow"], "--args": ["allow"],
}
# Capabilities by their numbers, architectures, and machines whose programs profiles are for.
with open("/usr/include/linux/capability.h", encoding="ascii") as header:
    CAPABILITIES = re.findall(r"#define (CAP_\w+)\s+\d+$", header.read(), re.MULTILINE)
NAMED_ARCHITECTURES = ["x86-64", "x32", "i386", "aarch64", "arm", "riscv64", "ppc64le", "s390x", "loongarch64"]
NAMED_MACHINES = ["x86-64", "aarch64", "riscv64", "ppc64le", "loongarch64"]
UNKNOWN = re.compile(r"(?:(\w+): )?no (call|word|option|capability|architecture|machine) is named (.*)")


def edits(one, other):
    """How many letters are put in, taken out, changed or swapped with the next between two words, with letters of either word put
    between swapped ones: by the shortest way from one to the other, looked for in all ways."""
    cells = {}
    for i, j in itertools.product(range(len(one) + 1), range(len(other) + 1)):
        ways = [0] if i == j == 0 else []
        ways += [cells[i - 1, j] + 1] if i else []
        ways += [cells[i, j - 1] + 1] if j else []
        ways += [cells[i - 1, j - 1] + (one[i - 1] != other[j - 1])] if i and j else []
        ways += [cells[a - 1, b - 1] + (i - a - 1) + 1 + (j - b - 1) for a in range(1, i) for b in range(1, j)
                 if one[a - 1] == other[j - 1] and one[i - 1] == other[b - 1]]
        cells[i, j] = min(ways)
    return cells[len(one), len(other)]


def meant(command, complaint):
    """The question behind a complaint of an unknown name, of calls one of x86-64, or else where names stand: docs/FORMATS.md."""
    unknown = UNKNOWN.fullmatch(complaint)
    if not unknown or unknown[2] == "call" and re.search("--arch[ =](?!x86-64|x86_64|amd64)", command):
        return ""
    word, kind, name = unknown.groups()
    names = {"call": CALLS, "word": WORDS_OF_ASK, "option": [it for it, words in OPTIONS.items() if word in words],
             "capability": CAPABILITIES, "architecture": NAMED_ARCHITECTURES, "machine": NAMED_MACHINES}[kind]
    sought = {"call": re.sub("^(SYS_|__NR_)", "", name), "option": name.partition("=")[0], "capability": name.upper()}.get(kind, name)
    elsewhere = {"call": "", "option": f"; see ask {word} --help", "capability": "; see capabilities(7)"}.get(kind, "; see ask --help")
    if kind == "option" and sought in OPTIONS and word not in OPTIONS[sought]:
        return elsewhere
    near = min(names, key=lambda it: edits(sought, it))
    return f": did you mean {near}?" if len(sought) <= 64 and edits(sought, near) <= (len(sought) + 2) // 4 else elsewhere


def trouble(command, complaint):
    return Row(command, 2, f"ask: {complaint}{meant(command, complaint)}\n" if complaint else "", "")


def good(command, answer):
    return Row(command, 0, "", answer)


def warned(command, answer):
    return Row(command, 1, "", answer)


def arches(native, x32, others, any_other=None):
    """The lines of ask arches, with what is answered to x86-64, to x32, to each of the others that have a name, and to any
    that has none: the same, if it isn't told."""
    named = f"x86-64 {native}\nx32 {x32}\n" + "".join(f"{it} {others}\n" for it in OTHER_ARCHITECTURES)
    return named + f"any other {any_other or others}\n"


def leaf(number, text, colour):
    """The line of an end of a picture."""
    return f'  n{number} [label="{text}", style=filled, fillcolor={colour}];\n'


GETPID_DRAWN = "digraph {\n" + leaf(0, "errno/1 EPERM", "khaki") + "}\n"
FLAG_DRAWN = "digraph {\n  n0 [label=\"(args[0] & 0x1) != 0\"];\n  n0 -> n1 [label=yes];\n" + leaf(1, "errno/38 ENOSYS", "khaki") \
    + "  n0 -> n2 [label=no];\n" + leaf(2, "allow", "palegreen") + "}\n"
GETPID_STEPS = step(0, "ldabs 0", 39) + step(1, "jeq 39 +0 +1", 39, "  39 == 39 getpid: to 2") + step(2, "ret 0x00050001", 39) + "  errno/1 EPERM\n"
UNSHOWN_MODE = "ask: allow: not each line shows this argument, so it may be any: args[3] of openat\n"
GETPID_PATH = "filter 0\n" + GETPID_STEPS + "errno/1 EPERM by filter 0 at 2\n"
GETPID_SHOWN = "; 0 nr\n    ldabs 0\n; 1 getpid\n    jeq 39 +0 at3\n; 2 errno/1 EPERM\n    ret 0x00050001\nat3:\n; 3 allow\n    ret 0x7fff0000\n"
# ptrace(2) by the headers of each architecture, and what AUDIT_ARCH_* it has.
PTRACE = [("x86-64", 101, 0xC000003E), ("x32", 1073742345, 0xC000003E), ("i386", 26, 0x40000003), ("aarch64", 117, 0xC00000B7),
          ("arm", 26, 0x40000028), ("riscv64", 117, 0xC00000F3), ("ppc64le", 26, 0xC0000015), ("s390x", 26, 0x80000016),
          ("loongarch64", 117, 0xC0000102)]
I386_PATH = "filter 0\n" + step(0, "ldabs 4", 1073741827) + step(1, "jeq 1073741827 +0 +1", 1073741827, "  1073741827 == 1073741827: to 2") \
    + step(2, "ret 0x00050001", 1073741827) + "  errno/1 EPERM\nerrno/1 EPERM by filter 0 at 2\n"
I386_SHOWN = "; 0 arch\n    ldabs 4\n; 1 i386\n    jeq 1073741827 +0 at3\n; 2 errno/1 EPERM\n    ret 0x00050001\nat3:\n; 3 allow\n    ret 0x7fff0000\n"
UNSEEN = "warning: no filter looks at the architecture: calls of each are judged by their numbers alone\n"
NO_CODE = "the code is none of the 41 that seccomp(2) permits"
TURNED_READ = "ask: turned: read with its highest byte first\n"
TURNED = "arguments with their highest byte first are not followed: --arch s390x"
OTHER_ARCHITECTURES = ("i386", "aarch64", "arm", "riscv64", "ppc64le", "s390x", "loongarch64")
BY_CALL = "judged call by call"
JUDGED_I386 = "warning: i386 calls are judged by x86-64's numbers: 26 is ptrace there\n"
# 521 with bit 30, by asm/unistd_x32.h
JUDGED_X32 = "warning: x32 calls are judged by x86-64's numbers: 1073742345 is ptrace there\n"
# Another architecture is killed, and each number looked at without its bit 30.
GUARDED = insn(0x20, k=4) + insn(0x15, 1, 0, 0xC000003E) + insn(0x06, k=0x80000000) + GETPID
# The numbers of architectures end below 0xD0000000, and those behind are killed.
BEHIND = insn(0x20, k=4) + insn(0x35, 0, 1, 0xD0000000) + insn(0x06, k=0x80000000) + ALLOW
EACH_WORD = b"".join(insn(0x20, k=place) for place in range(8, 64, 4)) + ALLOW
NOT_FOLLOWED = "not followed: each word of a call is loaded"
MASKED = LOAD_NUMBER + insn(0x54, k=0xBFFFFFFF) + GETPID[8:]
# getpid(2) is number 39 of x32 too, and execve(2), which is 59, has number 520 there.
MASKED_EXECVE = LOAD_NUMBER + insn(0x54, k=0xBFFFFFFF) + insn(0x15, 0, 1, 59) + insn(0x06, k=0x00050001) + insn(0x06, k=0x7FFF0000)
LET_THROUGH = """41 socket: errno/22 EINVAL -> allow where args[0] >= 0x100000000 && (args[0] & 0xffffffff) == AF_NETLINK
  syscall(SYS_socket, 0x100000010, 0x0, NETLINK_ROUTE, 0x0, 0x0, 0x0)
  which Linux takes for syscall(SYS_socket, AF_NETLINK, 0x0, NETLINK_ROUTE, 0x0, 0x0, 0x0)
"""
CLEAN = "no call gets another verdict by bits that Linux does not read\n"
AS_STRICT = "no call gets a less strict verdict by bits that Linux does not read\n"
UNCLOSED = "why: CALL(ARG, ..) does not end with its parenthesis"
TOO_MANY = "why: CALL(ARG, ..) has more than six arguments"


def wrong(number, part):
    """What is said of a part of the argument with this number, from 1 on."""
    return f"why: argument {number} of CALL(ARG, ..) is no number of 64 bits and no constant: {part}"


ARCHITECTURES = [
    *[good(f"ask calls --arch {name} --call ptrace raw", f"{number} ptrace allow\n") for name, number, _ in PTRACE],
    *[good(f"ask calls --call {number} raw --arch {name}", f"{number} ptrace allow\n") for name, number, _ in PTRACE],
    *[good(f"ask calls --arch {name} --examples --call ptrace all", f"{number} ptrace allow\n  allow filter 0 at 0 record {record(number, 0, audit)}\n")
      for name, number, audit in PTRACE if name != "s390x"],
    good("ask calls --call getpid --arch x86-64 raw", GOT), good("ask calls --arch i386 --call 39 raw", "39 mkdir errno/1 EPERM\n"),
    good("ask calls --arch i386 --call read i386", "3 read errno/1 EPERM\n"), good("ask calls --call read i386", "0 read allow\n"),
    good("ask calls --arch x32 --call read i386", "1073741824 read allow\n"), good("ask calls --arch arm --call read i386", "3 read allow\n"),
    good("ask calls --arch i386 --call read --examples i386", f"3 read errno/1 EPERM\n  errno/1 EPERM filter 0 at 2 record {record(3, 0, 0x40000003)}\n"),
    good("ask calls --arch i386 i386 | head -n 2", "0 restart_syscall errno/1 EPERM\n1 exit errno/1 EPERM\n"),
    good("ask calls --arch x32 i386 | sed -n '/^107374182[3-5]/p'", "1073741824 read allow\n1073741825 write allow\n"),
    good("ask calls --arch x32 i386 | head -n 1", "0-1073741823 - allow\n"),
    good("ask calls i386 | tail -n 1", "463-4294967295 - allow\n"), good("ask calls raw | tail -n 1", UNSEEN), good("ask calls two raw | tail -n 1", UNSEEN),
    good("ask calls all i386 | tail -n 1", "463-4294967295 - allow\n"), good("ask calls i386 all | grep -c warning; true", "0\n"),
    good("ask calls --arch i386 raw | tail -n 1", UNSEEN), good("ask calls --call 4294967295 raw | tail -n 1", "4294967295 - allow\n"),
    good("ask when --arch i386 --call read i386", "3 read errno/1 EPERM\n"), good("ask when --arch i386 --call read flag", "3 read\n  allow where (args[0] & 0x1) == 0\n  errno/38 ENOSYS else\n"),
    good("ask when --arch aarch64 --call read i386", "63 read allow\n"), good("ask when --arch i386 --call read --dot i386", "digraph {\n" + leaf(0, "errno/1 EPERM", "khaki") + "}\n"),
    good("ask diff i386 all", "the same on every call\n"), good("ask diff --arch x32 i386 all", "the same on every call\n"),
    Row("ask diff --arch i386 i386 all | sed -n 1,4p", 1, "", "looser:\n0 restart_syscall: errno/1 EPERM -> allow\n"
        f"  record {record(0, 0, 0x40000003)}\n  syscall(SYS_restart_syscall, 0x0, 0x0, 0x0, 0x0, 0x0, 0x0)\n"),
    good("ask diff --stricter --arch i386 all i386", "as strict on every call\n"),
    good("ask why --arch i386 'read(1)' i386", I386_PATH), good("ask why read i386 --arch i386", I386_PATH),
    good("ask why --arch x32 getpid i386 | tail -n 1", "allow by filter 0 at 3\n"), good("ask why --arch i386 mkdir raw | tail -n 1", "errno/1 EPERM by filter 0 at 2\n"),
    good("ask why --arch i386 39 raw | sed -n 3p", step(1, "jeq 39 +0 +1", 39, "  39 == 39 mkdir: to 2")),
    *[good(f"ask show {asked} i386", I386_SHOWN) for asked in ("", "--arch i386", "--arch x86-64", "--arch s390x")],
    good("ask show --arch i386 raw | sed -n 3p", "; 1 mkdir\n"), good("ask show --arch aarch64 raw | sed -n 3p", "; 1 umount2\n"),
    Row("ask replay --arch i386 log_i386 i386", 1, "", "1 getuid32() errno/1 EPERM\n1 socketcall(0x1, 0x7ffd) errno/1 EPERM\n1 syscall_0x1388(0x1) errno/1 EPERM\n"),
    good("ask replay --arch i386 log_i386 all | head -n 1", "1 getuid32() allow\n"),
    Row("ask replay log_i386 all", 1, "ask: log_i386: line 1 is not understood\nask: log_i386: line 2 is not understood\n", "1 syscall_0x1388(0x1) allow\n2 lines are not understood\n"),
    *[good(f"ask show {asked} of_two | grep '^; [578]'", "; 5 execve\n; 7 execve\n; 8\n") for asked in ("", "--arch aarch64", "--arch s390x")],
    Row("ask calls --arch s390x --call getpid turned", 0, TURNED_READ, "20 getpid errno/1 EPERM\n"),
    Row("ask show --arch s390x turned | sed -n 3p", 0, TURNED_READ, "; 1 getpid\n"),
    Row("ask calls --arch s390x --call getpid turned all", 0, TURNED_READ, "20 getpid errno/1 EPERM\n"),
    *[trouble(f"ask {words} turned", f"turned: instruction 0: {NO_CODE}") for words in ("show", "calls", "calls --arch i386", "filter", "arches")],
    trouble("ask calls --arch s390x code", f"code: line 2: instruction 2: {NO_CODE}"),
    good("ask calls --arch s390x --call read i386", "3 read allow\n"), good("ask calls --arch s390x i386 | head -n 1", "0 - allow\n"),
    *[trouble(f"ask {words}", f"{words.split()[0]}: {TURNED}") for words in (
        "when --arch s390x raw", "diff raw --arch s390x raw", "why --arch s390x read raw", "replay --arch s390x log raw",
        "calls --arch s390x --examples raw", "when --dot --call read raw --arch s390x")],
    *[trouble(f"ask {word} --arch '{name}' raw raw", f"{word}: no architecture is named {name}") for word in ("calls", "when", "diff", "why", "show", "replay")
      for name in ("I386", "X86_64", "AMD64", "riscv", "", "mips", "any other", "raw", "scmp_arch_x86", "SCMP_ARCH_MIPS", "SCMP_ARCH_", "x86_64,amd64")],
    # getrandom(2) by the headers of each architecture
    *[good(f"ask calls --arch {name} --call getrandom raw", f"{number} getrandom allow\n") for name, number in (
        ("x86_64", 318), ("amd64", 318), ("SCMP_ARCH_X86_64", 318), ("SCMP_ARCH_X32", 1073742142), ("x86", 355), ("i686", 355), ("SCMP_ARCH_X86", 355),
        ("arm64", 278), ("SCMP_ARCH_AARCH64", 278), ("SCMP_ARCH_ARM", 384), ("SCMP_ARCH_RISCV64", 278), ("ppc64el", 359), ("powerpc64le", 359),
        ("SCMP_ARCH_PPC64LE", 359), ("SCMP_ARCH_S390X", 349), ("loong64", 278), ("SCMP_ARCH_LOONGARCH64", 278))],
    *[good(f"ask calls --arch {name} --call read i386", "3 read errno/1 EPERM\n") for name in ("x86", "i686", "SCMP_ARCH_X86")],
    trouble("ask when --arch SCMP_ARCH_S390X raw", f"when: {TURNED}"), trouble("ask calls --arch amd64 --arch x86_64 raw", "calls: given twice: --arch"),
    *[trouble(f"ask {word} raw raw --arch", f"{word}: expected a name behind --arch") for word in ("calls", "when", "diff", "why", "show", "replay")],
    *[trouble(f"ask {word} --arch i386 raw", f"{word}: no option is named --arch") for word in ("filter", "arches")],
    trouble("ask calls --arch i386 --arch i386 raw", "calls: given twice: --arch"),
    good("ask calls --arch=i386 --call=read i386", "3 read errno/1 EPERM\n"), good("ask why --arch=i386 'read(1)' i386", I386_PATH),
    trouble("ask calls --arch= raw", "calls: no architecture is named "), trouble("ask calls --arch=i386=arm raw", "calls: no architecture is named i386=arm"),
    *[trouble(f"ask calls {arches} raw", "calls: given twice: --arch") for arches in ("--arch=arm --arch=arm", "--arch=arm --arch arm", "--arch arm --arch=vax")],
    *[trouble(f"ask {word} --arch=i386 raw", f"{word}: no option is named --arch=i386") for word in ("filter", "lint", "arches")],
    trouble("ask calls --arch i386 --call getuid32x raw", "no call is named getuid32x: did you mean getuid32?"), trouble("ask calls --call getuid32 raw", "no call is named getuid32"),
    trouble("ask why --arch aarch64 open raw", "no call is named open"), trouble("ask when --arch riscv64 --call fork raw", "no call is named fork"),
    good("ask calls --arch i386 --call getuid32 raw", "199 getuid32 allow\n"),
]
AS_EXPECTED = "as expected on every call\n"
NOT_REFUSED = "0 read: expected refused -> allow where args[0] == 0x1\n  record " + record(0, 1) + "\n  syscall(SYS_read, 0x1, 0x0, 0x0, 0x0, 0x0, 0x0)\n"
OTHERS_NOTE = "ask: expected_i386: others: calls of other architectures were not compared: expected --arch\n"
EXPECTATIONS = [
    *[good(f"ask expect expected {names}", AS_EXPECTED) for names in ("raw", "all raw", "raw all", "- < raw", "guarded", "profile", "--numbers raw", "--arch x86-64 raw")],
    good("ask expect - raw < expected", AS_EXPECTED), good("ask expect expected_case trap", AS_EXPECTED),
    warned("ask expect expected all", difference(39, "getpid", "expected errno/1 EPERM", "allow")),
    warned("ask expect expected_case all", NOT_REFUSED), warned("ask expect --arch x86-64 expected_case raw", NOT_REFUSED),
    warned("ask expect expected kill | grep -v '^  '", "0 read: expected performed -> kill_process\n39 getpid: expected errno/1 EPERM -> kill_process\n"
           "41 socket: expected performed -> kill_process\n"),
    Row("ask expect expected_i386 all", 0, OTHERS_NOTE, AS_EXPECTED), good("ask expect --arch i386 expected_i386 all", AS_EXPECTED),
    Row("ask expect expected_i386 i386 | head -n 1", 1, OTHERS_NOTE, "3 read: expected performed -> errno/1 EPERM\n"),
    good("ask expect --arch aarch64 expected_i386 kill", AS_EXPECTED),
    trouble("ask expect expected_s390x all", "expect: arguments with their highest byte first are not followed: arch s390x"),
    trouble("ask expect --arch s390x expected all", f"expect: {TURNED}"),
    trouble("ask expect", "expect: no POLICY is given"), trouble("ask expect expected", "expect: no FILE is given"),
    *[trouble(f"ask expect {name} all", f"{name}: holds no expectations: expected the text of a policy") for name in ("raw", "lines", "profile", "empty", "comments")],
    trouble("ask expect expected_wrong all", "expected_wrong: line 2: refuse: expected a verdict, as allow or errno/EPERM"),
    trouble("ask expect nofile all", "nofile: no such file"), trouble("ask expect expected nofile", "nofile: no such file"),
    trouble("ask expect mib_and_one all", f"mib_and_one: has more than {MIB} bytes"),
    *[trouble(f"ask expect {it} expected all", f"expect: no option is named {it}") for it in ("--call", "--stricter", "--raw", "--smaller", "--all")],
    *[trouble(f"ask {words} policy_refused", "policy_refused: line 2: refused: expected a verdict of a filter, as allow or errno/EPERM") for words in ("filter", "calls", "diff all")],
    Row("ask filter --smaller all", 0, "ask: filter: no smaller one was found: 1 instruction\n", line(ALLOW).decode()),
    Row("ask filter --smaller --raw trap | od -An -tx1", 0, "ask: filter: no smaller one was found: 1 instruction\n", " 06 00 00 00 05 00 03 00\n"),
    *[trouble(f"ask filter {words}", "filter: calls of other architectures get several verdicts: expected one") for words in (
        "--smaller raw", "raw --smaller", "--smaller i386", "--raw --smaller flag", "--smaller argument")],
    good("ask filter --smaller guarded guarded guarded 2> note | ask diff - guarded", "the same on every call\n"),
    good("ask filter --smaller --raw guarded guarded guarded 2> note | ask diff --arch i386 guarded -", "the same on every call\n"),
    good("ask filter --smaller guarded guarded guarded 2>&1 > smaller | sed 's/[0-9]* instructions in/N instructions in/'", "ask: filter: N instructions in place of 21\n"),
    *[trouble(f"ask {word} --smaller raw", f"{word}: no option is named --smaller") for word in ("calls", "when", "diff", "show", "arches")],
    trouble("ask filter --smaller guarded_argument", "filter: the filters could not be followed"),
    trouble("ask filter --smaller every_word", "filter: which verdict calls of other architectures get is not known"),
]
NOTE = "ask: profile_noted: entry 2 of syscalls: no call is named opennat: passed over\n"
OTHERS = "x86-64's part alone: programs of its other architectures are killed"
PROFILES = [
    *[good(f"ask calls --call getpid {name}", GOT) for name in ("profile", "profile_blank", "- < profile", "/dev/stdin < profile", "<(cat profile)")],
    good("cat profile | ask calls --call getpid -", GOT), good("cat profile | ask calls --call getpid /dev/stdin", GOT),
    good("mkfifo fifo; cat profile > fifo & timeout 20 ask calls --call getpid fifo", GOT),
    *[good(f"ask calls --call getpid {name}", GOT) for name in ("policy_of_code", "marked", "marked_digits", "marked_policy", "profile_marked")],
    good("ask expect marked_policy marked 2> note", "as expected on every call\n"),
    *[good(f"ask calls --call getpid {name}", GOT) for name in ("array", "array_in_one_line", "decimals", "array_marked")],
    *[good(f"ask filter {name}", f"filter {GETPID.hex()}\n") for name in ("array", "decimals")],
    *[good(f"ask diff profile {name}", "the same on every call\n") for name in ("profile_marked", "configuration", "kubernetes", "kubernetes_both", "inspected", "inspected_twice")],
    *[good(f"ask calls --call read --cap sys_admin {name}", "0 read allow\n") for name in ("configuration", "kubernetes")],
    good("ask calls --call read profile", "0 read log\n"), good("ask calls --call ptrace profile", "101 ptrace allow\n"),
    *[good(f"ask calls --call read --cap {caps} profile", "0 read allow\n") for caps in (
        "kill,sys_admin", "Sys_Admin,CAP_KILL", "docker,cap_sys_admin,kill", "sys_admin,sys_admin", "kill,kill --cap sys_admin,kill",
        "all", "CAP_SYS_ADMIN", "SYS_ADMIN", "sys_admin", "cap_sys_admin", "kill --cap sys_admin", "docker --cap sys_admin", "sys_admin --cap sys_admin")],
    *[good(f"ask calls --call read --cap {caps} profile", "0 read log\n") for caps in ("docker", "CAP_SYS_NICE", "net_raw --cap kill", "net_raw,kill")],
    *[good(f"ask calls --call ptrace --kernel {kernel} profile", f"101 ptrace {verdict}\n") for kernel, verdict in (
        ("4.8", "allow"), ("4.7", "kill_thread"), ("5.0", "allow"), ("6.12", "allow"), ("3.19", "kill_thread"),
        # Releases as uname(1) -r printed them: Debian 12 and 13, RHEL 7 and 8, Ubuntu 16.04, WSL, and a candidate of Linux.
        ("6.1.0-13-amd64", "allow"), ("6.12.57+deb13-amd64", "allow"), ("4.18.0-553.el8_10.x86_64", "allow"), ("4.8-rc3", "allow"),
        ("3.10.0-1160.el7.x86_64", "kill_thread"), ("4.7+", "kill_thread"), ("4.4.0-210-generic", "kill_thread"),
        ("6.6.87.2-microsoft-standard-WSL2", "allow"), ("4.7.99999999999", "kill_thread"), ("4.7-9.9", "kill_thread"))],
    *[good(f"ask calls --runc --call {nr} profile_runc", f"{nr} {told}\n") for nr, told in (
        (38, "setitimer errno/1 EPERM"), (39, "getpid allow"), (40, "sendfile errno/38 ENOSYS"), (1073741823, "- errno/38 ENOSYS"),
        (1073741824, "- kill_thread"), (2147483647, "- kill_thread"), (2147483648, "- errno/38 ENOSYS"), (3221225471, "- errno/38 ENOSYS"),
        (3221225472, "- kill_thread"), (4294967294, "- kill_thread"), (4294967295, "- errno/1 EPERM"))],
    *[good(f"ask calls --runc --call {nr} profile_x32", f"{nr} {told}\n") for nr, told in (
        (40, "sendfile errno/38 ENOSYS"), (1073741824, "- errno/1 EPERM"), (1073741863, "- allow"), (1073741864, "- errno/38 ENOSYS"),
        (2147483648, "- errno/38 ENOSYS"), (4294967294, "- errno/38 ENOSYS"), (4294967295, "- errno/38 ENOSYS"))],
    *[good(f"ask calls --call {nr} profile_x32", f"{nr} {told}\n") for nr, told in (
        (1073741824, "- errno/1 EPERM"), (1073741863, "- allow"), (2147483648, "- errno/1 EPERM"), (4294967295, "- errno/1 EPERM"))],
    *[Row(f"ask calls --native --call {nr} profile_x32", 0, f"ask: profile_x32: {OTHERS}\n", f"{nr} {told}\n") for nr, told in (
        (39, "getpid allow"), (1073741824, "- kill_thread"), (1073741863, "- kill_thread"), (4294967295, "- errno/1 EPERM"))],
    *[good(f"ask calls {words} --call {call} {name}", answer) for words, call, name, answer in (
        ("--arch i386", "getpid", "profile_i386", "20 getpid allow\n"), ("--arch i386", "chown32", "profile_i386", "212 chown32 log\n"),
        ("--arch i386", "mkdir", "profile_i386", "39 mkdir errno/1 EPERM\n"), ("--arch x32", "getpid", "profile_i386", "1073741863 getpid kill_thread\n"),
        ("--machine x86-64 --arch aarch64", "getpid", "profile_i386", "172 getpid kill_thread\n"),
        ("--arch i386", "getpid", "profile_runc", "20 getpid kill_thread\n"), ("--native", "getpid", "profile_runc", "39 getpid allow\n"),
        ("--arch aarch64", "getpid", "profile_arm", "172 getpid allow\n"), ("--arch arm", "getpid", "profile_arm", "20 getpid allow\n"),
        ("--arch arm", "set_tls", "profile_arm", "983045 set_tls allow\n"), ("", "getpid", "profile_arm", "39 getpid allow\n"),
        ("--machine riscv64 --arch riscv64", "getpid", "profile_arm", "172 getpid allow\n"),
        ("--machine aarch64 --arch arm --runc", "983046", "profile_arm", "983046 get_tls errno/38 ENOSYS\n"))],
    Row("ask calls --native --arch i386 --call getpid profile_i386", 0, f"ask: profile_i386: {OTHERS}\n", "20 getpid kill_thread\n"),
    Row("ask filter --native profile_i386 profile_x32 | wc -l", 0, f"ask: profile_i386: {OTHERS}\nask: profile_x32: {OTHERS}\n", "2\n"),
    *[good(f"ask why --arch i386 'ipc({given})' profile_ipc | tail -n 2 | head -n 1 | cut -d' ' -f 1,2", told) for given, told in (
        ("2", "allow by\n"), ("0x10002", "allow by\n"), ("3", "errno/1 EPERM\n"), ("1, 1", "errno/1 EPERM\n"))],
    trouble("ask calls profile_several", "profile_several: entries 1 and 2 of syscalls clash: both fit ipc(0x2, 0x7, 0x0, 0x0, 0x0, 0x0) of i386, "
            "and they say different things"),
    Row("ask calls --native --call semget profile_several", 0, f"ask: profile_several: {OTHERS}\n", "64 semget errno/1 EPERM\n"),
    *[good(f"ask calls {asking}", f"40 sendfile {told}\n") for asking, told in (
        ("--call 40 profile_runc", "errno/1 EPERM"), ("--runc --call 40 profile_mapped", "errno/38 ENOSYS"),
        ("--runc --call 40 profile_log", "log"), ("--runc --call 40 profile_trace", "trace/1"), ("--runc --call 40 profile_unlisted", "errno/1 EPERM"),
        ("--runc --call 40 profile_none", "errno/1 EPERM"), ("--call 40 --cap all --runc --kernel 6.1 profile_runc --runc", "errno/38 ENOSYS"))],
    *[good(f"ask {asking}", answer) for asking, answer in (
        ("calls --runc --call getpid raw", GOT), ("filter --runc --raw all | ask diff --runc - all", "the same on every call\n"),
        ("why --runc getpid raw", GETPID_PATH), ("when --runc --call getpid raw", GOT), ("diff --stricter --runc all all", "as strict on every call\n"),
        ("replay --runc log all | wc -l", "3\n"), ("show --runc all | head -n 1", "; 0 allow\n"))],
    *[good(f"ask diff {pair}", "the same on every call\n") for pair in ("profile profile", "profile_blank profile", "profile - < profile")],
    good("ask diff --cap all <(ask filter --cap all profile) profile", "the same on every call\n"),
    good("ask filter --raw profile | ask diff profile -", "the same on every call\n"), good("ask show profile | head -n 1", "; 0 arch\n"),
    Row("ask diff profile raw | head -n 2", 1, "", "looser:\n0 read: log -> allow\n"), good("ask filter profile raw profile | grep -c '^filter '", "3\n"),
    good("ask calls --call getpid profile all", GOT), good("ask calls --call getpid all profile", GOT),
    good("ask why getpid profile | tail -n 2 | head -n 1 | cut -d' ' -f 1,2", "errno/1 EPERM\n"), good("ask when --call getpid profile", GOT),
    Row("ask replay log profile | head -n 1", 1, "", "1 getpid() errno/1 EPERM\n"), good("ask when --dot --call getpid profile", GETPID_DRAWN),
    good("ask calls --cap all --kernel 6.1 --call getpid raw", GOT), good("ask why --cap docker --kernel 6.1 getpid raw", GETPID_PATH),
    *[Row(f"ask {asking} profile_noted", 0, NOTE, answer) for asking, answer in (("calls --call getpid", GOT), ("when --call getpid", GOT))],
    Row("ask calls --call getpid profile_noted profile_noted", 0, NOTE * 2, GOT), Row("ask diff profile_noted raw | head -n 2", 1, NOTE, "looser:\n1073741824-4294967294 -: kill_thread -> allow\n"),
    good("ask calls --call getpid profile_noted 2>&-", GOT), good("ask calls --call getpid profile_noted 2> /dev/full", GOT),
    trouble("ask calls --call getpid profile_noted nofile", "nofile: no such file"),
    Row("ask calls --call getpid profile_noted > /dev/full", 2, NOTE + "ask: writing failed\n", ""),
]
GOOD = [
    *[good(f"ask calls --call getpid {name}", GOT) for name in ("raw", "digits", "upper", "spread", "crlf", "lines", "lines_crlf")],
    good("ask calls --call 39 raw", GOT), good("ask calls --call 0x27 raw", GOT), good("ask calls --call 0x0027 raw", GOT),
    good("ask calls raw --call getpid", GOT), good("ask calls --call read raw", "0 read allow\n"),
    good("ask calls --call 4294967295 raw", "4294967295 - allow\n"),
    good("ask calls --call getpid - < raw", GOT), good("ask calls --call getpid /dev/stdin < raw", GOT),
    good("cat raw | ask calls --call getpid /dev/stdin", GOT), good("cat lines | ask calls --call getpid -", GOT),
    good("ask calls --call getpid <(cat digits)", GOT),
    good("mkfifo fifo; cat lines > fifo & timeout 20 ask calls --call getpid fifo", GOT),
    good("ask calls --call getpid all raw", GOT), good("ask calls --call getpid two", GOT),
    good("ask calls --call getpid sixteen sixteen", "39 getpid allow\n"), good("ask calls --call getpid thirty_two", "39 getpid allow\n"),
    good("ask calls --call getpid trap raw", "39 getpid trap/5\n"), good("ask calls --call getpid kill", "39 getpid kill_process\n"),
    good("ask calls --call getpid argument", "39 getpid any\n"),
    good("ask calls --call getpid flag", "39 getpid errno/38 ENOSYS | allow\n"),
    good("ask calls --call getpid --examples flag",
         f"39 getpid errno/38 ENOSYS | allow\n  errno/38 ENOSYS filter 0 at 2 record {record(39, 1)}\n  allow filter 0 at 3 record {record(39)}\n"),
    good("ask calls --examples --call read all raw", f"0 read allow\n  allow filter 1 at 3 record {record(0)}\n"),
    good("ask calls all | head -n 2", "0 read allow\n1 write allow\n"),
    good("ask calls all | grep -c ' allow$'", "377\n"), good("ask calls all | tail -n 2", "463-4294967295 - allow\n" + UNSEEN),
    good("ask filter raw", LINE), good("ask filter lines digits", LINE * 2), good("ask filter all raw", line(ALLOW).decode() + LINE),
    good("ask filter raw | ask filter - ", LINE), good("ask filter --raw crlf | cmp - raw", ""), good("ask filter lines --raw | cmp - raw", ""),
    good("ask when --call getpid raw", GOT), good("ask when all | tail -n 1", "463-4294967295 - allow\n"),
    good("ask when --call getpid flag", "39 getpid\n  allow where (args[0] & 0x1) == 0\n  errno/38 ENOSYS else\n"),
    good("ask when --dot --call getpid raw", GETPID_DRAWN), good("ask when flag --call 39 --dot", FLAG_DRAWN),
    good("ask when --dot --call read all raw", "digraph {\n" + leaf(0, "allow", "palegreen") + "}\n"),
    good("ask when --call getpid --dot kill", "digraph {\n" + leaf(0, "kill_process", "salmon") + "}\n"),
    good("ask when --call getpid --dot argument", "digraph {\n" + leaf(0, "not followed", "white") + "}\n"),
    good("ask diff raw digits", "the same on every call\n"), good("ask diff - raw < lines", "the same on every call\n"),
    good("ask diff <(cat raw) <(cat digits)", "the same on every call\n"), good("ask diff --stricter all flag", "as strict on every call\n"),
    Row("ask diff all raw", 1, "", "stricter:\n" + difference(39, "getpid", "allow", "errno/1 EPERM")),
    Row("ask diff raw --stricter all", 1, "", "looser:\n" + difference(39, "getpid", "errno/1 EPERM", "allow")),
    Row("ask diff flag all | sed -n 1,4p", 1, "", "looser:\n" + difference(0, "read", "errno/38 ENOSYS", "allow", 1, " where (args[0] & 0x1) == 0x1")),
    good("ask replay log all", "2 read(0x3, 0x7ffd, 0x40) allow\n1 getpid() allow\n1 line is no call\n"),
    good("ask replay - all < log", "2 read(0x3, 0x7ffd, 0x40) allow\n1 getpid() allow\n1 line is no call\n"),
    good("cat log | ask replay /dev/stdin <(cat all) | head -n 1", "2 read(0x3, 0x7ffd, 0x40) allow\n"),
    good("mkfifo fifo; cat log > fifo & timeout 20 ask replay fifo - < all | tail -n 1", "1 line is no call\n"),
    Row("ask replay log raw", 1, "", "1 getpid() errno/1 EPERM\n2 read(0x3, 0x7ffd, 0x40) allow\n1 line is no call\n"),
    Row("ask replay log all raw | head -n 1", 1, "", "1 getpid() errno/1 EPERM\n"),
    Row("ask replay log_cut all", 1, "ask: log_cut: line 2 is not understood\n", "1 getpid() allow\n1 line is not understood\n"),
    good("ask replay log_decoded all", "1 read(0x3, ?, 0x40) allow\n1 close(0x3) allow\n"),
    Row("ask replay log_decoded second | head -n 1", 1, "", "1 read(0x3, ?, 0x40) depends on args[1], which the log does not show\n"),
    good("ask replay log_crlf all", "1 getpid() allow\n"),
    Row("ask replay log_of_kernel raw", 1, "", "1 getpid(?, ?, ?, ?, ?, ?) errno/1 EPERM (logged: errno)\n1 read(?, ?, ?, ?, ?, ?) allow (logged: log)\n"),
    good("ask replay log_of_journal all", "1 getpid(?, ?, ?, ?, ?, ?) allow (logged: kill_process)\n1 write(0x2, ?, 0x3) allow\n"),
    # What has no filter yet, or never gets one, is left out; an option's word has its names.
    good("ask replay --since-seccomp log_attached all", "1 read(0x3, 0x7ffd, 0x40) allow\n1 getpid() allow\n11 lines are no calls\n"),
    Row("ask replay log_attached --since-seccomp raw | head -n 1", 1, "", "1 getpid() errno/1 EPERM\n"),
    good("ask allow --since-seccomp log_attached", "default errno/1 EPERM\n0 read allow\n39 getpid allow\n"),
    good("ask allow log_attached | wc -l", "8\n"),
    *[trouble(f"ask {words}", f"log: {NO_ATTACHMENT}") for words in ("replay --since-seccomp log all", "allow --since-seccomp log", "allow --since-seccomp log_attached log")],
    good("ask allow --to policy --to profile log | tr -d ' \n'; echo", '{"defaultAction":"SCMP_ACT_ERRNO","defaultErrnoRet":1,"architectures":["SCMP_ARCH_X86_64"],'
         '"syscalls":[{"names":["read","getpid"],"action":"SCMP_ACT_ALLOW"}]}\n'),
    good("ask allow --to profile log | ask replay log - | tail -n 1", "1 line is no call\n"),
    good("ask allow --to profile log | ask calls - | grep ' allow$'", "0 read allow\n39 getpid allow\n"),
    *[good(f"ask allow --to profile log | ask calls --call {nr} -", f"{nr} {told}\n") for nr, told in (
        (1, "write errno/1 EPERM"), (1000, "- errno/1 EPERM"), (1073741824, "- kill_thread"), (4294967295, "- errno/1 EPERM"))],
    good("ask allow --to profile log | ask calls --arch i386 --call getpid -", "20 getpid kill_thread\n"),
    trouble("ask allow --to profile log_named", "allow: a profile has calls by their names, and none of x86-64 has the number 5000"),
    *[trouble(f"ask allow --to profile --arch {arch} log", "allow: a profile is written of calls of x86-64 alone: --to profile") for arch in ("i386", "x32", "aarch64")],
    *[trouble(f"ask allow {words}", "allow: expected policy or profile behind --to") for words in ("--to", "--to raw log", "log --to=", "--to Profile log")],
    *[trouble(f"ask allow {words}", "allow: expected docker, crun, bwrap or systemd behind --for") for words in ("--for", "--for lxc log", "log --for=")],
    trouble("ask allow --for docker --for crun log", "allow: given twice: --for"),
    *[good(f"comm -13 <(ask allow --for {name} log | sort) <(ask allow log | sort)", "") for name in ("docker", "runc", "crun", "bwrap", "systemd")],
    *[good(f"ask allow --for {name} log | grep -c ' execve allow$'", "1\n") for name in ("docker", "runc", "crun", "bwrap", "systemd")],
    # What a line does not show narrows nothing, and where that is all there is no policy. Addresses may be any.
    *[trouble(f"ask allow --args {words} log_of_kernel", "allow: no argument of this call is shown by each of its lines: --args read") for words in ("read", "getpid,read", "read,getpid")],
    good("ask allow --args getpid log_of_kernel", "default errno/1 EPERM\n0 read allow\n39 getpid allow\n"),
    Row("echo '7 openat(AT_FDCWD, \"a\", O_RDONLY) = 3' | ask allow --numbers --args openat -", 0, UNSHOWN_MODE,
        "default errno/1 EPERM\n257 openat\n  allow where (args[0] & 0xffffffff) == 0xffffff9c && (args[2] & 0xffffffff) == 0\n  errno/1 EPERM else\n"),
    trouble("(echo '7 read(3, \"\", 1) = 0'; echo '7 read() = 0') | ask allow --args read -", "allow: no argument of this call is shown by each of its lines: --args read"),
    *[good(f"echo '7 {name}(0x7f0000001000, {', '.join(['4096', *more])}) = 0' | ask allow --numbers --args {name} - | grep -o 'args.[04].'; true", "")
      for name, more in (("munmap", ()), ("mprotect", ("1",)), ("mremap", ("4096", "1", "0x7f0000002000")), ("madvise", ("4",)))],
    *[trouble(f"ask {word} --since-seccomp raw", f"{word}: no option is named --since-seccomp") for word in ("calls", "filter", "when", "lint", "show", "arches", "check")],
    good("ask allow log_of_kernel", "default errno/1 EPERM\n0 read allow\n39 getpid allow\n"),
    Row("ask replay log_of_i386 all", 1, "ask: log_of_i386: line 1 is not understood\n", "1 getpid() allow\n1 line is not understood\n"),
    Row("ask allow log_of_i386", 1, "ask: log_of_i386: 1 line is not understood\n", "default errno/1 EPERM\n39 getpid allow\n"),
    good("ask replay --arch i386 log_of_i386 all", "1 getpid(?, ?, ?, ?, ?, ?) allow (logged: kill_thread)\n1 getpid() allow\n"),
    Row("ask replay log_of_modes all", 1, "ask: log_of_modes: line 1 is not understood\n", "1 getpid() allow\n1 line is not understood\n"),
    good("ask replay --arch i386 log_of_modes all", "1 getpid() allow\n1 line is no call\n"),
    # A line of the kernel stands for its call, of which it has no argument.
    good('ask why "$(head -n 1 log_of_kernel)" raw', GETPID_PATH + "logged: errno\n"),
    good('ask why "$(head -n 1 log_of_journal)" raw', GETPID_PATH + "logged: kill_process\n"),
    good("ask why 'type=SECCOMP msg=audit(1): arch=c000003e syscall=39' raw", GETPID_PATH),
    good("ask why 'type=1326 audit(1): arch=c000003e syscall=39 code=0x12345' raw | tail -n 1", "logged: 0x12345\n"),
    good("ask why --arch i386 \"$(head -n 1 log_of_i386)\" all | tail -n 1", "logged: kill_thread\n"),
    *[trouble(f"ask why '{line}' raw", "why: the kernel's line has no arch= and syscall= of a call of this architecture: x86-64") for line in (
        "type=1326 audit(1): arch=40000003 syscall=20 code=0x0", "type=1326 audit(1): arch=c000003e code=0x0", "type=1326 audit(1): arch=c000003e syscall=1 syscall=2",
        "audit[9]: SECCOMP arch=40000003 syscall=20", "type=1326", "audit[9]: SECCOMP arch=c000003e syscall=1073741824")],
    *[trouble(f'ask why "$(tail -n 1 log_of_kernel)" {name}', "why: the kernel's line does not show the argument that the verdict depends on: write the call with its arguments: "
        f"args[{i}]") for name, i in (("argument", 0), ("second", 1), ("every_word", 0))],
    *[good(f"ask why '{call}' raw", GETPID_PATH) for call in ("getpid", "getpid()", "39", "0x27( )", "getpid(1, -1, 0xff)", " getpid ( 1 ) ")],
    good("ask why getpid - < raw", GETPID_PATH), good("ask why getpid <(cat lines)", GETPID_PATH), good("cat raw | ask why getpid /dev/stdin", GETPID_PATH),
    good("ask why getpid all raw", "filter 1\n" + GETPID_STEPS + "filter 0\n" + step(0, "ret 0x7fff0000", 0) + "  allow\nerrno/1 EPERM by filter 1 at 2\n"),
    *[good(f"ask why {asking} | tail -n 1", f"{told}\n") for asking, told in (
        ("getpid profile_i386", "profile_i386: entry 1 of syscalls in line 1 decides"), ("read profile_i386", "profile_i386: no entry of syscalls says otherwise than the default"),
        ("--arch i386 chown32 profile_i386", "profile_i386: entry 2 of syscalls in line 1 decides"),
        ("--arch x32 getpid profile_i386", "profile_i386: the profile is not for this architecture"),
        ("--machine x86-64 --arch aarch64 getpid profile_i386", "profile_i386: the profile is not for this architecture"),
        ("--runc 1000 profile_runc", "profile_runc: runc's own instructions decide, which know no such call"),
        ("getpid policy_of_code", "policy_of_code: line 7 decides"), ("read policy_of_code", "policy_of_code: default in line 5 decides"),
        ("--arch i386 read policy_of_code", "policy_of_code: others in line 6 decides"), ("getpid marked_policy", "marked_policy: line 3 decides"),
        ("getpid profile_i386 raw", "profile_i386: entry 1 of syscalls in line 1 decides"), ("getpid raw policy_of_code raw", "policy_of_code: line 7 decides"))],
    good("ask why getpid policy_of_code profile_i386 | tail -n 2", "policy_of_code: line 7 decides\nprofile_i386: entry 1 of syscalls in line 1 decides\n"),
    good("ask why 'read(1)' flag", flag_path(1, "!=", 2, "0x00050026", "errno/38 ENOSYS")),
    good("ask why 'read(-1)' flag", flag_path(4294967295, "!=", 2, "0x00050026", "errno/38 ENOSYS")),
    good("ask why 'read(18446744073709551615)' flag", flag_path(4294967295, "!=", 2, "0x00050026", "errno/38 ENOSYS")),
    good("ask why 'read(0x100000000)' flag", flag_path(0, "==", 3, "0x7fff0000", "allow")),
    good("ask why 'read(-9223372036854775808)' flag", flag_path(0, "==", 3, "0x7fff0000", "allow")),
    good("ask why read flag", flag_path(0, "==", 3, "0x7fff0000", "allow")),
    *[good(f"ask show {name}", GETPID_SHOWN) for name in ("raw", "digits", "upper", "spread", "crlf", "lines", "lines_crlf", "- < raw", "/dev/stdin < lines", "<(cat raw)")],
    good("ask show all", "; 0 allow\n    ret 0x7fff0000\n"), good("mkfifo fifo; cat all > fifo & timeout 20 ask show fifo", "; 0 allow\n    ret 0x7fff0000\n"),
    good("ask show flag", "; 0 args[0] low\n    ldabs 16\n; 1\n    jset 1 +0 at3\n; 2 errno/38 ENOSYS\n    ret 0x00050026\nat3:\n; 3 allow\n    ret 0x7fff0000\n"),
    good("ask arches all", arches("allow", "allow", "allow")),
    warned("ask arches raw", arches(BY_CALL, "allow", BY_CALL) + JUDGED_I386),
    good(f"echo {GUARDED.hex()} | ask arches -", arches(BY_CALL, "allow", "kill_process")),
    good(f"echo {BEHIND.hex()} | ask arches -", arches("allow", "allow", "allow", BY_CALL)),
    good(f"echo {EACH_WORD.hex()} | ask arches -", arches("allow", "allow", "allow", NOT_FOLLOWED)),
    warned(f"echo {MASKED.hex()} | ask arches -", arches(BY_CALL, BY_CALL, BY_CALL) + JUDGED_I386),
    warned(f"echo {MASKED_EXECVE.hex()} | ask arches -", arches(BY_CALL, BY_CALL, BY_CALL) + JUDGED_I386 + JUDGED_X32),
    good("ask arches --help | head -n 1", "usage: ask arches [--json] FILE..\n"),
    good("ask show --help | head -n 1", "usage: ask show [--arch ARCH] FILE\n"), good("ask show two --help | head -n 1", "usage: ask show [--arch ARCH] FILE\n"),
    good("ask why --help | head -n 1", "usage: ask why [--json] [--arch ARCH] 'CALL(ARG, ..)' FILE..\n"),
    good("ask replay --help | head -n 1", "usage: ask replay [--since-seccomp] [--json] [--arch ARCH] LOG FILE..\n"),
    good("ask when --help | head -n 1", "usage: ask when [--call CALL [--dot]] [--only VERDICT] [--numbers] [--json] [--arch ARCH] FILE..\n"),
    warned("ask lint wide | grep -v record", LET_THROUGH), warned("ask lint --numbers wide | grep -v record", LET_THROUGH.replace("AF_NETLINK", "0x10").replace("NETLINK_ROUTE", "0x0")),
    good("ask lint narrow", CLEAN), good("ask lint wide narrow", CLEAN), good("ask lint raw", CLEAN),
    good("ask lint only", AS_STRICT + "as strict or stricter by such bits: 1 condition (--all shows it)\n"),
    good("ask lint --all only | head -n 2 | cut -d' ' -f 1-7", AS_STRICT.replace(" by bits that Linux does not read", "") + "41 socket: allow -> errno/22 EINVAL where\n"),
    good("ask why 'socket(AF_NETLINK, SOCK_RAW|SOCK_CLOEXEC, 0)' wide | tail -n 1", "errno/22 EINVAL by filter 0 at 6\n"),
    good("ask why 'open(\"a, b)|\", O_RDONLY)' wide | tail -n 1", "allow by filter 0 at 7\n"),
    good("ask when --call socket narrow", "41 socket\n  errno/22 EINVAL where (args[0] & 0xffffffff) == AF_NETLINK\n  allow else\n"),
    good("ask when --numbers --call socket narrow", "41 socket\n  errno/22 EINVAL where (args[0] & 0xffffffff) == 0x10\n  allow else\n"),
    good("ask page --help | head -n 2", "usage: ask page [--numbers] FILE..\n       ask page [--numbers] --old OLD NEW\n"),
    *[good(f"ask page {words} | grep -c '<h1>ask page: {title}</h1>'", "1\n") for words, title in (
        ("raw", "raw"), ("raw all", "raw, all"), ("--old raw all", "raw to all"), ("all --old raw", "raw to all"), ("--old=raw all", "raw to all"),
        ("--numbers wide", "wide"))],
    good("ask lint --help | head -n 1", "usage: ask lint [--all] [--numbers] [--json] FILE..\n"),
    good("ask diff --help | head -n 1", "usage: ask diff [--stricter] [--numbers] [--json] [--arch ARCH] OLD NEW\n"),
    good("ask --help | head -n 1", "usage: ask WORD ..\n"), good("ask calls --help | head -n 1", "usage: ask calls [--call CALL] [--only VERDICT] [--examples] [--json] [--arch ARCH] FILE..\n"),
    *[good(f"ask {words} | head -n 1", f"usage: ask {usage}\n") for words, usage in (
        ("-h", "WORD .."), ("arches -h", "arches [--json] FILE.."), ("show two -h", "show [--arch ARCH] FILE"), ("show --arch=arm -h", "show [--arch ARCH] FILE"))],
    trouble("ask calls -hh raw", "calls: no option is named -hh"), trouble("ask calls --help=1 raw", "calls: no option is named --help=1"),
    trouble("ask calls --call -h raw", "no call is named -h"), trouble("ask calls --h raw", "calls: no option is named --h"),
    *[good(f"ask --version{names}", f"ask (skern)\nNames of calls: Linux 6.12\nToolchain: {KIT}\n") for names in ("", " raw", " nofile")],
    *[trouble(f"ask {words}", said) for words, said in (
        ("--versio", "no word is named --versio"), ("-v", "no word is named -v"), ("--version=1", "no word is named --version=1"),
        ("calls --version raw", "calls: no option is named --version"))],
    good("ask filter nofile --help | head -n 1", "usage: ask filter [--to FORM] [--smaller] FILE..\n"),
    # Forms as tcpdump -dd, bpf_asm, xxd and base64 write them.
    good("ask filter --to c raw", FILES["array"].decode()), good("ask filter --to=c array_in_one_line | cmp - array", ""),
    good("ask filter --to bpf_asm raw", "4,32 0 0 0,21 0 1 39,6 0 0 327681,6 0 0 2147418112,\n"),
    good("ask filter --to base64 raw | cmp - <(base64 -w 0 raw; echo)", ""), good("ask filter --to hex raw", DIGITS + "\n"), good("ask filter --to raw lines | cmp - raw", ""),
    good("ask filter --to json raw", '[{"code":32,"jt":0,"jf":0,"k":0},\n {"code":21,"jt":0,"jf":1,"k":39},\n'
         ' {"code":6,"jt":0,"jf":0,"k":327681},\n {"code":6,"jt":0,"jf":0,"k":2147418112}]\n'),
    good("ask filter --to lines two raw", line(ALLOW).decode() + LINE * 2), good("ask filter --to c --raw raw | cmp - raw", ""), good("ask filter --raw --to hex raw", DIGITS + "\n"),
    *[good(f"ask filter --to {form} {name} | ask diff {name} -", "the same on every call\n") for form in ("lines", "raw", "hex", "c", "base64", "bpf_asm")
      for name in ("raw", "policy_of_code", "profile", "profile_i386", "of_two", "all")],
    Row("ask filter --smaller --to bpf_asm trap", 0, "ask: filter: no smaller one was found: 1 instruction\n", "1,6 0 0 196613,\n"),
    good("ask filter --smaller --to c guarded guarded 2> note | ask diff guarded -", "the same on every call\n"),
    *[trouble(f"ask filter --to {form} two", f"filter: the FILEs hold several filters: expected one with --to {form}") for form in ("hex", "c", "base64", "bpf_asm", "json")],
    *[trouble(f"ask filter {words}", "filter: expected raw, hex, lines, c, base64, bpf_asm or json behind --to") for words in (
        "--to", "raw --to", "--to vax raw", "--to '' raw", "--to= raw", "--to C raw", "--to --raw raw", "--to=base64=1 raw")],
    *[trouble(f"ask {word} --to c raw", f"{word}: no option is named --to") for word in ("calls", "when", "diff", "show", "arches", "check")],
    # Several calls are told of in the order in which they are asked for.
    good("ask calls --call read --call getpid raw", "0 read allow\n" + GOT), good("ask calls --call getpid --call 0 --call=getpid raw", GOT + "0 read allow\n" + GOT),
    good("ask calls --call getpid --examples --call read all", f"39 getpid allow\n  allow filter 0 at 0 record {record(39)}\n0 read allow\n  allow filter 0 at 0 record {record(0)}\n"),
    good("ask when --call read --call socket narrow", "0 read allow\n41 socket\n  errno/22 EINVAL where (args[0] & 0xffffffff) == AF_NETLINK\n  allow else\n"),
    good("ask when --call getpid --call getpid --dot raw", GETPID_DRAWN * 2), good("ask when --arch i386 --call read --call 39 raw", "3 read allow\n39 mkdir errno/1 EPERM\n"),
    trouble("ask calls --call read --call mseal2 --call vax raw", "no call is named mseal2"), trouble("ask when --call mseal2 --call read raw", "no call is named mseal2"),
    # What seccomp(2) takes.
    good("ask check raw two", f"raw: valid: 4 instructions\ntwo: line 1: valid: 1 instruction\ntwo: line 2: valid: 4 instructions\n"),
    good("ask check - < array", "-: valid: 4 instructions\n"),
    good("ask check turned --arch s390x 2> note", "turned: valid: 4 instructions\n"), trouble("ask check \"$(printf 'a\\nb')\"", "a?b: no such file"),
    *[warned(f"ask check {name}", f"{name.split()[-1]}: {says}\n") for name, says in (
        ("no_return", "the last instruction is no return"), ("jump", "instruction 0: a jump past the last instruction"), ("raw code", f"line 2: instruction 2: {NO_CODE}"),
        ("raw jump", "instruction 0: a jump past the last instruction"), ("ragged", "the length is no multiple of 8 bytes: expected instructions as struct sock_filter has them"),
        ("chain", "line 9: the filters are too long together: expected at most 32768 instructions, with 4 more for each filter before this one"))],
    trouble("ask check jump empty", f"empty: {NO_FILTER}"), trouble("ask check", "check: no FILE is given"), trouble("ask check jump nofile", "nofile: no such file"),
    trouble("ask check --call read raw", "check: no option is named --call"),
    # What is passed over in a profile is trouble.
    *[good(f"ask calls --strict --call getpid {name}", GOT) for name in ("raw", "profile", "lines", "policy_of_code")],
    *[Row(f"ask {words}", 2, NOTE, "") for words in ("calls --strict profile_noted", "check profile_noted --strict", "diff raw profile_noted --strict", "filter --strict raw profile_noted",
                                                    "expect --strict expected profile_noted", "why --strict read profile_noted", "lint --strict profile_noted")],
    Row("ask check profile_noted 2>&1 > checked | grep -c opennat", 0, "", "1\n"), trouble("ask calls --strict=1 raw", "calls: no option is named --strict=1"),
]
WORDS = [
    trouble("ask", "no word is given; see ask --help"), trouble("ask foo", "no word is named foo"), trouble("ask '' raw", "no word is named "),
    trouble("ask --raw filter raw", "no word is named --raw"),
    trouble("ask when", "when: no FILE is given"), trouble("ask when raw --call", "when: expected a name or a number behind --call"),
    trouble("ask when --examples raw", "when: no option is named --examples"), trouble("ask when --call mseal2 raw", "no call is named mseal2"),
    *[trouble(f"ask when {words}", "when: expected --call CALL beside --dot") for words in ("--dot raw", "raw --dot", "--dot nofile")],
    trouble("ask when --dot", "when: no FILE is given"), trouble("ask when --dot raw --call", "when: expected a name or a number behind --call"),
    trouble("ask when --call mseal2 --dot raw", "no call is named mseal2"), trouble("ask when --call --dot raw", "no call is named --dot"),
    *[trouble(f"ask {word} --dot raw", f"{word}: no option is named --dot") for word in ("calls", "filter", "diff", "lint", "show", "arches")],
    *[trouble(f"ask {word} --numbers raw", f"{word}: no option is named --numbers") for word in ("calls", "filter", "show", "arches")],
    *[trouble(f"ask lint {it} raw", f"lint: no option is named {it}") for it in ("--arch", "--call", "--stricter", "--examples", "--raw")],
    trouble("ask lint", "lint: no FILE is given"), trouble("ask diff --all raw all", "diff: no option is named --all"),
    *[trouble(f"ask diff {files}", "diff: expected two FILEs, OLD and NEW") for files in ("", "raw", "raw raw raw", "--stricter all")],
    trouble("ask diff --call read raw all", "diff: no option is named --call"), trouble("ask diff - - < raw", f"-: {NO_FILTER}"),
    trouble("ask replay", "replay: no LOG is given"), trouble("ask replay log", "replay: no FILE is given"),
    trouble("ask replay -", "replay: no FILE is given"), trouble("ask replay --call read log all", "replay: no option is named --call"),
    good("ask replay -- log all | wc -l", "3\n"), good("ask calls --call getpid -- raw", GOT), good("ask calls --call getpid all -- raw all", GOT),
    good("cp raw ./-x; ask calls --call getpid -- -x", GOT), good("cp raw ./--; ask calls --call getpid -- --", GOT),
    trouble("ask calls --", "calls: no FILE is given"), trouble("ask -- calls raw", "no word is named --"), trouble("ask calls raw -- -- raw", "--: no such file"),
    *[trouble(f"ask calls -- {name}", f"{name}: no such file") for name in ("--help", "-h", "--call", "--arch=arm")],
    trouble("ask why -- -1 raw", "no call is named -1"), trouble("ask diff -- raw", "diff: expected two FILEs, OLD and NEW"),
    trouble("ask calls raw --call --", "no call is named --"), trouble("ask calls raw --cap --", "calls: no capability is named --"),
    trouble("ask arches", "arches: no FILE is given"), trouble("ask arches --call read raw", "arches: no option is named --call"),
    trouble("ask page", "page: no FILE is given"), trouble("ask page --old raw", "page: expected two FILEs, OLD and NEW"),
    trouble("ask page --old raw all all", "page: expected two FILEs, OLD and NEW"), trouble("ask page raw --old", "page: expected a FILE behind --old"),
    trouble("ask page --old raw --old all all", "page: given twice: --old"), trouble("ask page nofile", "nofile: no such file"),
    *[trouble(f"ask page {it} raw", f"page: no option is named {it}") for it in ("--json", "--arch", "--call", "--stricter", "--all")],
    trouble("ask show", "show: no FILE is given"), trouble("ask show --raw raw", "show: no option is named --raw"),
    trouble("ask show --call read raw", "show: no option is named --call"), trouble("ask show raw -x", "show: no option is named -x"),
    trouble("ask why", "why: no CALL is given"), trouble("ask why getpid", "why: no FILE is given"), trouble("ask why raw", "why: no FILE is given"),
    trouble("ask why --call getpid raw", "why: no option is named --call"), trouble("ask why -1 raw", "why: no option is named -1"),
    *[trouble(f"ask why '{call}' nofile", f"no call is named {name}") for call, name in (
        ("mseal2", "mseal2"), ("mseal2(1", "mseal2"), ("010", "010"), ("010(1)", "010"), ("", ""), ("(1)", ""), ("GETPID", "GETPID"),
        ("4294967296", "4294967296"), ("getpid write", "getpid write"), ("-", "-"), ("raw", "raw"), ("0x", "0x"))],
    trouble("ask why \"$(printf 'a\\nb')\" raw", "no call is named a?b"), trouble("ask why \"$(printf 'a\\xff')\" raw", "a word is not UTF-8"),
    trouble("ask replay \"$(printf 'a\\xff')\" raw", "a word is not UTF-8"),
    *[trouble(f"ask why '{call}' nofile", UNCLOSED) for call in ("read(", "read(1", "read(1) = 3", "read(1))", "read(1,2,3,4,5,6,7")],
    *[trouble(f"ask why '{call}' nofile", TOO_MANY) for call in ("read(1,2,3,4,5,6,7)", "read(,,,,,,)", "read(x,2,3,4,5,6,7)")],
    *[trouble(f"ask why '{call}' nofile", wrong(number, part)) for call, number, part in (
        ("read(08)", 1, "08"), ("read(1, 08)", 2, "08"), ("read(18446744073709551616)", 1, "18446744073709551616"),
        ("read(0x10000000000000000)", 1, "0x10000000000000000"), ("read(-9223372036854775809)", 1, "-9223372036854775809"),
        ("read(1,)", 2, ""), ("read(,1)", 1, ""), ("read(1,2,3,4,5,)", 6, ""), ("read(1 2)", 1, "1 2"), ("read(+1)", 1, "+1"), ("read(1e3)", 1, "1e3"),
        ("read((1)", 1, "(1"), ("socket(AF_NETLINC, 1)", 1, "AF_NETLINC"), ("socket(1, SOCK_RAW|SOCK_CLOXEC)", 2, "SOCK_CLOXEC"), ("read(1|)", 1, ""),
        ("read(1|-1)", 1, "-1"), ("read(af_unix)", 1, "af_unix"))],
    *[trouble(f"ask why '{call}' nofile", "why: CALL(ARG, ..) has a text that does not end with its double quote") for call in (
        "open(\"a)", "open(\"a\", \"b)")],
    trouble("ask why \"$(printf 'read(1\\t)')\" nofile", wrong(1, "1?")),
    trouble("ask calls", "calls: no FILE is given"), trouble("ask filter --raw", "filter: no FILE is given"),
    # Rows in which a verdict can come.
    *[good(f"ask calls --only {verdict} --call read --call getpid raw", GOT) for verdict in ("errno", "errno/1", "errno/EPERM", "trap --only errno")],
    *[good(f"ask {word} --only {verdict} --call getpid raw", "") for word in ("calls", "when") for verdict in ("allow", "errno/2", "trap/1", "kill_process")],
    good("ask when --only allow --call read flag", "0 read\n  allow where (args[0] & 0x1) == 0\n  errno/38 ENOSYS else\n"),
    *[trouble(f"ask {word} --only '{verdict}' raw", f"{word}: expected a verdict as allow or errno/1 behind --only") for word in ("calls", "when")
      for verdict in ("", "Allow", "errno/", "errno/4096", "trap/65536", "refused", "errno/1 EPERM", "unknown", "/1")],
    trouble("ask calls raw --only", "calls: expected a verdict as allow or errno/1 behind --only"),
    trouble("ask when --dot --only allow --call read raw", "when: expected --dot or --only, not both"),
    trouble("ask diff --only allow raw raw", "diff: no option is named --only"),
    # An option of another word means none of this one's.
    *[trouble(f"ask filter {option} raw", f"filter: no option is named {option}") for option in ("--call", "--call=read", "--json", "--stricter", "--cal")],
    *[trouble(f"ask filter --cap {name} raw", f"filter: no capability is named {name}") for name in ("cap_sys_admni", "CAP_SYS_ADMN", "cap_bfp", "sys_admni")],
    *[trouble(f"ask show --arch {name} raw", f"show: no architecture is named {name}") for name in ("x86-46", "arch64", "amr", "risc64", "s390")],
    *[trouble(f"ask lint --machine {name} raw", f"lint: no machine is named {name}") for name in ("x86-46", "arch64", "amr", "i368", "ppc64")],
    trouble("ask calls --exmples raw", "calls: no option is named --exmples"), trouble("ask calls --raw raw", "calls: no option is named --raw"),
    trouble("ask filter --examples raw", "filter: no option is named --examples"), trouble("ask calls -x raw", "calls: no option is named -x"),
    trouble("ask calls raw --call", "calls: expected a name or a number behind --call"),
    *[trouble(f"ask calls --call '{word}' raw", f"no call is named {word}") for word in (
        "mseal2", "", "010", "00", "-1", "0x", "1e3", "getpid ", "GETPID", "4294967296", "0x100000000", "18446744073709551616")],
    trouble("ask calls --call \"$(printf 'a\\nb')\" raw", "no call is named a?b"),
    *[trouble(f"ask {word} raw --cap", f"{word}: expected a name behind --cap") for word in ("calls", "filter", "when", "diff", "replay", "why", "show", "arches")],
    *[trouble(f"ask {word} raw --kernel", f"{word}: expected a version as 6.1 behind --kernel") for word in ("calls", "diff", "replay", "why", "show")],
    *[trouble(f"ask {word} raw --machine", f"{word}: expected a name behind --machine") for word in ("calls", "filter", "when", "diff", "arches")],
    *[trouble(f"ask calls --machine '{name}' raw", f"calls: no machine is named {name}") for name in ("x32", "i386", "arm", "amd64", "", "vax")],
    trouble("ask calls --machine aarch64 --machine aarch64 raw", "calls: given twice: --machine"),
    trouble("ask calls --native=1 raw", "calls: no option is named --native=1"),
    *[trouble(f"ask calls --cap '{name}' raw", f"calls: no capability is named {name}") for name in (
        "CAP_FOO", "", "CAP_", "CAP", "DOCKER", "All", "none", "sys admin", "CAP_CAP_KILL", "kill ", "--kernel", "0", "raw")],
    *[trouble(f"ask calls --kernel '{version}' raw", "calls: expected a version as 6.1 behind --kernel") for version in (
        "x", "", "6", "6.", ".1", "v6.1", "6,1", " 6.1", "-1.0", "99999999999.1", "6..1", "6.-1", "6-1.1", "6+1.1", "6.1 ", "6.1rc1", "6.1_2", "6.x.1")],
    trouble("ask calls --kernel 6.1 --kernel 6.1 raw", "calls: given twice: --kernel"), trouble("ask filter --cap nil --help", "filter: no capability is named nil"),
    *[trouble(f"ask calls --cap '{names}' raw", f"calls: no capability is named {name}") for names, name in (
        ("kill,", ""), (",kill", ""), ("kill,,setuid", ""), (",", ""), ("kill,nil,vax", "nil"), ("kill, setuid", " setuid"), ("kill;setuid", "kill;setuid"))],
    trouble("ask --cap docker calls raw", "no word is named --cap"), good("ask calls --cap=docker,kill --call=getpid raw", GOT),
    good("ask calls --call=read --cap=sys_admin profile", "0 read allow\n"), good("ask calls --machine=x86-64 --kernel=6.1 --call=39 raw", GOT),
    *[trouble(f"ask calls {option}= raw", says) for option, says in (
        ("--call", "no call is named "), ("--cap", "calls: no capability is named "), ("--machine", "calls: no machine is named "),
        ("--kernel", "calls: expected a version as 6.1 behind --kernel"), ("--native", "calls: no option is named --native="), ("--vax", "calls: no option is named --vax="))],
    *[good(f"ask calls --call {name} raw", GOT) for name in ("SYS_getpid", "__NR_getpid", "getpid", "39", "0x27")],
    good("ask calls --arch i386 --call SYS_getpid raw | cut -d ' ' -f -2", "20 getpid\n"), good("ask when --call __NR_getpid raw", GOT),
    *[trouble(f"ask calls --call '{name}' raw", f"no call is named {name}") for name in (
        "SYS_", "__NR_", "sys_getpid", "SYS_SYS_getpid", "SYS___NR_getpid", "__NR_SYS_getpid", "_NR_getpid", "NR_getpid", "SYSgetpid", "SYS_ getpid", "SYS_Getpid", " SYS_getpid")],
    good("ask why SYS_getpid raw", GETPID_PATH), good("ask why '__NR_getpid()' raw", GETPID_PATH),
    *[trouble(f"ask why '{call}' raw", f"no call is named {name}") for call, name in (("SYS_mseal2(1)", "SYS_mseal2"), ("SYS_", "SYS_"), ("sys_getpid()", "sys_getpid"))],
    *[trouble(f"ask why {words}", f"why: the call stands before the files: {call}") for words, call in (
        ("raw getpid", "getpid"), ("raw 'getpid()'", "getpid()"), ("raw SYS_getpid", "SYS_getpid"), ("raw 39 every", "39"), ("nofile getpid", "getpid"))],
    *[trouble(f"ask why {words}", f"no call is named {name}") for words, name in (("raw every", "raw"), ("raw mseal2", "raw"), ("raw every getpid", "raw"), ("raw 'getpid(\"'", "raw"))],
    trouble("ask calls --call=a=b raw", "no call is named a=b"),
    trouble("ask when --numbers=1 raw", "when: no option is named --numbers=1"), trouble("ask diff --call=read raw all", "diff: no option is named --call=read"),
    trouble("ask calls =raw", "=raw: no such file"), trouble("ask calls --cal=read raw", "calls: no option is named --cal=read"),
    trouble("ask calls --runc=1.1 raw", "calls: no option is named --runc=1.1"), trouble("ask filter --run raw", "filter: no option is named --run"),
    trouble("ask --runc", "no word is named --runc"), trouble("ask filter --runc", "filter: no FILE is given"),
]
# What is said of one FILE, whatever is asked of it.
NO_SUCH, NO_NAME = "expected the name of a call on x86-64, or its number", "read: expected the name of the call with the number before it"
NO_LINE, ODD = "expected filter HEX", "has an odd number of hexadecimal digits: expected two for each byte"
NO_DIGITS = "expected hexadecimal digits behind filter, two for each byte"
NO_JSON, TOO_LONG = "is no JSON: expected the JSON of a profile, no more than 128 deep", "its filter would have more than 4096 instructions"
NO_PROFILE = "no seccomp profile: SecurityOpt names none, so docker's own holds, unless its daemon has another or the container is privileged"
NO_KEY = "is not known: expected defaultAction, defaultErrnoRet, defaultErrno, architectures, archMap, flags, listenerPath, listenerMetadata or syscalls"
NO_WORD = "no word of struct seccomp_data begins at k: expected a multiple of 4 below 64"
ONE = [
    ("nofile", "nofile: no such file"), ("''", ": no such file"), ("folder", "folder: is a folder"), (".", ".: is a folder"),
    ("raw/x", "raw/x: can't be opened"), ("\"$(printf 'a\\nb')\"", "a?b: no such file"), ("\"$(printf 'a\\x7fb')\"", "a?b: no such file"), ("\"$(printf 'a\\xff')\"", "a word is not UTF-8"),
    ("mib_and_one", "mib_and_one: has more than 1048576 bytes"), ("/dev/zero", "/dev/zero: has more than 1048576 bytes"),
    ("- <&-", "-: reading failed"), ("- < folder", "-: reading failed"), ("- < odd", f"-: {ODD}"),
    *[(name, f"{name}: {NO_FILTER}") for name in ("empty", "blank", "comments", "mib", "/dev/null")],
    *[(name, f"{name}: line 1: {NO_LINE}") for name in ("tab", "glued", "record")],
    ("marked_twice", f"marked_twice: line 1: ?: {NO_SUCH}"), ("half_marked", f"half_marked: line 1: ?: {NO_SUCH}"), ("log", f"log: line 1: {NO_NAME}"),
    ("word", f"word: line 1: ;: {NO_SUCH}"), ("odd", f"odd: {ODD}"), ("bad_digits", f"bad_digits: line 2: {NO_DIGITS}"),
    ("odd_line", f"odd_line: line 1: {NO_DIGITS}"), ("no_digits", "no_digits: line 1: there is no instruction"),
    ("<(cat empty)", f"/dev/fd/63: {NO_FILTER}"), ("/dev/stdin < word", f"/dev/stdin: line 1: ;: {NO_SUCH}"),
    ("thirty_three", "thirty_three: line 34: one filter too many: expected at most 32 in all files"),
    ("big_endian", f"big_endian: instruction 0: {NO_CODE}"), ("code", f"code: line 2: instruction 2: {NO_CODE}"),
    ("ragged", "ragged: the length is no multiple of 8 bytes: expected instructions as struct sock_filter has them"),
    ("no_return", "no_return: the last instruction is no return"),
    ("load", f"load: instruction 1: {NO_WORD}"), ("load_past", f"load_past: instruction 0: {NO_WORD}"),
    ("division", "division: instruction 0: division by the constant 0"), ("shift", "shift: instruction 0: shift by a constant of 32 or more"),
    ("scratch", "scratch: instruction 0: there are 16 scratch words: expected k below 16"),
    ("jump", "jump: instruction 0: a jump past the last instruction"),
    ("unstored", "unstored: instruction 0: loads scratch word 3, which some path there does not store"),
    ("long", "long: there are more than 4096 instructions"),
    *[(name, f"{name}: {says}") for name, says in (
        ("elf", "is an ELF file: expected a filter, as bytes of struct sock_filter or as a text"), ("gzip", "is compressed: expected what gunzip makes of it"),
        ("utf16", "is a text in UTF-16: expected UTF-8"), ("utf16_big", "is a text in UTF-16: expected UTF-8"),
        *[(name, "is YAML: expected JSON, as yq -o json writes it") for name in ("yaml", "yaml_document", "manifest")],
        ("pseudo_code", "is pseudo code of libseccomp: expected what seccomp_export_bpf(3) writes"),
        *[(name, "is a unit of systemd: expected a filter, a policy or a profile") for name in ("unit", "service")],
        *[(name, "is a policy of minijail: expected a filter, as minijail's compile_seccomp_policy.py writes it") for name in ("minijail", "minijail_default")],
        ("elf_nearly", f"instruction 0: {NO_CODE}"), ("gzip_nearly", f"instruction 0: {NO_CODE}"), ("dashes", f"line 1: ---: {NO_SUCH}"))],
    ("array_cut", f"array_cut: {NO_JSON}"), ("array_of_three", f"array_of_three: {NO_JSON}"), *[(name, f"{name}: does not have as many rows of decimals as its first number says") for name in ("decimals_short", "decimals_long", "decimals_none", "decimals_in_one_line")],
    ("mark", f"mark: {NO_FILTER}"), ("raw_marked", "raw_marked: the length is no multiple of 8 bytes: expected instructions as struct sock_filter has them"), ("profile_list", "profile_list: expected an object"),
    ("profile_nul", "profile_nul: the length is no multiple of 8 bytes: expected instructions as struct sock_filter has them"),
    *[(f"profile_{name}", f"profile_{name}: {says}") for name, says in (
        ("object", "defaultAction: missing: expected an action as SCMP_ACT_ERRNO, and not SCMP_ACT_NOTIFY"),
        ("open", NO_JSON), ("two", NO_JSON), ("address", NO_JSON), ("comma", "line 3, column 17: a comma stands before the bracket that closes: JSON has none there"),
        ("comment", "line 2, column 3: a comment begins: JSON has none"), ("latin", "is no text in UTF-8: expected the JSON of a profile"), ("keys", "a key comes twice in one object"),
        ("unknown", f"key 3 {NO_KEY}"), ("seccomp", f"key 1 {NO_KEY}"), ("linux", f"key 1 {NO_KEY}"),
        ("action", "entry 2 of syscalls: action: expected an action as SCMP_ACT_ALLOW"), ("errno", "entry 1 of syscalls: errnoRet: expected a number up to 4094, or beside SCMP_ACT_TRACE up to 65535"),
        ("index", "entry 2 of syscalls: item 2 of args: index: expected the number of an argument, from 0 to 5"),
        ("mask", "entry 1 of syscalls: item 1 of args: valueTwo: expected 0, or beside SCMP_CMP_MASKED_EQ no bit outside of value"),
        ("write", "entry 1 of syscalls: action: who is notified of write is told so by write: expected another action"),
        ("clash", "entries 2 and 3 of syscalls clash: both fit write(0x1, 0x2, 0x0, 0x0, 0x0, 0x0), and they say different things"),
    )],
    *[(f"inspected_{name}", f"inspected_{name}: {says}") for name, says in (
        ("without", NO_PROFILE), ("other", NO_PROFILE), ("unconfined", "no seccomp profile: SecurityOpt has seccomp=unconfined, so docker attaches no filter"),
        ("builtin", "no seccomp profile: SecurityOpt has seccomp=builtin, which is docker's own"),
        ("wrong", "no seccomp profile: what SecurityOpt has behind seccomp= is no JSON"), ("entry", "entry 1 of syscalls: action: expected an action as SCMP_ACT_ALLOW"))],
    *[(name, f"{name}: {says}") for name, says in (
        ("configuration_without", f"key 1 {NO_KEY}"), ("configuration_wrong", "entry 2 of syscalls: action: expected an action as SCMP_ACT_ALLOW"),
        ("configuration_number", "expected an object"), ("kubernetes_base", f"key 1 {NO_KEY}"), ("configuration_twice", "a key comes twice in one object"))],
    ("profile_long", f"profile_long: {TOO_LONG}"), ("- < profile_keys", "-: a key comes twice in one object"),
    ("chain", "chain: line 9: the filters are too long together: expected at most 32768 instructions, with 4 more for each filter before this one"),
]
# And of several that are one chain.
SEVERAL = [
    ("nofile folder", "nofile: no such file"), ("folder nofile", "folder: is a folder"), ("raw folder nofile", "folder: is a folder"),
    ("raw nofile", "nofile: no such file"), ("nofile word", "nofile: no such file"), ("word nofile", "nofile: no such file"),
    ("all empty", f"empty: {NO_FILTER}"), ("- - < raw", f"-: {NO_FILTER}"), ("raw digits odd", f"odd: {ODD}"), ("code word", f"word: line 1: ;: {NO_SUCH}"),
    ("thirty_two raw", "raw: one filter too many: expected at most 32 in all files"),
    ("sixteen sixteen two", "two: line 1: one filter too many: expected at most 32 in all files"),
    ("code profile_keys profile_open", "profile_keys: a key comes twice in one object"), ("profile_keys nofile", "nofile: no such file"),
    ("profile profile odd", f"odd: {ODD}"), ("thirty_two profile", "profile: one filter too many: expected at most 32 in all files"),
    ("all code", f"code: line 2: instruction 2: {NO_CODE}"), ("big_endian no_return", f"big_endian: instruction 0: {NO_CODE}"),
]
# And of one that is made for it.
MADE = [
    ("chmod 000 raw; $as_owner {ask} raw", "raw: may not be read"), ("cat word | {ask} /dev/stdin", f"/dev/stdin: line 1: ;: {NO_SUCH}"),
    ("cat odd | {ask} -", f"-: {ODD}"), ("mkfifo fifo; cat word > fifo & timeout 20 {ask} fifo", f"fifo: line 1: ;: {NO_SUCH}"),
    ("mkdir -p deep/er; {ask} deep/er", "deep/er: is a folder"), ("ln -s nowhere link; {ask} link", "link: no such file"),
]
# All that asks something of a chain of FILEs, and of each of two.
ASKING = ("calls", "calls --examples --call read", "calls --call read --call getpid", "calls --arch i386 --call read", "when --call read", "when --arch aarch64 --call read", "when --dot --call read", "filter", "replay log", "why 'getpid(1)'", "why --arch arm 'getpid(1)'", "show", "arches")


def of_machine(asking, says):
    """What is said of a profile where calls of aarch64 or arm are asked about: its filter is for that machine."""
    return says.replace("), and they", ") of aarch64, and they") if "--arch a" in asking else says


UNREAD = [
    *[trouble(f"ask {asking} {files}", of_machine(asking, says)) for asking in ASKING for files, says in ONE + SEVERAL],
    *[trouble(command.format(ask=f"ask {asking}"), says) for asking in (*ASKING, "diff all") for command, says in MADE],
    *[trouble(f"ask diff {files}", says) for file, says in ONE for files in (f"all {file}", f"{file} all")],
    trouble("ask diff word nofile", f"word: line 1: ;: {NO_SUCH}"), trouble("ask diff nofile folder", "nofile: no such file"),
    trouble("ask diff folder nofile", "folder: is a folder"), trouble("ask diff code word", f"code: line 2: instruction 2: {NO_CODE}"),
]
# What is said of a LOG.
LOGS = [
    ("nolog nofile", "nolog: no such file"), ("folder nofile", "folder: is a folder"), ("'' all", ": no such file"), ("folder all", "folder: is a folder"), ("log/x all", "log/x: can't be opened"),
    ("\"$(printf 'a\\nb')\" all", "a?b: no such file"), ("- all <&-", "-: reading failed"), ("- all < folder", "-: reading failed"),
    ("- - < log", f"-: {NO_FILTER}"), ("- all < empty", f"-: {NO_CALL}"), ("<(cat empty) all", f"/dev/fd/63: {NO_CALL}"),
    ("/dev/zero all", "/dev/zero: has more than 268435456 bytes"), ("all log", f"log: line 1: {NO_NAME}"), ("empty empty", f"empty: {NO_FILTER}"),
    *[(f"{name} all", f"{name}: {NO_CALL}") for name in ("profile", "empty", "/dev/null", "log_ends", "raw", "lines", "mib_and_one", "chain")],
]
REFUSED = [
    *[trouble(f"ask replay {names}", says) for names, says in LOGS],
    trouble("chmod 000 log; $as_owner ask replay log all", "log: may not be read"),
    trouble("mkfifo fifo; cat empty > fifo & timeout 20 ask replay fifo all", f"fifo: {NO_CALL}"),
    trouble("truncate -s 268435456 big; ask replay big all", f"big: {NO_CALL}"),
    trouble("truncate -s 268435457 big; ask replay big all", "big: has more than 268435456 bytes"),
    *[trouble(f"ask show {files}", "show: the FILEs hold several filters: expected one") for files in ("two", "raw all", "thirty_two", "raw - < raw")],
    *[trouble(f"ask filter --raw {files}", "filter: the FILEs hold several filters: expected one with --raw") for files in ("two", "raw all", "thirty_two")],
]
STREAMS = [
    *[trouble(f"ask {words} {end}", "writing failed") for words in ("--help", "calls --help", *[f"{asking} raw" for asking in ASKING], "diff raw all")
      for end in ("> /dev/full", ">&-")],
    *[trouble(f"ask {asking} {files}", "") for asking in ASKING for files in ("nofile 2>&-", "nofile 2> /dev/full", "raw > /dev/full 2>&-")],
    trouble("ask why mseal2 raw >&-", "no call is named mseal2"), trouble("ask replay nolog raw >&-", "nolog: no such file"),
]


def error_rows():
    """The verdict of each number as an error, by errno(3) of this machine."""
    for number in range(140):
        name = ERRORS.get(number)
        image = insn(0x06, k=0x00050000 + number).hex()
        yield number, name, f"echo {image} | ask calls --call read -"


def as_owner():
    """Words before a command that take from root what lets it read all files; None where it can't be done."""
    if os.geteuid():
        return ""
    return "setpriv --bounding-set=-dac_override,-dac_read_search" if shutil.which("setpriv") else None


def ran(command, program):
    """The status of a command, and its texts."""
    with tempfile.TemporaryDirectory() as room:
        for name, content in FILES.items():
            with open(os.path.join(room, name), "wb") as file:
                file.write(content)
        os.mkdir(os.path.join(room, "folder"))
        os.mkdir(os.path.join(room, "bin"))
        os.symlink(program, os.path.join(room, "bin", "ask"))
        os.chmod(room, 0o755)
        env = {**os.environ, "PATH": f"{room}/bin:{os.environ['PATH']}", "as_owner": as_owner() or ""}
        end = subprocess.run(["bash", "-c", f"set -o pipefail\n{command}"], cwd=room, env=env, stdin=subprocess.DEVNULL, capture_output=True,
                             timeout=SECONDS, check=False)
    return end.returncode, end.stderr.decode("utf-8", "replace"), end.stdout.decode("utf-8", "replace")


def judged(row, program):
    """What is wrong with a row, or nothing; None where it can't be tried."""
    if "$as_owner" in row.command and as_owner() is None:
        return None
    got = ran(row.command, program)
    return [f"{what} is {it!r} and not {wanted!r}" for what, it, wanted in zip(
        ("status", "standard error", "standard output"), got, row[1:]) if it != wanted]


def judged_error(number, name, command, program):
    """What is wrong with the name of an error."""
    status, complaint, answer = ran(command, program)
    said = answer.removeprefix(f"0 read errno/{number}").strip()
    same = (said == name or getattr(errno, said, None) == number) if name else said == ""
    return [] if (status, complaint) == (0, "") and same else [f"{answer!r}, where errno(3) has {name}"]


def main(words):
    program = os.path.abspath(words[0]) if words else os.path.join(ROOT, "crates/ask/out/ask")
    passed = failed = 0
    rows = [(row.command, lambda row=row: judged(row, program)) for row in GOOD + ARCHITECTURES + EXPECTATIONS + PROFILES + WORDS + UNREAD + REFUSED + STREAMS]
    rows += [(f"errno {it[0]}", lambda it=it: judged_error(*it, program)) for it in error_rows()]
    for name, judge in rows:
        try:
            problems = judge()
        except subprocess.TimeoutExpired:
            problems = [f"there is no end within {SECONDS} seconds"]
        if problems is None:
            print(f"not tried, for want of setpriv: `{name}`")
            continue
        passed += not problems
        failed += bool(problems)
        for problem in problems:
            print(f"`{name}`: {problem}")
    print(f"{passed} passed, {failed} failed")
    return 1 if failed else 0


if __name__ == "__main__":
    sys.exit(main(sys.argv[1:]))
