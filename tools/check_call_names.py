#!/usr/bin/env python3
"""Compares the tables of sk_names with the headers of Linux 6.12: each name and each number of each architecture, both
ways; the names that calls have on other architectures alone; the numbers that filters are shown of architectures; and the
kernel that `ask` takes for the newest.

check_call_names.py [INCLUDE]: INCLUDE holds the headers of all architectures, as usr/include of Debian's package
linux-libc-dev. Where none is named, that package of Debian's trixie is fetched, which stays at Linux 6.12; tools/debian.py says
how. A comparison without headers fails. Prints what each table comes to, and at last 'N passed, M failed'."""
import re
import subprocess
import sys
import tempfile
from pathlib import Path

sys.dont_write_bytecode = True

from call_tables import TOP, Trouble, macros_of, read, value_of
from debian import HEADERS, unpacked

# The folders of headers, by the names that the tables have.
FOLDERS = {
    "x32": "x86_64-linux-gnu",
    "i386": "i386-linux-gnu",
    "aarch64": "aarch64-linux-gnu",
    "arm": "arm-linux-gnueabihf",
    "riscv64": "riscv64-linux-gnu",
    "ppc64le": "powerpc64le-linux-gnu",
    "s390x": "s390x-linux-gnu",
    "loongarch64": "loongarch64-linux-gnu",
}
NATIVE = "x86_64-linux-gnu"
NEWEST = re.compile(r"newest = record { major = (\d+); minor = (\d+) }")


def check_newest(include):
    """Whether the kernel that is taken for the newest is that of the headers."""
    macros = macros_of(str(include / NATIVE), "linux/version.h", "")
    header = tuple(value_of(macros, f"LINUX_VERSION_{it}") for it in ("MAJOR", "PATCHLEVEL"))
    found = NEWEST.search(read(TOP / "crates/sk_ask/specs/Contexts.antt"))
    taken = tuple(map(int, found.groups())) if found else None
    print(f"the headers are those of Linux {header[0]}.{header[1]}, and the newest kernel of ask is {taken}", flush=True)
    return taken == header


def checked(*words):
    """Whether tools/call_names finds no difference."""
    return subprocess.run([str(TOP / "tools/call_names"), *map(str, words)], stdin=subprocess.DEVNULL, check=False).returncode == 0


def compared(include):
    """Whether each table is that of the headers."""
    yield check_newest(include)
    yield checked("--check", include / NATIVE / "asm/unistd_64.h")
    for name, folder in FOLDERS.items():
        yield checked("--arch", name, "--check", include / folder)
    yield checked("--elsewhere", "--check", *sorted(include.glob("*-linux-gnu*")))
    yield checked("--audit", include / NATIVE)


def main(words):
    try:
        with tempfile.TemporaryDirectory() as folder:
            told = list(compared(Path(words[0]) if words else unpacked(folder, HEADERS) / "usr/include"))
    except Trouble as why:
        print(f"check_call_names.py: {why}")
        told = [False]
    print(f"{sum(told)} passed, {len(told) - sum(told)} failed")
    return 0 if all(told) else 1


if __name__ == "__main__":
    sys.exit(main(sys.argv[1:]))
