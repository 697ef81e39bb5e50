#!/usr/bin/env python3
"""other_architectures.py SIMULATOR [FILTER..]: writes what libseccomp's scmp_bpf_sim answers for filters on the calls of each
architecture that it knows, into examples/architectures. It is run by hand: SIMULATOR is the program scmp_bpf_sim, which stands
in tools/ of libseccomp's source package and in no other package, and scmp_sys_resolver is there too, in Debian's package
seccomp. Where no filter is named, it takes those of examples/filters that look at other architectures than x86-64, and one
that refuses all of them.

A file has three kinds of lines. One that begins with `#` is a comment. `ARCH FIRST-LAST VERDICT` says what the filter answers
to each of these numbers where all arguments are 0, in rising order of the numbers, and `ARCH NUMBER(ARGUMENT, ARGUMENT..)
VERDICT` what it answers to a call whose other arguments are 0. A verdict is written as `ask` writes it, without the name of an
error. A trap has no data, which the simulator does not tell. Nothing here comes from the programs of this repository.

Tells each file that it has written. The status is 2 where something can't be read, or the simulator gives no answer."""
import re
import subprocess
import sys
import tempfile
from concurrent.futures import ThreadPoolExecutor
from pathlib import Path

TOP = Path(__file__).resolve().parent.parent
FOLDER = TOP / "examples/architectures"
FILTERS = [TOP / f"examples/filters/{it}.hex" for it in ("containers-default-archs-tree", "docker-default-tree", "systemd-hardening-3")]
# The architectures by our names, with those that libseccomp has for them.
NAMES = {"x86-64": "x86_64", "x32": "x32", "i386": "x86", "aarch64": "aarch64", "arm": "arm", "riscv64": "riscv64",
         "ppc64le": "ppc64le", "s390x": "s390x"}
BIG_ENDIAN = {"s390x"}
X32_BIT = 1 << 30
# Every number that a call has on some architecture, and some more.
NUMBERS = [*range(548), *range(983041, 983047)]
# Calls with arguments: new user namespaces, odd personalities, and sockets of netlink, of the crypto API and of vsock.
CALLS = [("clone", [0x10000000]), ("clone", [0, 0x10000000]), ("clone3", [0x10000000]), ("unshare", [0x10000000]),
         ("personality", [8]), ("personality", [0x20000]), ("personality", [0x20008]), ("personality", [0xFFFFFFFF]),
         ("personality", [1]), ("socket", [16]), ("socket", [38]), ("socket", [40]), ("socket", [16, 0, 9])]
ANSWER = re.compile(r"(KILL_PROCESS|KILL|TRAP|LOG|ALLOW|ERRNO\((\d+)\)|TRACE\((\d+)\))\n")
VERDICTS = {"KILL_PROCESS": "kill_process", "KILL": "kill_thread", "TRAP": "trap", "LOG": "log", "ALLOW": "allow"}
AT_A_TIME = 2


class Trouble(Exception):
    pass


def ran(command):
    try:
        done = subprocess.run(command, capture_output=True, text=True, check=False)
    except OSError as why:
        raise Trouble(f"{command[0]} can't be run: {why}") from why
    if done.returncode:
        raise Trouble(f"{' '.join(command)}: status {done.returncode}\n{done.stdout}{done.stderr}")
    return done.stdout


def verdict_of(simulator, image, architecture, number, arguments=()):
    words = [word for place, it in enumerate(arguments) for word in (f"-{place}", str(it))]
    answer = ran([simulator, "-f", image, "-a", NAMES[architecture], "-s", str(number), *words])
    found = ANSWER.fullmatch(answer)
    if found is None:
        raise Trouble(f"{simulator} answers {answer!r} to {number} of {architecture}")
    if found[2] or found[3]:
        return f"{'errno' if found[2] else 'trace'}/{found[2] or found[3]}"
    return VERDICTS[found[1]]


def image_of(path, is_big):
    """The bytes of a filter, as an architecture has them."""
    try:
        image = bytes.fromhex("".join(path.read_text(encoding="ascii").split()))
    except (OSError, ValueError) as why:
        raise Trouble(f"{path} can't be read: {why}") from why
    if not image or len(image) % 8:
        raise Trouble(f"{path} is no filter")
    parts = (image[at:at + 8] for at in range(0, len(image), 8))
    return b"".join(it[1::-1] + it[2:4] + it[:3:-1] if is_big else it for it in parts)


def number_of(architecture, name):
    """The number of a call by libseccomp, or none; it has a negative one of its own for a call of other architectures."""
    number = int(ran(["scmp_sys_resolver", "-a", NAMES[architecture], name]))
    return number if number >= 0 else None


def ranges_of(verdicts):
    """The numbers in rising order, those that follow each other and have the same verdict as one range."""
    ranges = []
    for number, verdict in verdicts:
        if ranges and ranges[-1][1:] == [number - 1, verdict]:
            ranges[-1][1] = number
        else:
            ranges.append([number, number, verdict])
    return ranges


def lines_of(pool, simulator, image, architecture):
    bit = X32_BIT if architecture == "x32" else 0
    numbers = [bit | it for it in NUMBERS]
    verdicts = pool.map(lambda it: verdict_of(simulator, image, architecture, it), numbers)
    yield from (f"{architecture} {first}-{last} {verdict}\n" for first, last, verdict in ranges_of(zip(numbers, verdicts)))
    for name, arguments in CALLS:
        number = number_of(architecture, name)
        if number is not None:
            shown = ", ".join(hex(it) for it in arguments)
            yield f"{architecture} {number}({shown}) {verdict_of(simulator, image, architecture, number, arguments)}\n"


def write(simulator, path):
    lines = [f"# What scmp_bpf_sim of libseccomp answers for {path.name}. tools/other_architectures.py has made it.\n"]
    with ThreadPoolExecutor(AT_A_TIME) as pool, tempfile.TemporaryDirectory() as room:
        for architecture in NAMES:
            image = Path(room) / architecture
            image.write_bytes(image_of(path, architecture in BIG_ENDIAN))
            lines += lines_of(pool, simulator, str(image), architecture)
    FOLDER.mkdir(exist_ok=True)
    target = FOLDER / f"{path.stem}.txt"
    target.write_text("".join(lines), encoding="ascii")
    print(f"{target.relative_to(TOP)}: {len(lines)} lines")


def main(words):
    if not words:
        print(__doc__, file=sys.stderr)
        return 2
    for path in map(Path, words[1:]) if words[1:] else FILTERS:
        write(words[0], path)
    return 0


if __name__ == "__main__":
    try:
        sys.exit(main(sys.argv[1:]))
    except Trouble as why:
        print(f"other_architectures.py: {why}", file=sys.stderr)
        sys.exit(2)
