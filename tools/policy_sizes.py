#!/usr/bin/env python3
"""policy_sizes.py: tells how long the filters are that `ask filter` makes of the policies which `ask when` writes of the real filters of
examples/filters, and those of `ask filter --smaller`, and how many instructions calls execute in them, as rows of a table for
bench/README.md. A filter that has none, since calls of other architectures get several verdicts or theirs is not
known, has `-`.

The four numbers of a cell are those of tools/filter_sizes.py. The status is 2 where a filter can't be made or read."""
import subprocess
import sys
import tempfile
from pathlib import Path

sys.dont_write_bytecode = True

from call_tables import Trouble, read
from check_calls import PROGRAM, instructions
from filter_sizes import TOP, cell


def ask(*words: str) -> bytes:
    ran = subprocess.run([PROGRAM, *words], capture_output=True, check=False)
    if ran.returncode:
        raise Trouble(ran.stderr.decode(errors="replace").strip() or ran.stdout.decode(errors="replace"))
    return ran.stdout


def row(path: Path, room: str) -> str:
    policy = Path(room, path.stem)
    policy.write_bytes(ask("when", str(path)))
    ask("diff", str(path), str(policy))
    old, new = instructions("".join(read(path).split())), instructions(ask("filter", "--raw", str(policy)).hex())
    less = smaller(path)
    told = f"{len(less)} | {cell(less, 'x86-64')}" if less else "- | -"
    return f"| {path.stem} | {len(old)} | {len(new)} | {cell(old, 'x86-64')} | {cell(new, 'x86-64')} | {told} |"


def smaller(path: Path) -> list | None:
    """The instructions of the smaller filter, if calls of other architectures get one verdict."""
    ran = subprocess.run([PROGRAM, "filter", "--smaller", "--raw", str(path)], capture_output=True, check=False)
    if ran.returncode and b"calls of other architectures" in ran.stderr:
        return None
    if ran.returncode:
        raise Trouble(ran.stderr.decode(errors="replace").strip())
    return instructions(ran.stdout.hex())


def main() -> int:
    print("| Filter | Instructions | Of its policy | Executed | Of its policy | Smaller | Executed |\n|---|---|---|---|---|---|---|")
    with tempfile.TemporaryDirectory() as room:
        for path in sorted((TOP / "examples/filters").glob("*.hex")):
            print(row(path, room), flush=True)
    return 0


if __name__ == "__main__":
    try:
        sys.exit(main())
    except (OSError, Trouble, ValueError) as why:
        print(f"policy_sizes.py: {why}", file=sys.stderr)
        sys.exit(2)
