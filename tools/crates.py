"""The crates of the repository: what crates.txt says of them, and which are proved as they stand."""
import os
import re
import subprocess
from collections.abc import Iterator

TOP = os.path.dirname(os.path.dirname(os.path.realpath(__file__)))
# What a proof reads.
PARTS = ("src", "specs", "proofs")
TEST = re.compile(rb"^\s*#\s*\[\s*test\s*\]", re.M)
PROCESSORS = len(os.sched_getaffinity(0))


def files_of(name: str) -> Iterator[str]:
    """The files that a proof of the crate reads, by their paths."""
    for part in PARTS:
        for folder, _, names in os.walk(f"{TOP}/crates/{name}/{part}"):
            yield from (f"{folder}/{it}" for it in names)


def lines_of(name: str, ending: str = "") -> int:
    """How many lines the files of a crate have, or those of its files whose names end so."""
    count = 0
    for path in files_of(name):
        if path.endswith(ending):
            with open(path, "rb") as file:
                count += file.read().count(b"\n")
    return count


def has_tests(name: str) -> bool:
    for path in files_of(name):
        with open(path, "rb") as file:
            if path.endswith(".rt") and TEST.search(file.read()):
                return True
    return False


def is_program(name: str) -> bool:
    return os.path.isfile(f"{TOP}/crates/{name}/src/main.rt")


def seconds_of(name: str) -> float:
    """A guess how long one processor takes to prove a crate: some of it goes with its lines of code. It orders the work, and
    tells what is left of it."""
    return 25 + 0.12 * lines_of(name, ".rt")


def about(seconds: float) -> str:
    """A time in words, as a guess."""
    minutes = round(seconds / 60)
    return f"some {minutes} minutes" if minutes > 1 else "a minute"


def places(bytes_each: int, most: int = PROCESSORS) -> int:
    """How many jobs there is room for, by the processors and by what free memory holds."""
    with open("/proc/meminfo", encoding="ascii") as file:
        free = next(1024 * int(line.split()[1]) for line in file if line.startswith("MemAvailable:"))
    return max(1, min(most, free // bytes_each))


def toolchain() -> str:
    """The folder of the toolchain, where the page to read first stands."""
    return os.path.dirname(subprocess.run(["rt", "doc"], stdout=subprocess.PIPE, text=True, check=True).stdout.strip())


class Crates:
    """The rows of crates.txt: each crate, with the libraries right below it, of the repository and of the toolchain."""

    def __init__(self, text: str | None = None):
        if text is None:
            with open(f"{TOP}/crates.txt", encoding="utf-8") as file:
                text = file.read()
        rows = [row for row in (line.partition("#")[0].strip() for line in text.splitlines()) if row]
        # The whole row of each, which a file crates.txt of a part of the repository takes.
        self.lines = {row.partition(":")[0].split()[0]: row for row in rows}
        self.rows = {name: row.partition(":")[2].split() for name, row in self.lines.items()}

    def __iter__(self) -> Iterator[str]:
        return iter(self.rows)

    def __contains__(self, name: str) -> bool:
        return name in self.rows

    def is_static(self, name: str) -> bool:
        """Whether the crate is a library for C, an archive on which no other crate stands."""
        return "staticlib" in self.lines[name].partition(":")[0].split()

    def archive(self, name: str) -> str:
        return f"{TOP}/crates/{name}/out/lib{name}.a"

    def uses(self, name: str) -> list[str]:
        return [it for it in self.rows[name] if it in self.rows]

    def of_toolchain(self, name: str) -> list[str]:
        return ["std", *(it for it in self.rows[name] if it not in self.rows)]

    def below(self, name: str) -> list[str]:
        """The crates below, each behind those that it uses."""
        found: list[str] = []
        for use in self.uses(name):
            found += [it for it in [*self.below(use), use] if it not in found]
        return found

    def below_all(self, names: list[str]) -> list[str]:
        """The crates below these, each once and behind those that it uses."""
        return list(dict.fromkeys(below for it in names for below in self.below(it)))

    def chains(self, names: list[str]) -> dict[str, float]:
        """How long each of these crates takes with the longest chain of those that wait for it, where each stands behind
        those that it uses."""
        chain: dict[str, float] = {}
        for name in reversed(names):
            above = [chain[it] for it in names if name in self.uses(it)]
            chain[name] = seconds_of(name) + max(above, default=0)
        return chain

    def time_to_prove(self, programs: list[str]) -> float:
        """A guess how long it takes to prove these programs, beside what is proved already."""
        left = [it for it in [*self.below_all(programs), *programs] if not self.is_stamped(it)]
        longest = max(self.chains(left).values(), default=0)
        return max(longest, sum(map(seconds_of, left)) / PROCESSORS)

    def is_stamped(self, name: str) -> bool:
        """Whether the library has the stamp of a proof that is younger than what it read. Where a file was changed meanwhile,
        there is none."""
        try:
            proved = os.path.getmtime(f"{TOP}/crates/{name}/out/rlib/stamp")
        except OSError:
            return False
        return os.path.getmtime(f"{TOP}/crates.txt") <= proved and self.is_older(name, proved)

    def is_proved(self, name: str) -> bool:
        """Whether the crate was proved after each file of it and of those below was written. Only what is proved is built."""
        out = f"{TOP}/crates/{name}/out"
        # The files of a library that an earlier run of rt ci made keep their times: when it was put here its folder tells.
        is_one_file = is_program(name) or self.is_static(name)
        made = self.archive(name) if self.is_static(name) else f"{out}/{name}" if is_program(name) else f"{out}/rlib/{name}.rlib"
        if not os.path.exists(made if is_one_file else f"{made}/format"):
            return False
        # rt writes the stamp once it has seen that no file changed meanwhile. What rt ci builds has none.
        return self.is_older(name, os.path.getmtime(next(it for it in (f"{out}/rlib/stamp", made) if os.path.exists(it))))

    def is_built(self, name: str) -> bool:
        """Whether the proved program is as young as all that it stands on. What was written while it was built is newer than
        the file `built`, and may be older than the program."""
        out = f"{TOP}/crates/{name}/out"
        if not os.access(f"{out}/{name}", os.X_OK):
            return False
        built = os.path.getmtime(next(it for it in (f"{out}/built", f"{out}/{name}") if os.path.exists(it)))
        return os.path.getmtime(f"{TOP}/crates.txt") <= built and self.is_older(name, built)

    def is_older(self, name: str, moment: float) -> bool:
        """Whether each file of the crate and of those below was written by then."""
        return all(os.path.getmtime(path) <= moment for it in [*self.below(name), name] for path in files_of(it))

    def prover_words(self, name: str) -> list[str]:
        """The command that checks the crate in whose copy it is run, over the libraries as they are built. `rt check` would
        prove libraries again that `rt ci` has built, which have no stamp, and go on from what checks elsewhere have kept."""
        kit = toolchain()
        words = [f"{kit}/bin/rattle", "check", "--crate-name", name, "src/main.rt" if is_program(name) else "src/lib.rt"]
        words += [word for it in self.of_toolchain(name) for word in ("--extern", f"{it}={kit}/rlibs/{it}.rlib")]
        words += ["-L", f"dependency={kit}/rlibs"]
        words += [word for it in self.uses(name) for word in ("--extern", f"{it}={TOP}/crates/{it}/out/rlib/{it}.rlib")]
        words += [word for it in self.below(name) for word in ("-L", f"dependency={TOP}/crates/{it}/out/rlib")]
        words += ["--antt-project", f"{kit}/rattle/logic/antt-project.json", "--logic-built", f"{kit}/logic_built"]
        words += ["--crate-type", "staticlib"] * self.is_static(name)
        return [*words, "--jobs", "1", "--links", f"{name}="]
