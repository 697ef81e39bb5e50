#!/usr/bin/env python3
"""Checks what tools/package makes of the programs and of the library as they stand built.

check_package.py: two packages, one of them of a copy of the repository in another folder, have to be the same to the byte. The Debian
package has to have what a user looks for, each file of the user root and with the sum that it tells, pages without a warning of
man(1), and a library that pkg-config(1) and gcc find. It is installed in a root of Debian with nothing else: there each command of
the pages that does not speak of the repository prints what they say, with the names that an installation has. After its removal the
root has the files that it had before.

The root is made by debootstrap and kept in ~/.cache/skern-root. What can't be tried is told as left out, and not counted: the root
where debootstrap or its privilege is missing, and commands of programs that the root does not have.

Prints each problem, and at last 'N passed, M failed'."""
import glob
import os
import re
import shutil
import subprocess
import sys
import tempfile
from collections.abc import Iterator
from pathlib import Path

sys.dont_write_bytecode = True

from call_tables import Trouble
from check_documents import EXPORT, blocks, judge, results
from debian import mirror

ROOT = Path(__file__).resolve().parent.parent
STORE = Path(os.environ.get("XDG_CACHE_HOME") or os.path.expanduser("~/.cache")) / "skern-root"
SUITE = "bookworm"
BUILT = [f"crates/{it}" for it in ("ask/out/ask", "ask/out/built", "skern/out/skern", "skern/out/built", "libskern/out/liblibskern.a")]
LIBRARIES, PAGES = "usr/lib/x86_64-linux-gnu", "usr/share/doc/skern"
SCRIPTS = ("attach", "attached", "process-filters")
WANTED = [
    "usr/bin/ask", "usr/bin/skern", *(f"usr/bin/skern-{it}" for it in SCRIPTS),
    "usr/include/skern.h", f"{LIBRARIES}/libskern.a", f"{LIBRARIES}/libskern.so", f"{LIBRARIES}/pkgconfig/skern.pc",
    "usr/share/man/man1/ask.1.gz", "usr/share/man/man1/skern.1.gz", "usr/share/man/man3/skern.3.gz", "usr/share/bash-completion/completions/ask",
    *(f"{PAGES}/{it}" for it in ("README.md", "CHANGELOG.md", "BUILT", "copyright", "docs/POLICIES.md", *(f"examples/{it}" for it in SCRIPTS))),
]
# What the repository alone has, and what a root with nothing else has not, by the commands that want it.
OF_REPOSITORY = re.compile(r"tools/|\./(gate|test|prove|bench)\b|\brt |\bcd ")
MISSING = [("python3", re.compile(rf"examples/({'|'.join(SCRIPTS)})\b")), ("strace", re.compile(r"^strace ")), ("dot", re.compile(r"\| *dot "))]
# What dpkg writes down of what it has done, and what it made beside it.
OF_DPKG = re.compile(r"var/lib/dpkg/(status|available|diversions|statoverride)(-old)?|var/lib/dpkg/(lock|lock-frontend|triggers/.*)|var/log/dpkg\.log|var/cache/ldconfig/aux-cache|etc/ld\.so\.cache")
PLAIN = {"PATH": "/usr/sbin:/usr/bin:/sbin:/bin", "HOME": "/root"}


def ran(*words: str | Path, **how: object) -> subprocess.CompletedProcess[str]:
    return subprocess.run(words, stdin=subprocess.DEVNULL, capture_output=True, text=True, errors="replace", timeout=900, check=False, **how)


def left_out(what: str, why: str) -> None:
    print(f"left out: {what}: {why}")


def problems_of(done: subprocess.CompletedProcess[str], what: str) -> list[str]:
    return [] if done.returncode == 0 else [f"{what} ends with status {done.returncode}\n{done.stdout[-400:]}{done.stderr[-400:]}"]


def package(top: Path, to: Path) -> list[str]:
    """What is wrong where this repository makes its package in the folder."""
    return problems_of(ran(top / "tools/package", "--as-built", to), "tools/package")


def copy_of_repository(to: Path) -> Path:
    """The repository with what it has built, in another folder, and with other times and rights."""
    def passed_over(folder: str, names: list[str]) -> set[str]:
        return {"out", "rooms", "__pycache__"} & {*names} | ({"package"} & {*names} if folder == str(ROOT) else set())

    shutil.copytree(ROOT, to, symlinks=True, ignore=passed_over, copy_function=shutil.copy)
    for it in BUILT:
        if (ROOT / it).exists():
            (to / it).parent.mkdir(parents=True, exist_ok=True)
            shutil.copy(ROOT / it, to / it)
    return to


def equality(one: Path, other: Path) -> list[str]:
    """What is wrong with the files of two packages, which have to be the same."""
    names = sorted({*os.listdir(one), *os.listdir(other)})
    return [f"{it} is not the same in both" for it in names if not all((at / it).exists() for at in (one, other)) or (one / it).read_bytes() != (other / it).read_bytes()]


def content_problems(made: Path, files: Path) -> Iterator[str]:
    """What is wrong with the files of the package, which are unpacked in a folder."""
    yield from (f"{it} is not there" for it in WANTED if not (files / it).exists())
    rows = [line.split(None, 5) for line in ran("dpkg-deb", "--contents", made).stdout.splitlines()]
    yield from (f"{row[-1]} is of {row[1]}" for row in rows if row[1] != "root/root")
    yield from (f"{row[-1]} has the rights {row[0]}" for row in rows if row[0] not in ("drwxr-xr-x", "-rwxr-xr-x", "-rw-r--r--"))
    dates = {(row[3], row[4]) for row in rows}
    if len(dates) != 1:
        yield f"its files are of {len(dates)} times"
    ran("dpkg-deb", "--control", made, files / "control")
    summed = ran("md5sum", "--quiet", "-c", files / "control/md5sums", cwd=files)
    counted = len((files / "control/md5sums").read_text().splitlines())
    if summed.returncode or counted != sum(not row[0].startswith("d") for row in rows):
        yield f"its {counted} sums are not those of its files: {summed.stdout}{summed.stderr}"


def page_problems(page: str) -> list[str]:
    """What man(1) has to say against a page."""
    done = ran("man", "--warnings=w", "-l", page, env={**os.environ, "MANWIDTH": "80", "LC_ALL": "C.UTF-8"})
    said = problems_of(done, "man") or ([] if "NAME" in done.stdout else ["man shows nothing"])
    return said + done.stderr.splitlines()


def library_problems(files: Path, room: Path) -> Iterator[str]:
    """What is wrong where a program is built over the library as it is installed."""
    found = {"PKG_CONFIG_LIBDIR": f"{files}/{LIBRARIES}/pkgconfig", "PKG_CONFIG_SYSROOT_DIR": str(files)}
    words = ran("pkg-config", "--cflags", "--libs", "skern", env={**os.environ, **found})
    yield from problems_of(words, "pkg-config")
    source, program = files / PAGES / "examples/library/filters.c", room / "filters"
    yield from problems_of(ran("gcc", "-o", program, source, *words.stdout.split()), "gcc")
    filter_of = f"{files}/{PAGES}/{EXPORT}"
    told = ran(program, "check", filter_of, env={"LD_LIBRARY_PATH": f"{files}/{LIBRARIES}"})
    if not told.stdout.startswith(f"{filter_of}: ok "):
        yield f"the program says {told.stdout!r} {told.stderr!r}"
    # The program of the manual page, which has a block for its shapes, one for gcc and one for itself.
    text = re.findall(r"^\.EX\n(.*?)^\.EE", (ROOT / "docs/skern.3").read_text(encoding="utf-8"), re.M | re.S)[-1]
    (room / "checked.c").write_text(text.replace("\\en", "\\n"), encoding="utf-8")
    yield from problems_of(ran("gcc", "-Wall", "-Werror", "-o", room / "checked", room / "checked.c", *words.stdout.split()), "gcc")
    told = ran("sh", "-c", f"'{room}/checked' < '{filter_of}'", env={"LD_LIBRARY_PATH": f"{files}/{LIBRARIES}"})
    if told.stdout != "ok\n":
        yield f"the program of the manual page says {told.stdout!r} {told.stderr!r}"


class Place:
    """Where the package is installed: a root of its own, or a folder that has its files."""

    def __init__(self, root: Path, is_root: bool):
        self.root, self.is_root = root, is_root

    def run(self, command: str) -> subprocess.CompletedProcess[str]:
        """Runs a command there, in the folder of the pages."""
        if self.is_root:
            return ran("chroot", self.root, "bash", "-c", f"cd /{PAGES} && {command}", env=PLAIN)
        return ran("bash", "-c", command, cwd=self.root / PAGES, env={**PLAIN, "PATH": f"{self.root}/usr/bin:{PLAIN['PATH']}"})

    def lacks(self, command: str) -> str | None:
        """The program that the command wants and the place does not have."""
        found = (name for name, wants in MISSING if wants.search(command))
        return next((it for it in found if not shutil.which(it, path=f"{self.root}/usr/bin" if self.is_root else PLAIN["PATH"])), None)


def as_installed(command: str) -> str:
    """The command with the names that an installation has."""
    return re.sub(r"(?<![\w/.])\./(ask|skern)\b", r"\1", command)


def shown(text: str) -> Iterator[tuple[str, str | None]]:
    """The commands of a page, with what they print where it says that."""
    for block in blocks(text, "console"):
        for piece in re.split(r"^\$ ", block, flags=re.M)[1:]:
            command, _, wanted = piece.partition("\n")
            while command.endswith("\\"):
                more, _, wanted = wanted.partition("\n")
                command = command[:-1] + more.lstrip("> ")
            yield command, wanted
    for block in blocks(text, "sh"):
        yield from ((re.sub(r"\bFILE\b", EXPORT, line), None) for line in block.splitlines() if not re.search(r"\bPID\b", line))


def of_manual(text: str) -> Iterator[tuple[str, str | None]]:
    """The commands of a manual page."""
    section = re.search(r"^\.SH EXAMPLES\n(.*?)(?=^\.SH )", text, re.M | re.S)
    for block in re.findall(r"^\.EX\n(.*?)^\.EE", section[1] if section else "", re.M | re.S):
        lines = block.replace("\\-", "-").replace("\\(aq", "'").splitlines()
        # A command of the reader's own stands in for COMMAND.
        yield from ((it.replace("LOG COMMAND", "LOG true"), None) for it in lines if re.match(r"(ask|skern|strace) ", it))


def command_problems(place: Place, command: str, wanted: str | None) -> list[str]:
    done = place.run(as_installed(command))
    if wanted is not None:
        return [] if done.stdout == wanted else [f"`{command}` prints\n{done.stdout}and not\n{wanted}{done.stderr[-400:]}"]
    # An answer may be a no.
    return [] if done.returncode in (0, 1) and done.stdout else [f"`{command}` ends with status {done.returncode}\n{done.stderr[-400:]}"]


def check_commands(place: Place) -> None:
    lacking: dict[str, int] = {}
    pages = [(it, shown((ROOT / it).read_text(encoding="utf-8"))) for it in ("README.md", "examples/README.md")]
    pages += [(os.path.relpath(it, ROOT), shown(Path(it).read_text(encoding="utf-8"))) for it in sorted(glob.glob(f"{ROOT}/docs/*.md"))]
    pages += [(os.path.relpath(it, ROOT), of_manual(Path(it).read_text(encoding="utf-8"))) for it in sorted(glob.glob(f"{ROOT}/docs/*.[13]"))]
    for name, commands in pages:
        for command, wanted in commands:
            if OF_REPOSITORY.search(command) or not command.strip():
                continue
            if lacks := place.lacks(command):
                lacking[lacks] = lacking.get(lacks, 0) + 1
            else:
                judge(command_problems(place, command, wanted), f"{name}, as installed")
    for program, count in sorted(lacking.items()):
        left_out(f"{count} commands of the pages", f"no {program} is there")


def completion_problems(files: Path) -> list[str]:
    """What is wrong with what bash completes behind `ask`, by the files of the package. In a root alone bash lacks /dev/fd."""
    installed = files / "usr/share/bash-completion/completions/ask"
    told = ran("bash", "-c", f"source {installed}; COMP_WORDS=(ask whe) COMP_CWORD=1; _ask; echo ${{COMPREPLY[@]}}; complete -p ask")
    return [] if told.stdout == "when\ncomplete -F _ask ask\n" else [f"the completion says {told.stdout!r} {told.stderr!r}"]


def loading_problems(place: Place) -> list[str]:
    """What is wrong where the shared object is loaded by its name alone."""
    told = place.run("LD_PRELOAD=libskern.so true")
    return [told.stderr] if told.stderr or told.returncode else []


def paths_in(root: Path) -> set[str]:
    """All paths of a root but those in which dpkg writes down what it has done, each with its rights and its size."""
    found = set()
    for folder, folders, names in os.walk(root):
        for name in folders + names:
            path = f"{folder}/{name}"
            there, seen = os.path.relpath(path, root), os.lstat(path)
            if not OF_DPKG.fullmatch(there):
                found.add(f"{there} {seen.st_mode:o} {seen.st_size if name in names else 0}")
    return found


def make_root(root: Path) -> str | None:
    """Makes a root of Debian with nothing else, and says why where it can't."""
    kept = STORE / f"{SUITE}.tar"
    if os.geteuid() != 0:
        return "that takes the user root"
    if not kept.exists():
        if not shutil.which("debootstrap"):
            return "no debootstrap is there"
        STORE.mkdir(parents=True, exist_ok=True)
        try:
            made = ran("debootstrap", "--variant=minbase", SUITE, root, mirror())
        except Trouble as why:
            return str(why)
        if made.returncode:
            return f"debootstrap ends with status {made.returncode}: {(made.stderr or made.stdout).strip()[-300:]}"
        shutil.rmtree(root / "var/cache/apt/archives")
        subprocess.run(["tar", "-C", root, "--numeric-owner", "-cf", f"{kept}.new", "."], check=True)
        os.replace(f"{kept}.new", kept)
        return None
    root.mkdir()
    unpacked = ran("tar", "-C", root, "--numeric-owner", "-xf", kept)
    return None if unpacked.returncode == 0 else f"{kept} is not unpacked: {unpacked.stderr[-300:]}"


def check_in_root(root: Path, made: Path) -> None:
    """Installs the package in the root, runs the commands of the pages, and removes it."""
    before = paths_in(root)
    shutil.copy(made, root / "skern.deb")
    installed = ran("chroot", root, "dpkg", "-i", "/skern.deb", env=PLAIN)
    os.remove(root / "skern.deb")
    judge(problems_of(installed, "dpkg -i"), "installed in a root of its own")
    place = Place(root, True)
    check_commands(place)
    judge(loading_problems(place), "libskern.so")
    judge(problems_of(ran("chroot", root, "dpkg", "-P", "skern", env=PLAIN), "dpkg -P"), "removed")
    after = paths_in(root)
    judge([f"left behind: {it}" for it in sorted(after - before)] + [f"lost: {it}" for it in sorted(before - after)], "the root after its removal")


def check_package(room: Path) -> None:
    one, other = room / "one", room / "elsewhere/made"
    said = package(ROOT, one) + package(copy_of_repository(room / "elsewhere/repository"), other)
    judge(said, "tools/package")
    if said:
        return
    judge(equality(one, other), "two packages")
    made = next(one.glob("*.deb"), None)
    if made is None:
        left_out("the Debian package", "no dpkg-deb is there")
        return
    files = room / "files"
    ran("dpkg-deb", "-x", made, files)
    judge(list(content_problems(made, files)), "the files of the package")
    if shutil.which("man"):
        for page in sorted(glob.glob(f"{ROOT}/docs/*.[1-8]")):
            judge(page_problems(page), os.path.relpath(page, ROOT))
    else:
        left_out("the manual pages", "no man is there")
    if shutil.which("pkg-config") and shutil.which("gcc"):
        judge(list(library_problems(files, room)), "the library as it is installed")
    else:
        left_out("the library as it is installed", "no pkg-config or gcc is there")
    judge(completion_problems(files), "completion")
    if why := make_root(room / "root"):
        left_out("a root of its own", why)
        check_commands(Place(files, False))
    else:
        check_in_root(room / "root", made)


def main() -> int:
    with tempfile.TemporaryDirectory() as room:
        check_package(Path(room))
    print(f"{results['passed']} passed, {results['failed']} failed")
    return 1 if results["failed"] or not results["passed"] else 0


if __name__ == "__main__":
    sys.exit(main())
