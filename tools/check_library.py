#!/usr/bin/env python3
"""Compares what the library for C tells of filters with what `skern` and `ask` tell of them.

check_library.py [--as-built] [FILE..]: on each filter in the files, of which each holds one in hexadecimal digits, and else on all of
examples. tools/library makes the library; with --as-built it is taken as it stands. Over it stand the programs of examples/library in
C, in Python, in Rust and in Go, which have the same words. All of them have to give the same answers, and these are compared:

Each filter, and each of many that are damaged, cut off or empty, has to be valid or not as `skern check` says, with the same fault at
the same place. On calls whose words come from the filter's own constants the verdicts have to be those of `skern eval`, of one filter
and of two together. Two filters have to be the same on every call where `ask diff` says so, as strict where `ask diff --stricter` does,
and else the call that is shown has to get both verdicts; chains that no answer can follow are the same beside themselves. Each profile
and each policy of examples, and each text that `ask when` writes of a filter, has to have the filter that `ask filter` writes of it;
what is none is refused as `ask filter` refuses it. Each filter has the lines and the answer of `ask lint`. Threads that ask side by
side get the same answers as one.

Then each allocation of a few runs is refused in turn: the answer is the whole one, or trouble with status 2, and every block is given
back. Of Python and of Rust only those of the library are refused, and none of `lint`. A few runs are made under valgrind, which has to find nothing.
examples/library/attach.c runs a command under a filter that lets it through, and nothing under one that does not.

A language or a tool that is not there is told as left out, and not counted. Prints each problem, and at last 'N passed, M failed'."""
import glob
import os
import random
import re
import shutil
import subprocess
import sys
import tempfile
from collections.abc import Iterator
from concurrent.futures import ThreadPoolExecutor
from typing import NamedTuple

sys.dont_write_bytecode = True
ROOT = os.path.dirname(os.path.dirname(os.path.abspath(__file__)))
LIBRARY = f"{ROOT}/examples/library"
sys.path.append(LIBRARY)

import random_policies
import skern
from check_calls import PROGRAM, SKERN, instructions, judge, results
from hostile_filters import KINDS, hostile_chain

SEED = 1
CALLS, DAMAGED, PAIRS, SPOILED = 12, 12, 60, 60
# Words of `ask`, and what they are to the library.
KERNEL = ["--kernel", "6.12"]
SETTINGS = [([], skern.Setting()), (["--cap", "docker"], skern.Setting(skern.DOCKER)), (["--cap", "all"], skern.Setting((1 << 64) - 1)),
            (["--cap", "sys_admin", "--runc"], skern.Setting(1 << 21, runc=True))]
# What has no filter, and the number that says so. Those behind them are none for `ask` either, which says why.
NO_PROFILES = [
    (b"\xff", 17), (b"", 18), (b"{", 18), (b"[]", 20), (b"{}", 20), (b'{"defaultAction": "SCMP_ACT_ALLOW", "defaultAction": "SCMP_ACT_ALLOW"}', 19),
    (b'{"defaultAction": "SCMP_ACT_NO"}', 20), (b'{"defaultAction": "SCMP_ACT_ALLOW", "syscalls": [{"names": ["read"], "action": 1}]}', 20),
]
TOLD_BY_ASK = 4
# A policy whose filter has too many instructions.
LONG_POLICY = b"default allow\n" + b"".join(b"%d errno/%d\n" % (2 * at, 1 + at % 2) for at in range(5000))
# What is no policy, and the line in which the sentence begins that is wrong.
NO_POLICIES = [
    (b"read: maybe\ndefault allow\n", 1), (b"default allow\nread, wirte: allow\n", 2), (b"read\n  allow where args[0] ==\n", 1),
    (b"default allow\nread,\n  wirte: allow\n", 2), (b"default allow\nread\n  errno/1 where args[0] == 1\n    && fd == 1\n  allow else\n", 3),
    (b"read allow\nread errno/1\ndefault allow\n", 2), (b"default allow\n\ndefault allow\n", 3), (b"default allow\nread\n  allow where 1\n", 2), (b"getpid allow\n", 0),
]
MOST_ALLOCATIONS = 4000
# A stream whose block is refused does without it. So many runs in a row that are as the first one say that no allocation is left.
QUIET = 20
# By the library, or by the program where its own block is refused.
OUT_OF_MEMORY = re.compile("filters: (.*: )?(out of memory|Cannot allocate memory)\n")
ALLOW = bytes.fromhex("060000000000ff7f")
WARNINGS = ["-std=c11", "-Wall", "-Wextra", "-Werror", "-O2"]
# The words that Python is asked under valgrind.
SLOWLY = ("verdict", "profile", "lint")
# What valgrind ends with where it has found something, and what it finds in Python itself.
FOUND = 9
OF_PYTHON = "".join(f"{{\n{kind}\nMemcheck:{kind}\nobj:*python*\n}}\n" for kind in ("Cond", "Value4", "Value8"))
Said = tuple[str, str, int]


def run(*words: str, given: bytes = b"", env: dict[str, str] | None = None, folder: str | None = None) -> Said:
    """What a command writes to standard output and to standard error, and its status. Bytes that are no text come as others do."""
    ran = subprocess.run(words, input=given, capture_output=True, timeout=600, env=env, cwd=folder, check=False)
    return ran.stdout.decode(errors="surrogateescape"), ran.stderr.decode(errors="replace"), ran.returncode


class Program(NamedTuple):
    """A program over the library: how it is started, and whether it takes the shared object."""

    language: str
    words: list[str]
    env: dict[str, str]

    def run(self, *words: str, before: tuple[str, ...] = (), **more: str) -> Said:
        return run(*before, *self.words, *words, env=self.env | more)


def left_out(what: str, why: str) -> None:
    print(f"left out: {what}: {why}")


def compile_by(*words: str, **how: object) -> None:
    """Runs a compiler, and shows what it says where it fails."""
    said, complaint, status = run(*words, **how)
    if status:
        raise subprocess.CalledProcessError(status, words[0], said, complaint)


def build_c(folder: str, name: str) -> str:
    program = f"{folder}/{name}"
    compile_by("gcc", *WARNINGS, f"-I{folder}", "-o", program, f"{LIBRARY}/{name}.c", f"{folder}/libskern.a")
    return program


def build_rust(folder: str) -> Iterator[Program]:
    """The program in Rust, over the archive and over the shared object."""
    compiler = shutil.which("rustc") or shutil.which("rustc", path=os.path.expanduser("~/.cargo/bin"))
    if not compiler:
        left_out("Rust", "no rustc is there")
        return
    for kind, language in (("static", "Rust"), ("dylib", "Rust by the shared object")):
        words = ["--edition", "2024", "-O", "-D", "warnings", "-L", folder, "-l", f"{kind}=skern"]
        compile_by(compiler, *words, "-o", f"{folder}/rust_{kind}", f"{LIBRARY}/filters.rs")
        yield Program(language, [f"{folder}/rust_{kind}"], {"LD_LIBRARY_PATH": folder})


def build_go(folder: str) -> Iterator[Program]:
    compiler = shutil.which("go")
    if not compiler:
        left_out("Go", "no go is there")
        return
    there = {"CGO_ENABLED": "1", "CGO_CFLAGS": f"-I{folder}", "CGO_LDFLAGS": f"-L{folder}", "GO111MODULE": "off", "GOFLAGS": ""}
    words = ["build", "-o", f"{folder}/go_filters", "skern.go", "filters.go"]
    compile_by(compiler, *words, env={"GOCACHE": f"{folder}/go_cache", **os.environ} | there, folder=f"{LIBRARY}/go")
    yield Program("Go", [f"{folder}/go_filters"], {"LD_LIBRARY_PATH": folder})


def build(folder: str, as_built: bool) -> list[Program]:
    """The library in the folder, and the programs over it, of which that in C is the first."""
    compile_by(f"{ROOT}/tools/library", *["--as-built"] * as_built, folder)
    compile_by("gcc", "-O1", "-shared", "-fPIC", "-o", f"{folder}/refuse_memory.so", f"{ROOT}/tools/refuse_memory.c", "-ldl")
    build_c(folder, "attach")
    python = Program("Python", [sys.executable, f"{LIBRARY}/filters.py"], {"LIBSKERN": f"{folder}/libskern.so"})
    return [Program("C", [build_c(folder, "filters")], {}), python, *build_rust(folder), *build_go(folder)]


class Checks:
    """All ways to the library, beside the programs."""

    def __init__(self, folder: str, programs: list[Program]):
        self.folder, self.programs, self.library = folder, programs, skern.Library(f"{folder}/libskern.so")

    def path(self, name: str, content: bytes) -> str:
        path = os.path.join(self.folder, name)
        with open(path, "wb") as file:
            file.write(content)
        return path

    def say(self, wanted: Said, *words: str) -> Iterator[str]:
        """What is wrong where all programs are to say this."""
        for it in self.programs:
            # By the shared object Rust is asked with refused memory alone.
            if it.language != "Rust by the shared object" and (said := it.run(*words)) != wanted:
                yield f"{it.language} says {shortened(said)} and not {shortened(wanted)} to {words[0]}"

    def line_of(self, image: bytes) -> str:
        """What Python finds of a filter."""
        try:
            self.library.check(image)
            return f"ok {len(image) // 8}\n"
        except skern.Refused as why:
            return f"refused {why.reason} {why.text} at {why.place}\n"

    def check(self, images: list[bytes]) -> Iterator[str]:
        """What is wrong with the answers whether filters are valid. The texts differ from those of `skern`, but not their numbers and places."""
        lines = [self.line_of(it) for it in images]
        for image, line in zip(images, lines):
            wanted = run(SKERN, "check", given=image.hex().encode() + b"\n")[0]
            if not is_told_so(wanted, line, image):
                yield f"{line!r} where `skern check` says {wanted!r}"
        paths = [self.path(f"checked{at}", it) for at, it in enumerate(images)]
        told = "".join(f"{path}: {line}" for path, line in zip(paths, lines))
        yield from self.say((told, "", int(any(it.startswith("refused") for it in lines))), "check", *paths)

    def verdicts(self, chain: list[bytes], calls: list[skern.Call]) -> Iterator[str]:
        """What is wrong with the verdicts on calls."""
        lines = b"".join(b"filter " + it.hex().encode() + b"\n" for it in chain)
        values = self.library.verdicts(chain, calls)
        for call, value in zip(calls, values, strict=True):
            out, _, status = run(SKERN, "eval", given=b"record " + record_of(call).hex().encode() + b"\n" + lines)
            wanted = int(out.splitlines()[-1].split()[1], 16) if status == 0 else None
            if value != wanted or value != self.library.verdict(chain, call):
                yield f"{value:#x} to {call} where `skern eval` says {out!r}"
        paths = [self.path(f"filter{at}", it) for at, it in enumerate(chain)]
        told = "".join(f"0x{it:08x}\n" for it in values)
        yield from self.say((told, "", 0), "verdict", self.path("calls", b"".join(map(record_of, calls))), *paths)

    def compare(self, old: bytes, new: bytes, stricter: bool) -> Iterator[str]:
        """What is wrong with a comparison of two filters."""
        paths, words = [self.path("old", old), self.path("new", new)], ["--stricter"] * stricter
        files = [self.path(f"{name}.hex", it.hex().encode()) for name, it in (("old", old), ("new", new))]
        out, complaint, status = run(PROGRAM, "diff", *words, *files)
        it = self.library.compare([old], [new], stricter)
        if status not in (0, 1) or (it is None) != (status == 0):
            yield f"{it} where `ask diff` says {(out + complaint)!r}"
            return
        if it:
            wanted = [self.library.verdict([image], it.call) for image in (old, new)]
            if [it.old_verdict, it.new_verdict] != wanted or (not stricter and wanted[0] == wanted[1]):
                yield f"{it} where the call gets {wanted}"
            yield from self.verdicts([old], [it.call])
            yield from self.verdicts([new], [it.call])
        args = ", ".join(f"0x{arg:x}" for arg in it.call.args) if it else ""
        line = f"syscall({it.call.nr if it.call.nr < 1 << 31 else it.call.nr - (1 << 32)}, {args})" if it else ""
        verdicts = f": 0x{it.old_verdict:08x} -> 0x{it.new_verdict:08x}\n" if it else ""
        told = line + verdicts or f"{'as strict' if stricter else 'the same'} on every call\n"
        yield from self.say((told, "", int(it is not None)), "compare", *words, *paths)

    def lint(self, path: str, image: bytes) -> Iterator[str]:
        """What is wrong with what bits that Linux does not read do, beside `ask lint` of the file."""
        lines, complaint, status = run(PROGRAM, "lint", path)
        try:
            it = self.library.lint([image])
            said = it.lines, 0 if it.is_strict else 1
        except skern.Refused as why:
            said = why.text, 2
        if said != ((complaint.partition("\n")[2] if status == 2 else lines), status):
            yield f"{said} where `ask lint` says {lines!r} {complaint!r} with status {status}"
        if status != 2:
            yield from self.say((lines, "", status), "lint", self.path("linted", image))

    def made(self, word: str, text: bytes, reason: int, places: range = range(1), told_by_ask: bool = True) -> Iterator[str]:
        """What is wrong with the filter of a text, or with what is said of one that has none: this number, at one of these lines."""
        path = self.path("text", text)
        raw, complaint, status = run(PROGRAM, "filter", "--raw", *KERNEL, path)
        wanted = complaint.removeprefix(f"ask: {path}: ").removesuffix("\n")
        try:
            image = (self.library.profile if word == "profile" else self.library.policy)(text)
            if status or image.decode(errors="surrogateescape") != raw:
                yield f"another filter, of {len(image)} bytes, than that of `ask filter`, of {len(raw)}: {complaint}"
            yield from self.say((image.decode(errors="surrogateescape"), "", 0), word, path)
        except skern.Refused as why:
            if why.reason != reason or why.place not in places or (told_by_ask and (status, why.text) != (2, wanted)):
                yield f"{why.reason} at {why.place}, {why.text!r}, where `ask filter` says {complaint!r}, and {reason} at one of {[*places]} is wanted"
            yield from self.say(("", f"filters: {path}: refused {why.reason} {why.text}\n", 2), word, path)


def shortened(said: Said) -> str:
    return f"{said[0][:300]!r} {said[1][:300]!r} with status {said[2]}"


def is_told_so(by_skern: str, told: str, image: bytes) -> bool:
    """Whether both say the same. `skern check` gives bytes that are no image no number, and of a scratch word says which."""
    numbers = {"image empty": (1, 0), "image too long": (2, 0), "image ragged": (11, 0)}
    words = by_skern.split()
    if words[:1] == ["ok"]:
        return told == by_skern
    said = told.split()
    at = (int(said[1]), int(said[-1]))
    if words[:2] == ["refused", "image"]:
        return at == numbers[" ".join(words[1:])]
    place = int(words[words.index("at") + 1]) if "at" in words else 0
    is_word = "word" not in words[4:] or int(words[-1]) == instructions(image.hex())[place][3]
    return at == (int(words[1]), place) and is_word


def record_of(call: skern.Call) -> bytes:
    words = [(call.nr, 4), (call.arch, 4), (call.instruction_pointer, 8), *((it, 8) for it in call.args)]
    return b"".join(number.to_bytes(length, "little") for number, length in words)


def calls_of(image: bytes, dice: random.Random) -> list[skern.Call]:
    """Calls of x86-64 whose words are constants of the filter, or their neighbours."""
    constants = [k for *_, k in instructions(image.hex())] + [0]
    number = lambda: (dice.choice(constants) + dice.choice((-1, 0, 0, 1))) % (1 << 32)
    return [skern.Call(number(), tuple(number() | number() << 32 for _ in range(6))) for _ in range(CALLS)]


def damaged(image: bytes, dice: random.Random) -> Iterator[bytes]:
    """The filter with a bit changed, or an end cut off."""
    for _ in range(DAMAGED):
        at = dice.randrange(len(image))
        bad = bytearray(image)
        bad[at] ^= 1 << dice.randrange(8)
        yield bytes(bad)
        yield image[:at]


def profile_problems(checks: Checks, path: str) -> Iterator[str]:
    """What is wrong with the filters of a profile."""
    with open(path, "rb") as file:
        json = file.read()
    for words, setting in SETTINGS:
        wanted = run(PROGRAM, "filter", "--raw", *words, *KERNEL, path)
        image = checks.library.profile(json, setting)
        if wanted[2] or image.decode(errors="surrogateescape") != wanted[0]:
            yield f"{' '.join(words)}: another filter, of {len(image)} bytes, than that of `ask filter`, of {len(wanted[0])}"
    yield from checks.made("profile", json, 0)


def line_in(complaint: str) -> int:
    """The line that a complaint of `ask` names, or 0."""
    found = re.search(r": line (\d+): ", complaint)
    return int(found[1]) if found else 0


def policy_problems(checks: Checks, text: bytes) -> Iterator[str]:
    """What is wrong with the filter of a text, which `ask` may refuse."""
    complaint = run(PROGRAM, "filter", "--raw", checks.path("policy", text))[1]
    # The line of the word that is wrong. Its sentence begins there or before.
    line = line_in(complaint)
    yield from checks.made("policy", text, 2 if "4096" in complaint else 23, range(line > 0, line + 1))


def random_texts(dice: random.Random) -> Iterator[bytes]:
    """Policies, and each with a word changed. A text that begins with a brace is a profile, and one of digits alone a filter."""
    for _ in range(SPOILED):
        text = random_policies.policy(dice)
        yield text.encode()
        spoiled = random_policies.spoiled(dice, text)
        if any(it not in "0123456789abcdefABCDEF \n\r" for it in spoiled) and not spoiled.lstrip().startswith(("{", "filter")):
            yield spoiled.encode()


def check_threads(checks: Checks, images: list[bytes]) -> list[str]:
    """What is wrong with the answers to threads that ask side by side."""
    def answers(_: int) -> list[object]:
        return [*(checks.library.verdict([it], skern.Call(1)) for it in images), *(checks.library.compare([images[0]], [it]) for it in images),
                *(checks.library.lint([it]) for it in images[:2])]

    one = answers(0)
    with ThreadPoolExecutor(8) as pool:
        return [f"{it} where one thread gets {one}" for it in pool.map(answers, range(32)) if it != one]


def check_memory(checks: Checks, at: int, program: Program, words: list[str]) -> list[str]:
    """What is wrong where each allocation of a run is refused in turn: those of the library, where the program has it as a shared object."""
    left_in = checks.path(f"left{at}", b"")
    there = {"LD_PRELOAD": f"{checks.folder}/refuse_memory.so", "LEFT": left_in} | ({"OF": "libskern.so"} if program.env else {})
    problems, whole, kept, quiet, refused = [], None, 0, 0, 0
    for count in range(MOST_ALLOCATIONS):
        said = program.run(*words, **there, REFUSE=str(count))
        with open(left_in, encoding="ascii") as file:
            left = int(file.read() or "-1")
        if whole is None:
            whole, kept = said, left
        # Standard output has a block of its own, if it was given one.
        is_trouble = said[2] == 2 and not said[0] and OUT_OF_MEMORY.fullmatch(said[1]) is not None
        if left < 0 or left > kept or not (said == whole or is_trouble):
            problems.append(f"with allocation {count} refused it says {shortened(said)} and keeps {left} blocks")
        quiet = quiet + 1 if said == whole and left == kept else 0
        refused += is_trouble
        if quiet > QUIET:
            return problems if refused else [*problems, "no allocation was refused"]
    return [*problems, f"more than {MOST_ALLOCATIONS} allocations"]


def check_valgrind(checks: Checks, program: Program, words: list[str]) -> list[str]:
    """What valgrind finds of a run. Python keeps blocks of its own, and what it does itself is passed over."""
    more = [f"--suppressions={checks.folder}/of_python"] if program.language == "Python" else ["--leak-check=full"]
    wanted = program.run(*words)
    before = ("valgrind", "-q", f"--error-exitcode={FOUND}", *more)
    said = program.run(*words, before=before, PYTHONMALLOC="malloc")
    return [] if said == wanted else [f"valgrind says {shortened(said)} and not {shortened(wanted)}"]


def attach_problems(checks: Checks, image: bytes) -> Iterator[str]:
    """What is wrong with the program that attaches a filter."""
    program, lets = f"{checks.folder}/attach", checks.path("lets", image)
    refuses = checks.path("refuses", checks.library.policy(b"execve errno/1\ndefault allow\nothers allow\n"))
    is_told = ("Seccomp:\t2\n", "", 0)
    rows = [
        ([lets, "true"], ("", "", 0)), ([lets, "false"], ("", "", 1)), ([lets, "grep", "Seccomp:", "/proc/self/status"], is_told),
        ([refuses, "true"], ("", f"attach: {refuses}: execve gets 0x00050001; nothing was run\n", 125)),
        ([checks.path("bad", image[:-1]), "true"], None), ([checks.path("none", b""), "true"], None), ([f"{lets}.no", "true"], None), ([lets], None),
        ([lets, "no-such-command"], ("", "attach: no-such-command: No such file or directory\n", 127)),
        ([lets, "/"], ("", "attach: /: Permission denied\n", 126)),
    ]
    for words, wanted in rows:
        said = run(program, *words)
        is_refused = said[2] == 125 and not said[0] and said[1].count("\n") == 1
        if not (is_refused if wanted is None else said == wanted):
            yield f"{words[1:]} says {said}"


def check_filters(checks: Checks, images: dict[str, bytes], paths: list[str]) -> None:
    """Each filter alone, damaged, and beside others."""
    dice = random.Random(SEED)
    for path, (name, image) in zip(paths, images.items()):
        judge(list(checks.check([image])), name)
        judge(list(checks.check([*damaged(image, dice)])), f"{name}, damaged")
        calls = calls_of(image, dice)
        judge(list(checks.verdicts([image], calls)), f"{name}, verdicts")
        other = dice.choice(list(images.values()))
        judge(list(checks.verdicts([image, other], calls)), f"{name}, verdicts beside another filter")
        judge(list(checks.compare(image, image, False)), f"{name}, beside itself")
        judge(list(checks.lint(path, image)), f"{name}, lint")
        # What is not followed has no such text.
        if text := run(PROGRAM, "when", path)[0].encode():
            judge(list(policy_problems(checks, text)), f"{name}, the text of `ask when`")
    for _ in range(PAIRS):
        (old, image), (new, other) = dice.sample(list(images.items()), 2)
        for stricter in (False, True):
            judge(list(checks.compare(image, other, stricter)), f"{old} and {new}{', stricter' * stricter}")


def check_texts(checks: Checks) -> None:
    """Profiles and policies, and what is none."""
    for path in sorted(glob.glob(f"{ROOT}/examples/*/*.json")):
        judge(list(profile_problems(checks, path)), os.path.relpath(path, ROOT))
    for at, (json, reason) in enumerate(NO_PROFILES):
        judge(list(checks.made("profile", json, reason, told_by_ask=at >= TOLD_BY_ASK)), f"{json!r}")
    for path in sorted(glob.glob(f"{ROOT}/examples/policies/*.policy")):
        with open(path, "rb") as file:
            judge(list(policy_problems(checks, file.read())), os.path.relpath(path, ROOT))
    for text, line in NO_POLICIES:
        judge(list(checks.made("policy", text, 23, range(line, line + 1))), f"{text!r}")
    judge(list(checks.made("policy", LONG_POLICY, 2)), "a policy that is too long")
    for text in random_texts(random.Random(SEED)):
        judge(list(policy_problems(checks, text)), f"{text!r}")


def check_runs(checks: Checks, images: list[bytes]) -> None:
    """Runs with refused memory, and under valgrind."""
    old, new, *_ = sorted(images, key=len)
    calls = checks.path("one call", record_of(skern.Call(1)))
    paths = [checks.path("small old", old), checks.path("small new", new)]
    policy = checks.path("small policy", b"read\n  errno/EPERM where args[0] == 1\n  else allow\ndefault allow\n")
    wrong = checks.path("wrong policy", NO_POLICIES[0][0])
    rows = [["check", paths[0]], ["verdict", calls, *paths], ["compare", *paths], ["profile", f"{ROOT}/examples/profiles/redundant.json"],
            ["policy", policy], ["policy", wrong], ["lint", paths[0]]]
    # A program in Go ends without telling what was left. To lint takes thousands of blocks, for each of which a program is started.
    asked = [(it, words) for words in rows for it in checks.programs
             if it.language == "C" or it.language in ("Python", "Rust by the shared object") and words[0] != "lint"]
    with ThreadPoolExecutor(os.cpu_count()) as pool:
        for (program, words), problems in zip(asked, pool.map(lambda at: check_memory(checks, at, *asked[at]), range(len(asked)))):
            judge(problems, f"{program.language}: {words[0]}, with refused memory")
        if not shutil.which("valgrind"):
            left_out("valgrind", "it is not there")
            return
        checks.path("of_python", OF_PYTHON.encode())
        tried = [(it, words) for it in checks.programs if it.language in ("C", "Rust") for words in rows]
        # Python starts in seconds there.
        tried += [(it, words) for it in checks.programs if it.language == "Python" for words in rows if words[0] in SLOWLY]
        for (program, words), problems in zip(tried, pool.map(lambda it: check_valgrind(checks, *it), tried)):
            judge(problems, f"{program.language}: {words[0]}, under valgrind")


def check_all(checks: Checks, paths: list[str]) -> None:
    images = {}
    for path in paths:
        with open(path, encoding="ascii") as file:
            images[os.path.relpath(path, ROOT)] = bytes.fromhex(file.read())
    check_filters(checks, images, paths)
    for kind in KINDS:
        chain = hostile_chain(kind)
        judge([str(it) for it in (checks.library.compare(chain, chain, stricter) for stricter in (False, True)) if it], f"{kind}, beside itself")
    judge(list(checks.check([b"", bytes(7), ALLOW * 4096, ALLOW * 4097])), "no filters, and long ones")
    judge(list(checks.say(("0x7fff0000\n", "", 0), "verdict", checks.path("getpid", record_of(skern.Call(39))))), "no filter")
    judge([] if checks.library.verdicts([ALLOW], []) == [] else ["there are verdicts"], "no call")
    check_texts(checks)
    judge(check_threads(checks, list(images.values())[:8]), "threads")
    with open(f"{ROOT}/examples/filters/docker-default-tree.hex", encoding="ascii") as file:
        judge(list(attach_problems(checks, bytes.fromhex(file.read()))), "attach")
    check_runs(checks, list(images.values()))


def main(words: list[str]) -> int:
    as_built = words[:1] == ["--as-built"]
    paths = words[as_built:] or sorted(glob.glob(f"{ROOT}/examples/**/*.hex", recursive=True))
    with tempfile.TemporaryDirectory() as folder:
        try:
            programs = build(folder, as_built)
        except subprocess.CalledProcessError as why:
            judge([f"{why}\n{why.stdout or ''}{why.stderr or ''}"], "the library and its programs are not built")
        else:
            check_all(Checks(folder, programs), paths)
    print(f"{results['passed']} passed, {results['failed']} failed")
    return 1 if results["failed"] or not results["passed"] else 0


if __name__ == "__main__":
    sys.exit(main(sys.argv[1:]))
