"""The tables of the names that calls have on other architectures than x86-64, for tools/call_names: how they are made, and what
they are compared with. They stand in crates/sk_names/src/tables, a file for each, and hold runs of numbers that follow
each other: the first number of each, and its names in one text. A text is dear to prove by its number, and hardly by its length."""
import re
import subprocess
from pathlib import Path

TOP = Path(__file__).resolve().parent.parent
FOLDER = TOP / "crates/sk_names/src/tables"
ARCHITECTURES = TOP / "crates/sk_names/src/architecture.rt"
# What a compiler for each of them defines, as far as its headers look at it.
DEFINED = {
    "x32": "__x86_64__ __ILP32__ __SIZEOF_POINTER__=4",
    "i386": "__i386__ __SIZEOF_POINTER__=4",
    "aarch64": "__aarch64__ __LP64__ __SIZEOF_POINTER__=8",
    "arm": "__arm__ __ARM_EABI__ __SIZEOF_POINTER__=4",
    "riscv64": "__riscv __riscv_xlen=64 __LP64__ __SIZEOF_POINTER__=8",
    "ppc64le": "__powerpc64__ __LP64__ __SIZEOF_POINTER__=8",
    "s390x": "__s390x__ __LP64__ __SIZEOF_POINTER__=8",
    "loongarch64": "__loongarch__ __loongarch_grlen=64 __LP64__ __SIZEOF_POINTER__=8",
}
# The names that libseccomp has for architectures.
RESOLVED = {"i386": "x86"}
MADE_BY = "`tools/call_names` makes them from headers of Linux."
X32_BIT = 1 << 30
# The most numbers of a run: it ends below each multiple of it.
MOST = 16
# What the headers define beside calls: where numbers begin, how many there are, and those that no call has.
NO_CALL = re.compile(r"\w*[A-Z]\w*|syscalls|arch_specific_syscall|(reserved|unused)\d+")
CALL = re.compile(r"\w*[A-Z]\w*|syscalls|arch_specific_syscall|(reserved|unused)\d+")
# The calls that an architecture has since Linux 6.1, below the last number that it had then.
SINCE = {"memfd_secret", "riscv_hwprobe", "uretprobe"}
CALL = re.compile(r"__(?:ARM_)?NR_(\w+)")
MACRO = re.compile(r"#define (\w+)(?: (.*))?")
TERMS = re.compile(r"[\w()+|\s]*\w[\w()+|\s]*")
FIRSTS = re.compile(r"pub const \w+_FIRSTS: &\[u32\] = &\[([\d,\s]*)\];\n")
NAMES = re.compile(r"pub const \w+_NAMES: &\[&str\] = &\[([\w\s\",]*)\];\n")
TEXT = re.compile(r'"([\w ]*)"')
AUDIT = re.compile(r"((?:Architecture::\w+(?: \| )?)+) => (0x[0-9A-F_]+),")


class Trouble(Exception):
    pass


# ---- headers


def macros_of(include, header, defined):
    """What the header defines, by name. Headers that it includes stand in the folder, or in the one that holds it."""
    folders = ["-I", include, "-I", str(Path(include).parent)]
    ran = subprocess.run(
        ["gcc", "-E", "-dM", "-undef", "-nostdinc", *(f"-D{it}" for it in defined.split()), *folders, "-x", "c", "-"],
        input=f"#include <{header}>\n", capture_output=True, text=True, check=False)
    if ran.returncode:
        raise Trouble(f"{include}: {header} can't be read: {ran.stderr.strip()}")
    found = (MACRO.fullmatch(line) for line in ran.stdout.splitlines())
    return {it[1]: it[2] or "" for it in found if it}


def value_of(macros, text):
    """The value of numbers and macros that are added, or of bits that are put together."""
    if not TERMS.fullmatch(text):
        raise Trouble(f"not understood: {text}")
    total = 0
    for word in re.findall(r"\w+", text):
        if not word[0].isdigit() and word not in macros:
            raise Trouble(f"{word} is not defined")
        total += int(word, 0) if word[0].isdigit() else value_of(macros, macros[word])
    return total


def calls_of_headers(architecture, include):
    """The names of the architecture's calls, by their numbers, x32's without its bit. Another name for a call is left out."""
    macros = macros_of(include, "asm/unistd.h", DEFINED[architecture])
    calls = {}
    for macro, text in macros.items():
        found = CALL.fullmatch(macro)
        if found is None or NO_CALL.fullmatch(found[1]) or CALL.fullmatch(text):
            continue
        number = value_of(macros, text) & ~(X32_BIT if architecture == "x32" else 0)
        if number in calls:
            raise Trouble(f"{include}: {number} is {calls[number]} and {found[1]}")
        calls[number] = found[1]
    if len(calls) < 250 or not {"read", "write", "execve"} <= set(calls.values()):
        raise Trouble(f"{include} has no headers of calls of {architecture}")
    return calls


# ---- tables


def read(path):
    try:
        return path.read_text(encoding="utf-8")
    except (OSError, UnicodeError) as why:
        raise Trouble(f"{path} can't be read: {why}") from why


def calls_of_table(architecture):
    """The names of a table, by their numbers, x32's without its bit."""
    text = read(FOLDER / f"{architecture}.rt")
    firsts, names = FIRSTS.search(text), NAMES.search(text)
    if not firsts or not names:
        raise Trouble(f"the table of {architecture} has no runs")
    numbers = [int(it) for it in re.findall(r"\d+", firsts[1])]
    texts = [it.split(" ") for it in TEXT.findall(names[1])]
    if not numbers or len(numbers) != len(texts):
        raise Trouble(f"the table of {architecture} has {len(numbers)} numbers, and names of {len(texts)} runs")
    calls = {}
    for first, run in zip(numbers, texts):
        if calls and first <= max(calls):
            raise Trouble(f"the table of {architecture} has {first} behind {max(calls)}")
        calls.update(enumerate(run, first))
    return calls


def runs_of(calls):
    """The runs of a table, each with its first number and its names."""
    runs = []
    for number in sorted(calls):
        if number % MOST and number - 1 in calls:
            runs[-1][1].append(calls[number])
        else:
            runs.append((number, [calls[number]]))
    return runs


def table_text(architecture, calls):
    runs = runs_of(calls)
    firsts = "".join(f"    {first},\n" for first, _ in runs)
    names = "".join(f'    "{" ".join(run)}",\n' for _, run in runs)
    name = architecture.upper()
    without = ", without the bit that they all have" if architecture == "x32" else ""
    return (f"//! The names of the calls on {architecture}, by their numbers{without}. {MADE_BY}\n"
            f"/// The first number of each run.\npub const {name}_FIRSTS: &[u32] = &[\n{firsts}];\n\n"
            f"/// The names of each run.\npub const {name}_NAMES: &[&str] = &[\n{names}];\n")


def write(architecture, include):
    calls = calls_of_headers(architecture, include)
    (FOLDER / f"{architecture}.rt").write_text(table_text(architecture, calls), encoding="ascii")
    subprocess.run(["rt", "fmt"], cwd=FOLDER.parent.parent, check=True)
    print(f"{len(calls)} calls of {architecture} are in the table")
    return 0


# ---- comparisons


def told(wrong, well):
    for line in wrong:
        print(line)
    if not wrong:
        print(well)
    return 1 if wrong else 0


def check(architecture, include):
    """Whether the table is that of the headers, and no more."""
    header, table = calls_of_headers(architecture, include), calls_of_table(architecture)
    wrong = [f"{it}: {header.get(it, 'no call')} in the headers, {table.get(it, 'no call')} in the table of {architecture}"
             for it in sorted({*header, *table}) if header.get(it) != table.get(it)]
    return told(wrong, f"{architecture}: {len(table)} calls are those of the headers")


def resolved(architecture, word):
    """What libseccomp has for a name or a number."""
    command = ["scmp_sys_resolver", "-a", RESOLVED.get(architecture, architecture), word]
    try:
        return subprocess.run(command, capture_output=True, text=True, check=True).stdout.strip()
    except (OSError, subprocess.CalledProcessError) as why:
        raise Trouble(f"scmp_sys_resolver does not tell {word} of {architecture}: {why}") from why


def check_resolved(architecture):
    """Whether each row of the table is one of libseccomp's, where that has the name or the number. For what socketcall(2) and
    ipc(2) do too it has numbers of its own, from -101 to -224."""
    wrong, unknown, same = [], [], 0
    bit = X32_BIT if architecture == "x32" else 0
    for number, name in sorted(calls_of_table(architecture).items()):
        by_name, by_number = resolved(architecture, name), resolved(architecture, str(number | bit))
        is_one_of_several = -225 < int(by_name) < -100
        if (by_name, by_number) == ("-1", "UNKNOWN"):
            unknown.append(name)
        elif by_number == name and (int(by_name) == number | bit or is_one_of_several):
            same += 1
        else:
            wrong.append(f"{number | bit} {name}: libseccomp has {by_name} for the name of {architecture}, and {by_number} for the number")
    print(f"{architecture}: {same} calls are those of libseccomp, which does not know {len(unknown)}: {' '.join(unknown)}")
    return told(wrong, f"{architecture}: no call is another one")


def check_audits(include):
    """Whether the numbers of architectures are those of linux/audit.h."""
    macros = macros_of(include, "linux/audit.h", "")
    numbers = {}
    for names, number in AUDIT.findall(read(ARCHITECTURES)):
        numbers.update((it, int(number, 0)) for it in re.findall(r"::(\w+)", names))
    if len(numbers) != 1 + len(DEFINED):
        raise Trouble(f"{ARCHITECTURES} has the numbers of {len(numbers)} architectures")
    wrong = []
    for name, number in numbers.items():
        macro = f"AUDIT_ARCH_{'X86_64' if name == 'X32' else name.upper()}"
        defined = value_of(macros, macro)
        if defined != number:
            wrong.append(f"{name}: {macro} is {defined:#x} in the header, and {number:#x} here")
    return told(wrong, f"{len(numbers)} architectures have the numbers of the header")
