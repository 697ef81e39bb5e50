"""How the tables of crates/sk_arguments/src/tables are made, for tools/call_arguments, and what tools/check_arguments.py compares
them with: headers of Linux and of the C library, and pages of the manual."""
import gzip
import re
import subprocess
from itertools import groupby
from pathlib import Path

import argument_rows as by_hand
from call_tables import Trouble
from debian import ran

TOP = Path(__file__).resolve().parent.parent
TABLES = TOP / "crates/sk_arguments/src/tables"
PAGE = TOP / "docs/ARGUMENTS.md"
PLACES = 6
# The columns of a line of names.
WIDTH = 116
# The words of a parameter that say nothing of its width.
QUALIFIER = re.compile(r"\b(__user|const|volatile|struct|union|__iomem|_Nullable|restrict)\b")
PROTOTYPE = re.compile(r"asmlinkage\s+long\s+sys_(\w+)\s*\(")
# What arch/x86/include/asm sets on x86-64, as far as these prototypes look at it.
SETTINGS = ("BITS_PER_LONG=64", "__LITTLE_ENDIAN", "__ARCH_WANT_SYS_UTIME")
CALL = re.compile(r"#define\s+__NR_(\w+)\s+(\d+)")
# What is added to each number, so that none of them is 0, which the compiler writes in another way.
OFFSET = 1 << 62
DEFINED = re.compile(r"(?m)^#define (\w+)[ \t]")
ENUMERATED = re.compile(r"\b([A-Z_][A-Z0-9_]+)\b\s*(?:=|,|\n\s*[,}])")


def read(path):
    try:
        data = Path(path).read_bytes()
        return (gzip.decompress(data) if str(path).endswith(".gz") else data).decode("utf-8", "replace")
    except OSError as why:
        raise Trouble(f"{path} can't be read: {why}") from why


def compiled(words, text):
    """The status of gcc, what it writes, and its complaints."""
    try:
        end = subprocess.run(["gcc", *words, "-x", "c", "-"], input=text, capture_output=True, text=True, check=False)
    except OSError as why:
        raise Trouble(f"gcc can't be run: {why}") from why
    return end.returncode, end.stdout, end.stderr


# ---- what is read


def arguments_of(text, at):
    """The parts between the commas of a pair of brackets that begins here."""
    depth, parts, part = 0, [], ""
    for it in text[at:]:
        depth += (it in "([") - (it in ")]")
        if not depth:
            break
        if it == "," and depth == 1:
            parts.append(part)
            part = ""
        elif depth > 1 or it != "(":
            part += it
    parts.append(part)
    tidy = [" ".join(it.split()) for it in parts]
    return [] if tidy in (["void"], [""]) else tidy


def kind_of(parameter):
    """The letter of a parameter's type."""
    if "*" in parameter or parameter.endswith("[]"):
        return "p"
    words = " ".join(QUALIFIER.sub(" ", parameter).split())
    for text in (words, words.rpartition(" ")[0]):
        for letter, types in by_hand.TYPES.items():
            if text in types:
                return letter
    raise Trouble(f"not understood: {parameter}")


def name_of(parameter):
    """The name of a parameter, if it has one."""
    inside = re.search(r"\(\s*\*\s*(\w+)\s*\)", parameter)
    words = re.findall(r"\w+", QUALIFIER.sub(" ", re.sub(r"\[.*", "", parameter)))
    whole = " ".join(words)
    if inside:
        return inside[1]
    if not words or any(whole in types for types in by_hand.TYPES.values()) or parameter.endswith("*"):
        return None
    return words[-1] if len(words) > 1 else None


def calls_of(folder):
    """The calls by their numbers."""
    calls = {int(number): name for name, number in CALL.findall(read(folder / "usr/include/x86_64-linux-gnu/asm/unistd_64.h"))}
    if len(calls) < 370 or calls.get(59) != "execve":
        raise Trouble(f"{folder} has no calls of x86-64")
    return calls


def prototypes_of(folder):
    """The parameters of the kernel's functions, as x86-64 has them."""
    headers = list(folder.glob("usr/src/linux-headers-*-common/include/linux/syscalls.h"))
    if len(headers) != 1:
        raise Trouble(f"{folder} has no include/linux/syscalls.h")
    lines = [it for it in read(headers[0]).splitlines() if not re.match(r"\s*#\s*include", it)]
    status, text, trouble = compiled(["-E", "-P", "-undef", *(f"-D{it}" for it in SETTINGS)], "\n".join(lines))
    if status:
        raise Trouble(f"{headers[0]}: {trouble}")
    found = {it[1]: arguments_of(text, it.end() - 1) for it in PROTOTYPE.finditer(text)}
    return found | {name: arguments_of(f"({text})", 0) for name, text in by_hand.DECLARED.items()}


# ---- the manual


def synopsis(text):
    """A page without its marks."""
    out = []
    for line in text.splitlines():
        if line.startswith(("'", ".\\\"")):
            continue
        if re.match(r"\.[A-Z]{1,2}\b", line):
            words = re.findall(r'"((?:[^"]|"")*)"|(\S+)', line.partition(" ")[2])
            line = ("" if line[1:3] in ("BI", "BR", "IR", "IB", "RB", "RI") else " ").join(quoted or bare for quoted, bare in words)
        out.append(re.sub(r"\\f.|\\c|\\&|\\\|", "", line.replace("\\-", "-")))
    joined = re.sub(r"\\\n", "", "\n".join(out))
    return re.sub(r"/\*\s*(?:or: |Definition)[^*]*\*/", "", joined)


def page_of(folder, name, depth=0):
    path = folder / f"usr/share/man/man2/{name}.2.gz"
    if depth > 3 or not path.exists():
        return ""
    text = read(path)
    linked = re.match(r"\.so man2/(\w+)\.2", text)
    return page_of(folder, linked[1], depth + 1) if linked else text


def kernel_name(parameter):
    """The name that the kernel has for a parameter, where the manual has the same word for its like."""
    name = name_of(parameter) or "-"
    return re.sub("^(old|new|)dfd$", r"\1dirfd", re.sub("^filename$", "pathname", name))


def manual_names(folder, name, count):
    """The names that the manual has for a call's arguments, by the first prototype of as many: of the raw call where there is one."""
    text = synopsis(page_of(folder, name))
    found = []
    for it in re.finditer(rf"(?<!\w)(?:syscall\(\s*SYS_{name}\s*[,)]|{name}\()", text):
        at = text.index("(", it.start())
        parts = arguments_of(re.sub(r"\.\.\.\s*/\*|/\*|\*/", ",", text[at:at + 800]), 0)
        parts = [part for part in parts if part not in ("", "...", f"SYS_{name}")]
        names = [name_of(part) for part in parts]
        if len(names) == count and all(names):
            found.append((not it[0].startswith("syscall"), names))
    return min(found, key=lambda it: it[0])[1] if found else None


# ---- constants


def include_words(folder):
    """What tells gcc to read the headers of a folder in place of the machine's."""
    own = ran(["gcc", "-print-file-name=include"], folder).strip()
    return ["-nostdinc", *(f"-isystem{it}" for it in (own, folder / "usr/include/x86_64-linux-gnu", folder / "usr/include"))]


def headed(*headers):
    return "#define _GNU_SOURCE\n#include <sys/types.h>\n" + "".join(f"#include <{it}>\n" for it in headers)


def numbers_of(words, header, names):
    """The numbers of names, of those that are numbers, with their signs."""
    head = headed(header) + "const unsigned long long numbers[] = {\n"
    while names:
        lines = "".join(f"{OFFSET} + (unsigned long long) ({it}),\n" for it in names)
        status, text, trouble = compiled([*words, "-w", "-fmax-errors=0", "-S", "-o-"], f"{head}{lines}}};\n")
        if not status:
            numbers = re.findall(r"\.quad\t(-?\d+)", text)
            return {it: int(number) % (1 << 64) - OFFSET for it, number in zip(names, numbers, strict=True)}
        wrong = {int(it) - head.count("\n") - 1 for it in re.findall(r"<stdin>:(\d+):\d+: error", trouble)} & set(range(len(names)))
        if not wrong:
            raise Trouble(f"{header}: {trouble[:300]}")
        names = [it for place, it in enumerate(names) if place not in wrong]
    return {}


def named(words, header, pattern, but=""):
    """The numbers of those names of a header that a pattern has, and the other one has not, where they have 32 bits."""
    status, text, trouble = compiled([*words, "-E", "-dD"], headed(header))
    if status:
        raise Trouble(f"{header}: {trouble[:300]}")
    known = {*DEFINED.findall(text), *ENUMERATED.findall(text)}
    wanted = sorted(it for it in known if re.fullmatch(pattern, it) and not (but and re.fullmatch(but, it)))
    found = numbers_of(words, header, wanted)
    if not found:
        raise Trouble(f"{header} has no number named {pattern}")
    return {it: number for it, number in found.items() if -(1 << 31) <= number < 1 << 32}


def constants_of(folder):
    """The sets, as lists of numbers and names, and all second names."""
    words, has_bits = include_words(folder), {it.values for *_, it in by_hand.FORMS if it.has_bits}
    masks = {it.field: it.mask for *_, it in by_hand.FORMS if it.field}
    sets, second = {}, {}
    for name, rows in by_hand.SETS.items():
        first = {}
        for row in rows:
            # One below 0 would have 64 bits beside an argument.
            for it, number in sorted((it, number) for it, number in named(words, *row).items() if number >= 0):
                if it in by_hand.SECOND or number & ~masks.get(name, number) or number in first and first[number][1] is not row:
                    second[it] = number
                elif number in first and first[number][0] != it:
                    raise Trouble(f"{name}: {first[number][0]} and {it} are both {number}: one of them is to stand in SECOND")
                else:
                    first[number] = (it, row)
        order = (lambda it: (-it.bit_count(), it)) if name in has_bits else (lambda it: it)
        sets[name] = [(number, first[number][0]) for number in sorted(first, key=order)]
    for row in by_hand.READ:
        second |= {it: number % (1 << 32) for it, number in named(words, *row).items()}
    return sets, check_names(sets, second)


def check_names(sets, second):
    """The second names that are in no set. No name may have two numbers."""
    numbers = {}
    for number, name in [pair for rows in sets.values() for pair in rows] + [(number, name) for name, number in second.items()]:
        if numbers.setdefault(name, number) != number:
            raise Trouble(f"{name} is {numbers[name]} and {number}")
    written = {name for rows in sets.values() for _, name in rows}
    if missing := by_hand.SECOND - set(second):
        raise Trouble(f"SECOND has names that are in no set: {' '.join(sorted(missing))}")
    return [(number, name) for name, number in sorted(second.items()) if name not in written]


# ---- tables


def wrapped(words, width, between=" "):
    """Words in lines."""
    lines = [words[0]]
    for it in words[1:]:
        if len(lines[-1]) + len(between) + len(it) > width:
            lines.append(it)
        else:
            lines[-1] += between + it
    return lines


def letters(rows):
    """The letters of all rows, those of sixteen in a line."""
    return ["".join(it for row in rows[at:at + 16] for it in row) for at in range(0, len(rows), 16)]


def text_of(rows, indent, between=" "):
    """A text of rows, each in a line of its own."""
    pad = " " * indent
    return '"\\\n' + f"{between}\\\n".join(pad + it for it in rows) + f'\\\n{pad}"'


def rows_of(folder):
    """Of each number the six kinds, the names of the manual, and the places of the arguments that decide."""
    calls, prototypes = calls_of(folder), prototypes_of(folder)
    rows = range(max(calls) + 1)
    kinds, names, deciders = [["l"] * PLACES for _ in rows], [["-"] * PLACES for _ in rows], [["-"] * PLACES for _ in rows]
    number_of = {name: nr for nr, name in calls.items()}
    for nr, name in calls.items():
        if name in by_hand.NO_FUNCTION:
            continue
        if (entry := by_hand.ENTRIES.get(name, name)) not in prototypes:
            raise Trouble(f"{name} has no prototype")
        parameters = prototypes[entry]
        own = by_hand.NAMED.get(name, "").split() or manual_names(folder, name, len(parameters)) or list(map(kernel_name, parameters))
        if len(own) != len(parameters):
            raise Trouble(f"{name} has {len(parameters)} arguments")
        rest = ["-"] * (PLACES - len(parameters))
        kinds[nr], names[nr] = [kind_of(it) for it in parameters] + rest, own + rest
    for name, place, letter in by_hand.NARROWER:
        kinds[number_of[name]][place] = letter
    for name, decider, places in by_hand.DECIDERS:
        for it in places:
            deciders[number_of[name]][it] = str(decider)
    return kinds, names, deciders


def calls_table(rows):
    kinds, names, deciders = rows
    parts = [
        ("KINDS", "The kind of each argument: absent -, a mode m, an int i, 32 bits without a sign u, 64 bits l, an address p.", letters(kinds), ""),
        ("DECIDERS", "The place of the argument for some of whose values alone Linux reads each.", letters(deciders), ""),
        ("NAMES", "The name of each argument in the manual.", wrapped([it for of in names for it in of], WIDTH), " "),
    ]
    return (
        "//! The arguments of the calls of x86-64 in Linux 6.12, six for each number from 0 on; a line of letters has those of 16 numbers.\n"
        "//! `tools/call_arguments` makes the table.\n"
        + "\n".join(f"/// {doc}\npub const {name}: &str = {text_of(lines, 4, between)};\n" for name, doc, lines, between in parts)
    )


def arguments_page(calls, rows):
    """What Linux reads of each argument, in the manual's terms."""
    def named(nr, letters):
        return ", ".join(f"`{name}`" for kind, name in zip(kinds[nr], names[nr]) if kind in letters and name != "-")

    kinds, names, _ = rows
    lines = "".join(
        f"| {nr} | {name}(2) | {named(nr, 'iu')} | {named(nr, 'm')} | {named(nr, 'l')} | {named(nr, 'p')} |\n"
        for nr, name in sorted(calls.items()) if name not in by_hand.NO_FUNCTION)
    return (
        "# What Linux reads of each argument\n\n"
        "These are the arguments of the calls of x86-64 in Linux 6.12, by their names in the manual, and how many of their bits Linux reads. "
        "A filter sees 64 bits of each; [WIDTHS.md](WIDTHS.md) says what comes of that. `tools/call_arguments` makes this page.\n\n"
        "| Number | Call | 32 bits | 16 bits | 64 bits | An address |\n|---|---|---|---|---|---|\n" + lines)


def runs_of(names):
    """The runs of names that begin with the same two letters, as the table has them."""
    runs, first, start = [], 0, 0
    for _, alike in groupby(names, lambda name: name[:2]):
        of = list(alike)
        end = start + len(" ".join(of))
        runs.append((first, start, end))
        first, start = first + len(of), end + 1
    return runs


def constants_table(sets, second):
    def part(name, rows, width, of):
        return f"    // {name}\n" + "".join(f"    {it},\n" for it in wrapped([of(it) for it in rows], width, ", "))

    rows = [*sets.items(), ("read, and never written", second)]
    numbers = "".join(part(name, rows, 96, lambda it: str(it[0])) for name, rows in rows)
    names = text_of([it for _, rows in rows for it in wrapped([name for _, name in rows], WIDTH)], 4, " ")
    runs = "".join(f"    {run},\n" for run in runs_of([name for _, of in rows for _, name in of]))
    return (
        "//! The constants of Linux 6.12, set by set. `tools/call_arguments` makes the table, and `rt fmt` lays it out.\n"
        "use crate::runs::Run;\n\n"
        f"/// The numbers.\npub const NUMBERS: &[u32] = &[\n{numbers}];\n\n"
        f"/// Their names, with a space between each two.\npub const NAMES: &str = {names};\n\n"
        f"/// Where names stand in that text.\npub const RUNS: &[Run] = &[\n{runs}];\n"
    )


def forms_table(folder, sets):
    number_of = {name: nr for nr, name in calls_of(folder).items()}

    def shown(it):
        field = f"Some(Field {{ mask: {it.mask:#x}, values: {it.field} }})" if it.field else "None"
        return f"Form::Bits({it.values}, {field})" if it.has_bits else f"Form::One({it.values})"

    used = sorted({part for *_, it in by_hand.FORMS for part in (it.values, it.field) if part})
    if used != sorted(sets):
        raise Trouble(f"in no form, or in no set: {set(used) ^ set(sets)}")
    ranges, first = [], 0
    for name, rows in sets.items():
        ranges.append(f"const {name}: Set = Set {{ first: {first}, end: {first + len(rows)} }};\n")
        first += len(rows)
    return (
        "//! The forms of the arguments that take constants. `tools/call_arguments` makes the table.\n"
        "use crate::constants::Set;\nuse crate::forms::{Field, Form, Row, When};\n\n"
        + "\n".join(ranges)
        + "\n/// The rows of each argument: call, place, where the form is there, and the form.\npub const ROWS: &[Row] = &[\n"
        + "".join(f"    ({number_of[call]}, {place}, When::{when}, {shown(form)}),\n" for call, place, when, form in by_hand.FORMS)
        + "];\n"
    )


def tables_of(folder):
    """The text of each table and of the page, by the path of its file."""
    sets, second = constants_of(folder)
    rows = rows_of(folder)
    return {
        TABLES / "calls.rt": calls_table(rows),
        TABLES / "constants.rt": constants_table(sets, second),
        TABLES / "forms.rt": forms_table(folder, sets),
        PAGE: arguments_page(calls_of(folder), rows),
    }
