#!/usr/bin/env python3
"""Counts the lines that a reader has to trust: those of the definitions that the promises are made of.

A promise names the files that it is said in; what these import from other definitions is read with them, and so on.
Statements of laws count where a promise cites them: those on each run and on each report. The last figures are
those of `ask`, of the library for C, and of every file that docs/PROVED.md names, with all laws and with what stores and sets are to
their callers. What only code or proofs look at, and worked examples, are imported by no definition, and so not
counted; nor are imports and blank lines. The lines of comments are told apart from those of the definitions that they
say in words. Types are read in the sources, where they are declared."""
import os
import re
import sys

ROOT = os.path.dirname(os.path.dirname(os.path.abspath(__file__)))
PAGE = os.path.join(ROOT, "docs", "PROVED.md")
IMPORT = re.compile(r"^(?:pub )?use Rattle\.(sk_\w+|libskern)\.specs\.([\w.]+?)(?:\.\{.*| as .*)?$")
# What each command reads and writes.
TEXTS = ["sk_asm/Assembly", "sk_asm/Listing", "sk_engines/EvalCommand", "sk_engines/CheckCommand", "sk_engines/AsmCommand", "sk_engines/ListCommand"]
# Each promise, and the definitions that it is said in.
PROMISES = [
    ("filters", ["sk_filter/Verdict", "sk_filter/Valid", "sk_filter/FirstFault"]),
    ("the texts of filters and their commands", TEXTS),
    ("the kernel, with lineages", ["sk_machine/Machine", "sk_machine/Lineages"]),
    ("the kernel, with lineages, turns and memory", ["sk_machine/Machine", "sk_machine/Lineages", "sk_machine/Turns", "sk_machine/Memory"]),
    ("the kernel and the laws on each run", ["sk_machine/Machine", "sk_laws/RunLaws"]),
    ("scenarios", ["sk_scenario/Scenario", "sk_scenario/Faults"]),
    ("reports", ["sk_run/Report"]),
    ("'skern run'", ["sk_run/Reporting"]),
    ("'skern run', and that each report is a lawful run", ["sk_run/Reporting", "sk_run/laws/ReportLaws"]),
    ("'skern' by its words", ["sk_run/Running"]),
]
# What `ask` answers to its words.
ASK = "sk_ask/Telling"
# What the library for C answers.
LIBRARY = ["libskern/Faults", "libskern/Shapes", "libskern/Comparing", "libskern/Profiles", "libskern/Texts"]


def path_of(name):
    crate, module = name.split("/", 1)
    return os.path.join(ROOT, "crates", crate, "specs", module + ".antt")


def lines_of(name):
    with open(path_of(name), encoding="utf-8") as file:
        return file.read().splitlines()


def imported(crate, modules):
    """The definition that an import names: the longest path of modules that is a file. None is one of the sources."""
    parts = modules.split(".")
    if parts[0] in ("declared", "contracts"):
        return None
    for most in range(len(parts), 0, -1):
        name = f"{crate}/{'/'.join(parts[:most])}"
        if os.path.isfile(path_of(name)):
            return name
    sys.exit(f"no such definition: {crate} {modules}")


def read_with(names):
    """The files that are read for these, each once."""
    found, waiting = set(), list(names)
    while waiting:
        name = waiting.pop()
        if name in found:
            continue
        if not os.path.isfile(path_of(name)):
            sys.exit(f"no such definition: {name}")
        found.add(name)
        for match in filter(None, map(IMPORT.match, lines_of(name))):
            waiting += filter(None, [imported(match[1], match[2])])
    return found


def named_on_the_page():
    """The definitions that docs/PROVED.md names, in the last column of its tables, but for worked examples. A name
    without a crate is of the crate of the heading."""
    with open(PAGE, encoding="utf-8") as file:
        sections = re.split(r"^### `(\w+)`", file.read(), flags=re.M)[1:]
    for crate, section in zip(sections[::2], sections[1::2]):
        for cell in re.findall(r"\|([^|]*)\|$", section, re.M):
            for name in re.findall(r"`((?:\w+/)*(?!Worked)\w+)\.antt`", cell):
                yield name.replace("/specs/", "/") if "/specs/" in name else f"{crate}/{name}"


def count(name):
    """Its lines of definitions, and those of comments."""
    lines = [line.strip() for line in lines_of(name) if line.strip() and not line.startswith(("use ", "pub use "))]
    comments = sum(1 for line in lines if line.startswith("--"))
    return len(lines) - comments, comments


def tell(what, found, verbose):
    lines, comments = (sum(numbers) for numbers in zip(*map(count, found)))
    print(f"lines to trust for {what}: {lines}, and {comments} of comments, in {len(found)} files")
    if verbose:
        for name in sorted(found):
            print("  {:4} {:4} {}".format(*count(name), name))


def main():
    verbose = "-v" in sys.argv[1:]
    page = read_with(named_on_the_page())
    promised = [(what, read_with(names)) for what, names in PROMISES]
    whole = set().union(*(found for _, found in promised))
    asked, exported = read_with([ASK]), read_with(LIBRARY)
    wholes = [
        ("everything that 'skern' promises", whole),
        ("all that 'ask' promises, beside it", asked - whole),
        ("the library for C, beside both", exported - whole - asked),
        ("every definition and law that docs/PROVED.md names", whole | page),
    ]
    for what, found in [*promised, *wholes]:
        tell(what, found, verbose)


if __name__ == "__main__":
    main()
