#!/usr/bin/env python3
"""Compares what `ask` prints with --json with the texts that it prints without.

check_json.py [FILE..]: of the filters in the files, of which each holds one in hexadecimal digits, and else of those of
examples/filters, each document has the form of docs/ask.schema.json, and the text that is written here from the document alone
is the text of the same words without --json, with the same status and the same notes. Conditions as data and as texts hold on the
same calls. Trouble is told as without --json, and nothing stands on standard output then.

Prints each problem, and at last 'N passed, M failed'."""
import itertools
import json
import os
import random
import re
import subprocess
import sys

try:
    from jsonschema import Draft202012Validator
except ImportError:
    Draft202012Validator = None

from check_calls import COMPARISONS, PROGRAM, ROOT, judge, results
from check_conditions import BREAK, Call, borders, meets

FILTERS = os.path.join(ROOT, "examples/filters")
SCHEMA = os.path.join(ROOT, "docs/ask.schema.json")
WIDE, TRIALS, MOST_CONDITIONS = 1 << 64, 12, 400
UNSEEN = "warning: no filter looks at the architecture: calls of each are judged by their numbers alone\n"
EVERYWHERE = {"same": "the same on every call\n", "as strict": "as strict on every call\n", "as expected": "as expected on every call\n"}
NOTHING = {True: "no call gets a less strict verdict by bits that Linux does not read\n",
           False: "no call gets another verdict by bits that Linux does not read\n"}
KINDS, CONCERNS = ("looser", "stricter", "other", "undecided"), ("looser", "signed", "undecided")
# What stands between A and the operand where a comparison fails, and where it holds.
SIGNS = {0x10: ("!=", "=="), 0x20: ("<=", ">"), 0x30: ("<", ">="), 0x40: ("&", "&")}
# The name of a call, which a text has behind the number that A is compared with.
COMPARED_NAME = re.compile(r"(?<=\d) [a-z_0-9]+(?=: to \d+\n)")
LOG = os.path.join(ROOT, "examples/logs/true.strace")
KERNEL_LOG = os.path.join(ROOT, "examples/logs/true.dmesg")
RECORD = 'audit[9]: SECCOMP pid=9 comm="x" sig=31 arch=c000003e syscall=39 compat=0 ip=0x7f code=0x80000000'
EXPECTATIONS = os.path.join(ROOT, "examples/policies/service.expect")
SOURCES = [os.path.join(ROOT, it) for it in ("examples/profiles/service.json", "examples/policies/service.policy")]
# What is trouble: words, and what stands on standard error.
TROUBLE = [
    (["calls", "--json", "--json", "--call", "no_such_call"], "ask: no call is named no_such_call"),
    (["when", "--json", "--dot", "--call", "read"], "ask: when: expected --dot or --json, not both"),
    (["filter", "--json"], "ask: filter: no option is named --json"),
    (["check", "--json"], "ask: check: no option is named --json"),
    (["why", "--json", "no_such_call"], "ask: no call is named no_such_call"),
]


def ask(words: list[str]) -> tuple[int, str, str]:
    ran = subprocess.run([PROGRAM, *words], stdin=subprocess.DEVNULL, capture_output=True, text=True, timeout=600, check=False)
    return ran.returncode, ran.stdout, ran.stderr


def head(it: dict) -> str:
    numbers = str(it["first"]) if it["first"] == it["last"] else f"{it['first']}-{it['last']}"
    return f"{numbers} {it['name'] or '-'}"


def answers(verdicts: list[dict] | None) -> str:
    return "any" if verdicts is None else " | ".join(it["text"] for it in verdicts)


def example_text(it: dict) -> str:
    found = it["found"]
    if found is None:
        return f"  {it['verdict']['text']} ?\n"
    return f"  {it['verdict']['text']} filter {found['filter']} at {found['instruction']} record {found['call']['record']}\n"


def calls_text(document: dict, tells_all: bool) -> str:
    rows = [f"{head(row)} {row['text']}\n" + "".join(map(example_text, row["examples"])) for row in document["rows"]]
    return "".join(rows) + UNSEEN * (tells_all and not document["looks_at_architecture"])


def when_row(row: dict) -> str:
    told = lambda verdict: answers(row["verdicts"]) if verdict is None else verdict["text"]
    if not row["lines"]:
        return f"{head(row)} {told(row['otherwise'])}\n"
    lines = [f"  {told(it['verdict'])} where {it['condition']}\n" for it in row["lines"]]
    return f"{head(row)}\n{''.join(lines)}  {told(row['otherwise'])} else\n"


def difference(it: dict) -> str:
    verdicts = "undecided" if it["new"] is None else f"{it['old']['text']} -> {it['new']['text']}"
    shown = "" if it["call"] is None else f"  record {it['call']['record']}\n  {it['call']['text']}\n"
    return f"{head(it)}: {verdicts}" + (f" where {it['condition']}" if it["condition"] else "") + f"\n{shown}"


def comparison_text(document: dict) -> str:
    differences = document["differences"]
    if document["holds"]:
        return EVERYWHERE[document["relation"]]
    if document["relation"] == "as expected":
        decided = [it for it in differences if it["kind"] != "undecided"]
        return "".join(map(difference, decided + [it for it in differences if it["kind"] == "undecided"]))
    told = {kind: "".join(difference(it) for it in differences if it["kind"] == kind) for kind in KINDS}
    return "".join(f"{kind}:\n{text}" for kind, text in told.items() if text)


def lint_difference(it: dict) -> str:
    taken = "" if it["taken"] is None else f"  which Linux takes for {it['taken']['text']}\n"
    return difference(it) + taken + it["remark"]


def lint_text(document: dict, tells_all: bool) -> str:
    of = {it: [one for one in document["differences"] if one["concern"] == it] for it in (*CONCERNS, "stricter")}
    stricter = of.pop("stricter")
    opening = NOTHING[bool(stricter)] if document["holds"] else ""
    told = "".join(lint_difference(it) for some in of.values() for it in some)
    if tells_all:
        return opening + told + "".join(map(lint_difference, stricter))
    many = "1 condition (--all shows it)" if len(stricter) == 1 else f"{len(stricter)} conditions (--all shows them)"
    return opening + told + (f"as strict or stricter by such bits: {many}\n" if stricter else "")


def arches_text(document: dict) -> str:
    judged = lambda verdict: "judged call by call" if verdict is None else verdict["text"]
    other = document["other"]
    lines = [f"{it['name']} {judged(it['verdict'])}" for it in document["architectures"]]
    lines.append(f"any other {judged(other['verdict'])}" if other["followed"] else "any other not followed: each word of a call is loaded")
    for it in document["warnings"]:
        there = "" if it["ptrace"] is None else f": {it['ptrace']} is ptrace there"
        lines.append(f"warning: {it['architecture']} calls are judged by x86-64's numbers{there}")
    return "".join(f"{line}\n" for line in lines)


def count_text(count: int, kind: str) -> str:
    return "" if count == 0 else f"1 line is {kind}\n" if count == 1 else f"{count} lines are {kind}\n"


def judged_text(row: dict) -> str:
    """The verdict on a call of a log, or the argument that it depends on."""
    told = f"depends on {row['undecided_by']}, which the log does not show" if row["verdict"] is None else row["verdict"]["text"]
    return told if row["logged"] is None else f"{told} (logged: {row['logged']})"


def replay_text(document: dict) -> str:
    lines = {done: "".join(f"{it['times']} {it['text']} {judged_text(it)}\n" for it in document["rows"] if it["performed"] == done) for done in (False, True)}
    no_calls = count_text(document["no_calls"], "no call").replace("are no call", "are no calls")
    return lines[False] + lines[True] + no_calls + count_text(document["not_understood"], "not understood")


def jump_text(step: dict, a: int, x: int) -> str:
    """Where a jump goes, where A and X held this before it, without the name of a call."""
    code, to = step["code"], f"to {step['next']}"
    if code & 7 != 5:
        return ""
    if code == 5:
        return f"  {to}"
    operand = x if code & 8 else step["k"]
    holds = COMPARISONS[code & 0xF0](a, operand)
    bits = (" != 0" if holds else " == 0") if code & 0xF0 == 0x40 else ""
    return f"  {a} {SIGNS[code & 0xF0][holds]} {operand}{bits}: {to}"


def path_text(path: dict) -> str:
    lines, a, x = [f"filter {path['filter']}\n"], 0, 0
    for step in path["steps"]:
        lines.append(f"{step['instruction']:>4} {step['text']:<24} A={step['a']} X={step['x']}{jump_text(step, a, x)}\n")
        a, x = step["a"], step["x"]
    return "".join(lines) + f"  {path['verdict']['text']}\n"


def decision_text(it: dict) -> str:
    match it["by"]:
        case "entry":
            at = "" if it["line"] is None else f" in line {it['line']}"
            said = f"entry {it['entry'] + 1} of syscalls{at} decides"
        case "no_entry":
            said = "no entry of syscalls says otherwise than the default"
        case "no_call":
            said = "runc's own instructions decide, which know no such call"
        case "foreign":
            said = "the profile is not for this architecture"
        case "row":
            said = f"line {it['line']} decides"
        case by:
            said = f"{by} in line {it['line']} decides" if it["line"] is not None else "no line says what other architectures get"
    return f"{it['file']}: {said}\n"


def why_text(document: dict) -> str:
    source = document["source"]
    logged = "" if document["logged"] is None else f"logged: {document['logged']}\n"
    by = "" if source is None else f" by filter {source['filter']} at {source['instruction']}"
    return "".join(map(path_text, document["filters"])) + f"{document['verdict']['text']}{by}\n" + "".join(map(decision_text, document["entries"])) + logged


def text_of(document: dict, words: list[str]) -> str:
    """The text that the words have without --json, each condition in one line."""
    match document["word"]:
        case "calls":
            return calls_text(document, "--call" not in words)
        case "when":
            return "".join(map(when_row, document["rows"]))
        case "lint":
            return lint_text(document, "--all" in words)
        case "arches":
            return arches_text(document)
        case "replay":
            return replay_text(document)
        case "why":
            return why_text(document)
    return comparison_text(document)


def conditions_of(document: dict) -> list[tuple[dict, list[list[dict]], str]]:
    """Each condition: whose it is, as data, and as a text."""
    rows = [(row, line) for row in document.get("rows", []) for line in row.get("lines", [])]
    rows += [(it, it) for it in document.get("differences", []) if it["condition"]]
    return [(row, line["choices"], line["condition"]) for row, line in rows]


def holds(choices: list[list[dict]], call: Call) -> bool:
    words = {"nr": call.nr, "ip": call.ip, **{f"args[{i}]": it for i, it in enumerate(call.args)}}

    def lies(term: dict) -> bool:
        mask, first, last = (int(term[it], 16) for it in ("mask", "from", "to"))
        return (first <= words[term["argument"]] & mask <= last) == term["inside"]

    return all(any(map(lies, choice)) for choice in choices)


def calls_near(row: dict, choices: list[list[dict]], dice: random.Random) -> list[Call]:
    """Calls with one of the row's numbers, whose words stand at borders of the terms."""
    at: dict[str, list[int]] = {}
    for term in itertools.chain.from_iterable(choices):
        mask = int(term["mask"], 16)
        near = borders({int(term["from"], 16), int(term["to"], 16)})
        at.setdefault(term["argument"], []).extend([*near, *(it & mask | ~mask & dice.randrange(WIDE) % WIDE for it in near)])
    word = lambda name: dice.choice(at.get(name, [0, dice.randrange(WIDE)])) % WIDE
    return [Call(dice.choice((row["first"], row["last"])), word("ip"), tuple(word(f"args[{i}]") for i in range(6))) for _ in range(TRIALS)]


def differing_conditions(document: dict, dice: random.Random) -> list[str]:
    all_of_them = conditions_of(document)
    problems = []
    for row, choices, text in dice.sample(all_of_them, min(len(all_of_them), MOST_CONDITIONS)):
        for call in calls_near(row, choices, dice):
            if holds(choices, call) != meets(text, call):
                problems.append(f"{head(row)}: {text}: as data it is {choices}, which differs on {call}")
    return problems


def misshapen(document: dict, schema: dict) -> list[str]:
    """Where a document has not the schema's form."""
    found = Draft202012Validator(schema).iter_errors(document) if Draft202012Validator else []
    return [f"{it.json_path}: {it.message[:200]}" for it in itertools.islice(found, 3)]


def compared(words: list[str], schema: dict, dice: random.Random) -> None:
    """Words without --json, and with it."""
    status, text, notes = ask(words)
    status_there, printed, notes_there = ask([words[0], "--json", *words[1:]])
    named = f"ask {' '.join(words)}"
    if status == 2:
        judge([] if (status_there, printed, notes_there) == (2, "", notes) else [f"status {status_there}, {printed[:200]!r}, {notes_there[:200]!r}"], named)
        return
    problems = [] if (status, notes) == (status_there, notes_there) else [f"status {status_there} and not {status}, or {notes_there!r} and not {notes!r}"]
    try:
        document = json.loads(printed)
        problems += misshapen(document, schema)
        if not printed.endswith("}\n") or printed.count("\n") != 1:
            problems.append("it is not one line")
        # A constant is no word of the language in which the texts of conditions are tried.
        problems += differing_conditions(document, dice) if "--numbers" in words else []
        text = COMPARED_NAME.sub("", text) if words[0] == "why" else text.replace(BREAK, "")
        if text_of(document, words) != text:
            problems.append(f"the text of the document is another one:\n{text_of(document, words)[:600]}\nand not\n{text[:600]}")
    except (ValueError, KeyError, TypeError) as why:
        problems.append(f"{why!r} of {printed[:200]!r}")
    judge(problems, named)


def questions(files: list[str]) -> list[list[str]]:
    """The words that are compared."""
    found: list[list[str]] = []
    for file in files:
        found += [["calls", "--examples", file], ["calls", file], ["calls", "--call", "clone", "--call", "39", "--examples", file]]
        found += [["calls", "--arch", it, file] for it in ("i386", "aarch64", "x32")]
        found += [["when", file], ["when", "--numbers", file], ["when", "--call", "socket", "--call", "personality", file], ["when", "--arch", "i386", file]]
        found += [["lint", file], ["lint", "--all", file], ["lint", "--all", "--numbers", file], ["arches", file]]
        found += [["expect", EXPECTATIONS, file], ["expect", "--numbers", EXPECTATIONS, file]]
        found += [["replay", LOG, file], ["replay", "--arch", "i386", LOG, file], ["replay", KERNEL_LOG, file]]
        found += [["why", it, file] for it in ("getpid", "clone(0x10000000)", "openat(AT_FDCWD, \"/etc\", O_RDONLY)", "socket(AF_NETLINK, 3, 9)", "1000")]
        found += [["why", "--arch", it, "read(3)", file] for it in ("i386", "aarch64")]
    for source in SOURCES:
        found += [["why", it, source] for it in ("read", "clone(0x10000000)", "socket(AF_NETLINK, 3, 9)", "openat(0, 0, 0)", "ptrace", "1000")]
        found += [["why", "--arch", "i386", "read", source], ["why", "--runc", "1000", source]]
    for old, new in itertools.permutations(files, 2):
        found += [["diff", old, new], ["diff", "--stricter", "--numbers", old, new]]
    return [*found, ["diff", files[0], files[0]], ["diff", "--arch", "aarch64", files[0], files[-1]], ["when", *files], ["calls", *files], ["arches", *files],
            ["replay", LOG, *files], ["why", "clone(0x10000000)", *files], ["why", "read", files[0], *SOURCES], *(["why", RECORD, it] for it in SOURCES)]


def main() -> int:
    files = sys.argv[1:] or sorted(f"{FILTERS}/{it}" for it in os.listdir(FILTERS) if it.endswith(".hex"))
    with open(SCHEMA, encoding="utf-8") as text:
        schema = json.load(text)
    if not Draft202012Validator:
        print("left out: the form of each document: python has no jsonschema")
    dice = random.Random(1)
    for words in questions(files):
        compared(words, schema, dice)
    for words, line in TROUBLE:
        status, text, said = ask([*words, files[0]])
        judge([] if (status, text) == (2, "") and said.startswith(line) else [f"status {status}, {text[:100]!r}, {said!r}"], f"ask {' '.join(words)}")
    print(f"{results['passed']} passed, {results['failed']} failed")
    return 1 if results["failed"] else 0


if __name__ == "__main__":
    sys.exit(main())
