#!/usr/bin/env python3
"""Checks that no code makes it up that memory was refused.

No contract can say that a refusal of memory is answered only where an allocation was refused. So it is kept by form:
outside the crates of tests, the values `AllocError`, `AllocFailed` and `Stopped` and the variants `Memory`, `OutOfMemory`
and `Fault::Stopped` are written only where they take the place of a refusal that is at hand: in a `fn from` that is given
one, and in the arm of a match whose pattern names one. All else goes by `?`. Patterns, types and comparisons write no value.
No such name is given another one, and no value of `Stopped` comes from a function of its own or a default.

And nothing is asked of the allocator so that it may refuse: room is reserved under no condition but one on the capacity,
and never for `MAX` or another number that is past what a program here needs.

The crates of tests are those whose names end in `_tests`; no other crate stands on one.

Prints each line that does so, and at last 'N passed, M failed', counted by source files."""
import os
import re
import subprocess
import sys

ROOT = os.path.dirname(os.path.dirname(os.path.abspath(__file__)))
REFUSAL = re.compile(r"\b(AllocError|AllocFailed|OutOfMemory|Memory|Stopped)\b")
# Variants of enums, which stand behind `::` unless they are imported, and values that stand alone.
VARIANTS, VALUES = ("Memory", "OutOfMemory"), ("AllocError", "AllocFailed", "Stopped")
RENAMED = re.compile(r"\b(AllocError|AllocFailed|OutOfMemory|Memory|Stopped)\s+as\s+\w+")
MADE = re.compile(r"\bimpl\b(?![^{;]*\b(Display|Error|Model|Debug)\b[^{;]*\bfor\b)[^{;]*\bStopped\s*\{|\bDefault\b[^\]]*\]\s*(pub\s+)?struct\s+Stopped\b")
RESERVES = re.compile(r"(try_)?reserve(_exact)?|with_capacity")
# What no list here needs room for: an input has at most 1,048,576 bytes.
MOST_RESERVED = 1 << 20
CONSTANT = re.compile(r"\bconst\s+([A-Z]\w*)\s*:\s*\w+\s*=([^;]*);")
TESTS = re.compile(r"^crates/\w+_tests/")
CLAUSE = re.compile(r"^\s*(ghost|requires|ensures|invariant|decreases)\b")
TOKEN = re.compile(r"[A-Za-z_]\w*|\d\w*|=>|::|->|==|!=|<=|>=|&&|\|\||[^\sA-Za-z_]")


def blank(text):
    """The text without comments, strings and characters, line by line as it was."""
    def spaces(match):
        return re.sub(r"[^\n]", " ", match.group())
    return re.sub(r"//[^\n]*|\"(?:\\.|[^\"\\])*\"|'(?:\\.|[^'\\])'", spaces, text)


def code_of(text):
    """What runs: no contract, no ghost item, no import, no attribute, no test module."""
    lines = blank(text).split("\n")
    out = []
    depth = 0
    skipping = None
    for line in lines:
        if skipping is None and (CLAUSE.match(line) or re.match(r"^\s*(pub(\([a-z]+\))?\s+)?use\b|^\s*#!?\[", line)):
            skipping = "clause" if CLAUSE.match(line) else "item"
            depth = 0
        if skipping is None:
            out.append(line)
            continue
        depth += sum(line.count(c) for c in "{([") - sum(line.count(c) for c in "})]")
        out.append("")
        if depth <= 0 and (skipping == "clause" or re.search(r"[;\]]\s*$", line)):
            skipping = None
    return "\n".join(out)


def tokens_of(code):
    for number, line in enumerate(code.split("\n"), 1):
        for match in TOKEN.finditer(line):
            yield match.group(), number


def brackets_of(tokens):
    """For each token the bracket that it stands in, and for each bracket its partner."""
    inside, partner, stack = [], {}, []
    for at, (word, _) in enumerate(tokens):
        if word in ")]}" and stack:
            partner[stack[-1]] = at
            partner[at] = stack.pop()
        inside.append(stack[-1] if stack else None)
        if word in "([{":
            stack.append(at)
    return inside, partner


def side_of(tokens, brackets, at):
    """The arm or statement that a token stands in: whether behind its `=>`, the pattern before it, and the place."""
    inside, partner = brackets
    while inside[at] is not None and tokens[inside[at]][0] != "{":
        at = inside[at]
    place = at
    while place - 1 >= 0 and place - 1 != inside[at]:
        place -= 1
        word = tokens[place][0]
        if word == "}":
            return False, [], at
        if word in ")]":
            place = partner[place]
        elif word in (",", ";"):
            return False, [], at
        elif word == "=>":
            arrow = place
            while place - 1 >= 0 and place - 1 != inside[at] and tokens[place - 1][0] not in (",", ";"):
                place -= 1
                # The end of an arm in braces, and not of a pattern of a struct.
                if tokens[place][0] == "}" and tokens[place + 1][0] not in ("=>", "|", "if"):
                    place += 1
                    break
                if tokens[place][0] in ")]}":
                    place = partner[place]
            return True, [word for word, _ in tokens[place:arrow]], at
    return False, [], at


def is_pattern(tokens, brackets, at):
    behind, _, outer = side_of(tokens, brackets, at)
    if behind:
        return False
    last = brackets[1].get(outer, at)
    if outer == at and at + 1 < len(tokens) and tokens[at + 1][0] == "{":
        last = brackets[1].get(at + 1, at)
    place = last + 1
    return place < len(tokens) and tokens[place][0] in ("=>", "|", "if", "=")


def is_type(tokens, at):
    before = tokens[at - 1][0] if at else ""
    after = tokens[at + 1][0] if at + 1 < len(tokens) else ""
    return before in (":", "->", "&", "+") or after in (">", "<") or before == "<"


def names_a_refusal(pattern):
    """Whether each alternative of a pattern names one, or its condition is that something is equal to one."""
    words, condition = pattern, []
    if "if" in pattern:
        at = pattern.index("if")
        words, condition = pattern[:at], pattern[at + 1:]
    if "==" in condition and not {"!", "!=", "||"} & set(condition):
        side = condition[condition.index("==") + 1:]
        if any(REFUSAL.fullmatch(word) for word in side):
            return True
    parts = [[]]
    for word in words:
        if word in ("|", "||"):
            parts.append([])
        else:
            parts[-1].append(word)
    return all(any(REFUSAL.fullmatch(word) for word in part) for part in parts)


def stands_for_a_refusal(tokens, brackets, at):
    """Whether it stands in an arm whose pattern names a refusal, or in a `fn from` that is given one."""
    inside, _ = brackets
    while at is not None:
        behind, pattern, outer = side_of(tokens, brackets, at)
        if behind and names_a_refusal(pattern):
            return True
        at = inside[outer]
        if at is None:
            return False
        head = at
        while head > 0 and tokens[head][0] not in ("fn", ";", "}"):
            head -= 1
        named = [word for word, _ in tokens[head:at]]
        if named[:1] == ["fn"] and "=>" not in named:
            return named[1] == "from" and any(REFUSAL.fullmatch(word) for word in named[2:])
    return False


def head_of(tokens, brackets, at):
    """The words before a brace, back to the statement or the block before."""
    place = at
    while place > 0 and tokens[place - 1][0] not in (";", "{", "}", ","):
        place -= 1
        if tokens[place][0] in ")]":
            place = brackets[1].get(place, place)
    return [word for word, _ in tokens[place:at]]


def is_value(tokens, brackets, at):
    """Whether a token writes a value that says that memory was refused."""
    word = tokens[at][0]
    before = tokens[at - 1][0] if at else ""
    if before == "::":
        return word in VARIANTS or word == "AllocError" or word == "Stopped" and tokens[at - 2][0] == "Fault"
    outer = brackets[0][at]
    is_declared = before in ("struct", "for", "impl") or outer is not None and "enum" in head_of(tokens, brackets, outer)
    return word in VARIANTS + VALUES and not is_declared and not is_type(tokens, at)


def values_made_up(tokens, brackets):
    for at, (_, number) in enumerate(tokens):
        if not is_value(tokens, brackets, at):
            continue
        path = at
        while path > 1 and tokens[path - 1][0] == "::":
            path -= 2
        if tokens[path - 1][0] in ("==", "!=") or is_pattern(tokens, brackets, at):
            continue
        if not stands_for_a_refusal(tokens, brackets, at):
            yield number


def is_large(words):
    """Whether an expression is more than anything here needs, as far as it shows that."""
    numbers = [int(word.replace("_", "").removesuffix("usize"), 0) for word in words if re.fullmatch(r"\d[\d_]*(usize)?|0x[\da-fA-F_]+", word)]
    shifts = any(pair == ("<", "<") for pair in zip(words, words[1:]))
    return shifts or bool({"MAX", "pow", "!"} & set(words)) or any(number > MOST_RESERVED for number in numbers)


def large_constants(text):
    return {name for name, words in CONSTANT.findall(code_of(text)) if is_large([word for word, _ in tokens_of(words)])}


def is_conditional(tokens, brackets, at):
    """Whether a call stands under a condition that is not on the capacity."""
    inside, _ = brackets
    while at is not None:
        behind, _, outer = side_of(tokens, brackets, at)
        if behind:
            return True
        statement = head_of(tokens, brackets, at)
        if {"&&", "||", "then"} & set(statement):
            return True
        at = inside[outer]
        if at is None:
            return False
        head = head_of(tokens, brackets, at)
        if "fn" in head:
            return False
        if {"if", "while", "else", "=>"} & set(head) and "capacity" not in head:
            return True
    return False


def room_made_up(tokens, brackets, constants):
    """Where room is asked for that nobody needs, or under a condition that is not about room."""
    for at, (word, number) in enumerate(tokens[:-1]):
        if not RESERVES.fullmatch(word):
            continue
        opened = at + 1
        while tokens[opened][0] != "(" and opened + 1 < len(tokens) and tokens[opened][0] in ("::", "<"):
            opened += 1
        asked = [it for it, _ in tokens[opened:brackets[1].get(opened, opened)]]
        if is_large(asked) or constants & set(asked):
            yield number
        elif word != "with_capacity" and tokens[at - 1][0] == "." and is_conditional(tokens, brackets, at):
            yield number


def made_up(text, constants=frozenset()):
    plain = blank(text)
    for form in (RENAMED, MADE):
        yield from (plain.count("\n", 0, match.start()) + 1 for match in form.finditer(plain))
    tokens = list(tokens_of(code_of(text)))
    brackets = brackets_of(tokens)
    yield from values_made_up(tokens, brackets)
    yield from room_made_up(tokens, brackets, constants | large_constants(text))


# Forms that are refused, and forms that are not.
EXAMPLES = [
    (True, "fn f() -> Result<u8, AllocError> {\n    Err(AllocError)\n}\n"),
    (True, "fn f() -> Result<u8, Fault> {\n    if long { return Err(Fault::Memory); }\n    Ok(1)\n}\n"),
    (True, "fn f() -> Result<u8, Fault> {\n    values.push(1).map_err(|_| Fault::Memory)\n}\n"),
    (True, "fn f() -> Result<u8, Fault> {\n    match g() { Ok(x) => Ok(x), Err(_) => Err(Fault::Memory) }\n}\n"),
    (True, "fn f() -> Result<u8, Fault> {\n    match g() { Err(Other::Memory) => Err(Fault::Line), Err(_) => Err(Fault::Memory) }\n}\n"),
    (True, "fn f() -> Result<(), Fault> {\n    match g() {\n        1 => a.push(x).map_err(|_| Fault::Memory),\n        _ => Ok(()),\n    }\n}\n"),
    (True, "fn f() -> Result<(), Fault> {\n    match g() {\n        Err(Fault::Memory) => {\n            Ok(())\n        }\n        _ => Err(Fault::Memory),\n    }\n}\n"),
    (True, "fn f() -> Result<(), Fault> {\n    match g() { Err(Fault::Long | Fault::Memory) => Err(AllocError), Ok(()) => Ok(()) }\n}\n"),
    (True, "fn from(why: Bad) -> Fault {\n    Fault::Memory\n}\n"),
    (True, "fn f() -> Result<(), Fault> {\n    match g() { Err(e) if e.kind() != ErrorKind::OutOfMemory => Err(Fault::Memory), _ => Ok(()) }\n}\n"),
    (True, "fn run(events: &[Event]) -> Result<(), Stopped> {\n    if events.len() > 100_000 { return Err(Stopped { done: 0 }); }\n    Ok(())\n}\n"),
    (True, "fn f() -> Result<(), Fault> {\n    if long { return Err(Fault::Stopped); }\n    Ok(())\n}\n"),
    (True, "impl Stopped {\n    fn early() -> Self {\n        Self { done: 0 }\n    }\n}\n"),
    (True, "#[derive(Clone, Default)]\npub struct Stopped {\n    pub done: usize,\n}\n"),
    (True, "use std::alloc::AllocError as Refused;\n"),
    (True, "use crate::fault::{Fault, Stopped as Early};\n"),
    (True, "use crate::Fault::Memory;\nfn f() -> Result<(), Fault> {\n    if long { return Err(Memory); }\n    Ok(())\n}\n"),
    (True, "type Refused = AllocError;\n"),
    (True, "fn f() -> Result<(), AllocError> {\n    if long { held.reserve(usize::MAX)?; }\n    Ok(())\n}\n"),
    (True, "fn f() -> Result<(), AllocError> {\n    held.reserve(usize::MAX)?;\n    Ok(())\n}\n"),
    (True, "const MANY: usize = 1 << 40;\nfn f() -> Result<(), AllocError> {\n    let held = Vec::<u8>::with_capacity(alloc, MANY)?;\n    Ok(())\n}\n"),
    (True, "fn f() -> Result<(), AllocError> {\n    let held = Vec::with_capacity(alloc, 9_000_000_000)?;\n    Ok(())\n}\n"),
    (True, "fn f() -> Result<(), AllocError> {\n    if events.len() > 7 { held.reserve(1)?; }\n    Ok(())\n}\n"),
    (True, "fn f() -> Result<(), AllocError> {\n    if short { g() } else { held.reserve(1)?; }\n    Ok(())\n}\n"),
    (True, "fn f() -> Result<(), AllocError> {\n    match kind { Kind::Long => held.reserve(1)?, Kind::Short => {} }\n    Ok(())\n}\n"),
    (True, "fn f() -> Result<(), AllocError> {\n    let ok = short || held.reserve(1).is_ok();\n    Ok(())\n}\n"),
    (True, "mod tests {\n    pub fn f() -> Result<(), AllocError> {\n        Err(AllocError)\n    }\n}\n"),
    (False, "fn f() -> Result<(), AllocError> {\n    for event in events { held.reserve(1)?; }\n    if held.len() == held.capacity() { held.reserve(8)?; }\n    Ok(())\n}\n"),
    (False, "fn f() -> Result<(), Stopped> {\n    match g() {\n        Ok(()) => {}\n        Err(AllocError) => return Err(Stopped { done }),\n    }\n    if let Err(Stopped { done }) = run() { h(done) }\n    Ok(())\n}\n"),
    (False, "pub struct Stopped {\n    pub done: usize,\n}\nimpl From<Stopped> for Fault {\n    fn from(_stopped: Stopped) -> Fault {\n        Fault::Stopped\n    }\n}\n"),
    (False, "fn f() -> Life {\n    match life { Life::Stopped => Life::Stopped, _ => Life::Ready }\n}\n"),
    (False, "enum Fault {\n    Line,\n    Memory,\n}\n"),
    (False, "fn f() -> Result<u8, AllocError> {\n    Ok(g(alloc)?)\n}\n"),
    (False, "fn from(_refused: AllocError) -> Fault {\n    Fault::Memory\n}\n"),
    (False, "fn f() -> Result<u8, AllocError> {\n    match g() {\n        Ok(x) => Ok(x),\n        Err(Fault::Memory) => Err(AllocError),\n        Err(_) => Ok(0),\n    }\n}\n"),
    (False, "fn f() {\n    match g() {\n        Err(AllocFailed { value }) => {\n            let chain = value;\n            Err((chain, Fault::Memory))\n        }\n    }\n}\n"),
    (False, "fn f()\n    ensures { x ≢ Err Fault.Memory }\n{\n    if fault == Fault::Memory { g() }\n}\n"),
]


# Paths that are looked at, and paths of tests.
LOOKED_AT = ["crates/sk_kernel/src/tests.rt", "crates/sk_kernel/src/test/held.rt", "crates/sk_kernel/src/new_tests/held.rt"]
PASSED_OVER = ["crates/sk_process_tests/src/kernel.rt"]


def on_tests():
    """The lines of crates.txt by which a crate stands on one of tests."""
    with open(os.path.join(ROOT, "crates.txt"), encoding="utf-8") as file:
        for line in file:
            name, _, uses = line.partition("#")[0].partition(":")
            if not name.strip().endswith("_tests") and any(use.endswith("_tests") for use in uses.split()):
                yield line.strip()


def sources():
    """The text of each source file that is no test's, by its path."""
    listed = subprocess.run(["git", "ls-files", "-co", "--exclude-standard", "crates/*/src/*.rt"], cwd=ROOT, capture_output=True, text=True, check=True)
    found = {}
    for path in sorted(set(listed.stdout.splitlines())):
        if os.path.isfile(os.path.join(ROOT, path)) and not TESTS.match(path):
            with open(os.path.join(ROOT, path), encoding="utf-8") as file:
                found[path] = file.read()
    return found


def problems_of_forms():
    """What is wrong with each form and path that stands above: nothing, where it is refused as it is to be."""
    for refused, text in EXAMPLES:
        wrong = bool(list(made_up(text))) != refused
        yield [f"this form is {'not ' if refused else ''}refused:\n{text}"] if wrong else []
    for path in LOOKED_AT + PASSED_OVER:
        wrong = bool(TESTS.match(path)) != (path in PASSED_OVER)
        yield [f"{path} is {'looked at' if path in PASSED_OVER else 'passed over'}"] if wrong else []
    yield [f"crates.txt: stands on a crate of tests: {line}" for line in on_tests()]


def main():
    texts = sources()
    constants = frozenset().union(*(large_constants(text) for text in texts.values()))
    found = list(problems_of_forms())
    for path, text in texts.items():
        found.append([f"{path}:{number}: makes it up that memory was refused" for number in sorted(set(made_up(text, constants)))])
    for problem in (it for problems in found for it in problems):
        print(problem)
    failed = sum(bool(problems) for problems in found)
    print(f"{len(found) - failed} passed, {failed} failed")
    return 1 if failed else 0


if __name__ == "__main__":
    sys.exit(main())
