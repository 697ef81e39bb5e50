"""What a policy's text says, told a second time: by the page on the language in docs/FORMATS.md, and not by skern's definitions. A
text is read into ranges of numbers with what is said of each, and a filter is made of them in the plainest way. So is a text of
expectations, in which `refused` and `performed` stand beside verdicts, and nothing is expected where nothing is said."""
import errno
import re
import struct
from typing import NamedTuple

# Names of calls and their numbers, by the headers of Linux.
HEADER = "/usr/include/x86_64-linux-gnu/asm/unistd_64.h"
AUDIT_X86_64 = 0xC000003E
ACTIONS = {
    "kill_process": 0x80000000, "kill_thread": 0, "trap": 0x30000, "errno": 0x50000, "user_notif": 0x7FC00000, "trace": 0x7FF00000,
    "log": 0x7FFC0000, "allow": 0x7FFF0000,
}
# What is expected in place of a verdict.
REFUSED, PERFORMED, ANYTHING = "refused", "performed", "anything"
X32_FIRST, X32_LAST = 0x40000000, 0xFFFFFFFE
LAST = 0xFFFFFFFF
ALL = (1 << 64) - 1
# Some constants of the headers, by the manual's pages of the calls that take them.
CONSTANTS = {
    "AF_UNIX": 1, "AF_INET": 2, "AF_INET6": 10, "AF_NETLINK": 16, "SOCK_STREAM": 1, "SOCK_DGRAM": 2, "SOCK_CLOEXEC": 0o2000000,
    "CLONE_NEWNS": 0x20000, "CLONE_NEWUSER": 0x10000000, "CLONE_NEWPID": 0x20000000, "CLONE_THREAD": 0x10000, "PROT_READ": 1,
    "PROT_WRITE": 2, "PROT_EXEC": 4, "MAP_SHARED": 1, "MAP_ANONYMOUS": 0x20, "O_RDONLY": 0, "O_WRONLY": 1, "O_RDWR": 2,
    "O_CREAT": 0o100, "PER_LINUX32": 8, "F_DUPFD": 0, "F_SETFD": 2, "PR_SET_NO_NEW_PRIVS": 38, "TIOCSTI": 0x5412,
}
PIECE = re.compile(r"[A-Za-z0-9_/\[\].-]+|&&|\|\||==|!=|<=|>=|\S")
RELATIONS = {
    "==": lambda a, b: a == b, "!=": lambda a, b: a != b, "<": lambda a, b: a < b, "<=": lambda a, b: a <= b,
    ">": lambda a, b: a > b, ">=": lambda a, b: a >= b,
}
TURNED = {"==": "==", "!=": "!=", "<": ">", "<=": ">=", ">": "<", ">=": "<="}


def call_names() -> dict[str, int]:
    with open(HEADER, encoding="ascii") as text:
        return {it[1]: int(it[2]) for it in re.finditer(r"#define __NR_(\w+) (\d+)", text.read())}


NAMES = call_names()
NAME_OF = {number: name for name, number in NAMES.items()}


class Wrong(Exception):
    """The text is no policy."""


class Bits(NamedTuple):
    register: str
    mask: int


class Comparison(NamedTuple):
    bits: Bits
    relation: str
    number: int


# A condition is `True`, `False`, a Comparison, or ("all" | "any", [conditions]).
Condition = object


class Said(NamedTuple):
    """What is said of the calls with some numbers."""

    first: int
    last: int
    cases: list[tuple[Condition, int]]
    otherwise: int


class Policy(NamedTuple):
    said: list[Said]
    others: int


class Call(NamedTuple):
    nr: int
    ip: int
    args: tuple[int, ...]

    def register(self, name: str) -> int:
        return {"nr": self.nr, "ip": self.ip}[name] if name in ("nr", "ip") else self.args[int(name[5])]


def is_number(word: str) -> bool:
    return re.fullmatch(r"0|[1-9][0-9]*|0x[0-9a-fA-F]+", word) is not None


def number_of(word: str) -> int:
    return int(word, 16 if word.startswith("0x") else 10)


class Reader:
    """Reads a condition from its words."""

    def __init__(self, words: list[str]):
        self.words = words
        self.at = 0

    def sees(self, ahead: int = 0) -> str:
        return self.words[self.at + ahead] if self.at + ahead < len(self.words) else ""

    def take(self, wanted: str | None = None) -> str:
        word = self.sees()
        if not word or (wanted is not None and word != wanted):
            raise Wrong(word)
        self.at += 1
        return word

    def part(self) -> int:
        word = self.take()
        if is_number(word):
            number = number_of(word)
            if number > ALL:
                raise Wrong(word)
            return number
        if word not in CONSTANTS:
            raise Wrong(word)
        return CONSTANTS[word]

    def value(self) -> int:
        if self.sees() != "(":
            return self.part()
        self.take("(")
        number = self.part()
        while self.sees() == "|":
            self.take("|")
            number |= self.part()
        self.take(")")
        return number

    def factor(self) -> int:
        if self.sees() != "~":
            return self.value()
        self.take("~")
        number = self.value()
        if number >= 1 << 31:
            raise Wrong("~")
        return ALL - number

    def register(self) -> str:
        word = self.take()
        if re.fullmatch(r"nr|ip|args\[[0-5]\]", word) is None:
            raise Wrong(word)
        return word

    def bits(self) -> Bits:
        if self.sees() != "(":
            return Bits(self.register(), ALL)
        self.take("(")
        register = self.register()
        mask = ALL
        self.take("&")
        mask &= self.factor()
        while self.sees() == "&":
            self.take("&")
            mask &= self.factor()
        self.take(")")
        return Bits(register, mask)

    def relation(self) -> str:
        word = self.take()
        if word not in RELATIONS:
            raise Wrong(word)
        return word

    def attempt(self, reads):
        before = self.at
        try:
            return reads()
        except Wrong:
            self.at = before
            return None

    def comparison(self) -> Comparison:
        bits = self.attempt(self.bits)
        if bits is not None:
            relation = self.relation()
            return Comparison(bits, relation, self.value())
        number = self.value()
        relation = TURNED[self.relation()]
        return Comparison(self.bits(), relation, number)

    def range(self) -> Condition:
        self.take("(")
        first = self.value()
        self.take("<=")
        bits = self.bits()
        self.take("&&")
        if self.bits() != bits:
            raise Wrong("a range of two sides")
        self.take("<=")
        last = self.value()
        self.take(")")
        return ("all", [Comparison(bits, ">=", first), Comparison(bits, "<=", last)])

    def bracketed(self) -> Condition:
        self.take("(")
        inside = self.alternatives()
        self.take(")")
        return inside

    def alternative(self) -> Condition:
        for reads in (self.comparison, self.range, self.bracketed):
            found = self.attempt(reads)
            if found is not None:
                return found
        raise Wrong(self.sees())

    def alternatives(self) -> Condition:
        found = [self.alternative()]
        while self.sees() == "||":
            self.take("||")
            found.append(self.alternative())
        return ("any", found)

    def condition(self) -> Condition:
        if self.words in (["0"], ["1"]):
            return self.words == ["1"]
        first = self.alternative()
        joined = self.sees()
        found = [first]
        while self.at < len(self.words):
            if joined not in ("&&", "||"):
                raise Wrong(joined)
            self.take(joined)
            found.append(self.alternative())
        return ("all" if joined == "&&" else "any", found)


def verdict(words: list[str], expects: bool = False) -> int | str:
    if not words:
        raise Wrong("no verdict")
    if expects and words in ([REFUSED], [PERFORMED]):
        return words[0]
    action, slash, data = words[0].partition("/")
    if action not in ACTIONS or (action == "errno" and not slash):
        raise Wrong(words[0])
    number = 0
    if slash and is_number(data):
        number = number_of(data)
    elif slash and action == "errno" and hasattr(errno, data):
        number = getattr(errno, data)
    elif slash:
        raise Wrong(words[0])
    if number > (4095 if action == "errno" else 65535):
        raise Wrong(words[0])
    if len(words) > 1 and (len(words) > 2 or action != "errno" or getattr(errno, words[1], None) != number):
        raise Wrong(words[-1])
    return ACTIONS[action] | number


def item(words: list[str]) -> tuple[int, int]:
    if not words or len(words) > 2:
        raise Wrong(" ".join(words))
    both = re.fullmatch(r"(\w+)-(\w+)", words[0])
    if both and is_number(both[1]) and is_number(both[2]):
        first, last = number_of(both[1]), number_of(both[2])
        if first > last or last > LAST or words[1:] not in ([], ["-"]):
            raise Wrong(words[-1])
        return first, last
    if is_number(words[0]):
        number = number_of(words[0])
        if number > LAST or (words[1:] and words[1] not in ("-", NAME_OF.get(number))):
            raise Wrong(words[-1])
        return number, number
    if words[0] not in NAMES or len(words) > 1:
        raise Wrong(words[-1])
    return NAMES[words[0]], NAMES[words[0]]


def calls(words: list[str]) -> list[tuple[int, int]]:
    found: list[list[str]] = [[]]
    for word in words:
        if word == ",":
            found.append([])
        else:
            found[-1].append(word)
    return [item(it) for it in found]


def sentences(text: str) -> list[tuple[bool, list[str]]]:
    """Each sentence's words, and whether it stands behind blanks."""
    found: list[tuple[bool, list[str]]] = []
    for line in text.split("\n"):
        words = PIECE.findall(line.partition("#")[0])
        if not words:
            continue
        if found and (found[-1][1][-1] == "," or words[0] in ("&&", "||")):
            found[-1][1].extend(words)
        else:
            found.append((line[0] in " \t\r", list(words)))
    return found


class Row:
    def __init__(self, numbers: list[tuple[int, int]], plain: int | None):
        self.numbers = numbers
        self.is_plain = plain is not None
        self.cases: list[tuple[Condition, int]] = []
        self.otherwise = plain


def read_case(row: Row | None, words: list[str], expects: bool) -> None:
    if row is None or row.is_plain or row.otherwise is not None:
        raise Wrong("a case")
    if words[-1] == "else" and "where" not in words:
        row.otherwise = verdict(words[:-1], expects)
        return
    if "where" not in words:
        raise Wrong(words[-1])
    at = words.index("where")
    row.cases.append((Reader(words[at + 1:]).condition(), verdict(words[:at], expects)))


def begins_verdict(word: str) -> bool:
    return word.partition("/")[0] in ACTIONS or word in (REFUSED, PERFORMED)


def read_row(words: list[str], expects: bool) -> Row:
    at = next((at for at, word in enumerate(words) if begins_verdict(word)), len(words))
    names, rest = words[:at], words[at:]
    if names and names[-1] == ":":
        names = names[:-1]
    return Row(calls(names), verdict(rest, expects) if rest else None)


def read(text: str, expects: bool = False) -> Policy:
    """What the text says, or with `expects` what it expects of verdicts."""
    rows: list[Row] = []
    single: dict[str, int] = {}
    row = None
    for is_case, words in sentences(text):
        if is_case:
            read_case(row, words, expects)
            continue
        if words[0] in ("default", "others"):
            if words[0] in single:
                raise Wrong(words[0])
            single[words[0]] = verdict(words[2 if words[1:2] == [":"] else 1:], expects)
            row = None
            continue
        row = read_row(words, expects)
        rows.append(row)
    for it in rows:
        if it.otherwise is None and not expects:
            raise Wrong("no else")
        it.otherwise = ANYTHING if it.otherwise is None else it.otherwise
    if expects:
        return whole(rows, single.get("default", ANYTHING), single.get("others", ANYTHING))
    return whole(rows, single.get("default"), single.get("others", ACTIONS["kill_process"]))


def whole(rows: list[Row], default: int | None, others: int) -> Policy:
    said = sorted((Said(first, last, it.cases, it.otherwise) for it in rows for first, last in it.numbers), key=lambda it: it.first)
    filled: list[Said] = []
    at = 0
    for it in [*said, Said(LAST + 1, LAST + 1, [], 0)]:
        if it.first < at:
            raise Wrong(f"{it.first} stands twice")
        for first, last, value in ((0, X32_FIRST - 1, default), (X32_FIRST, X32_LAST, others), (LAST, LAST, default)):
            low, high = max(at, first), min(it.first - 1, last)
            if low <= high:
                if value is None:
                    raise Wrong(f"no row has {low}")
                filled.append(Said(low, high, [], value))
        if it.first <= LAST:
            filled.append(it)
        at = it.last + 1
    return Policy(filled, others)


# ---- what is said of one call


def holds(it: Condition, call: Call) -> bool:
    if isinstance(it, bool):
        return it
    if isinstance(it, Comparison):
        return RELATIONS[it.relation](call.register(it.bits.register) & it.bits.mask, it.number)
    kind, inside = it
    return (all if kind == "all" else any)(holds(one, call) for one in inside)


def said_of(policy: Policy, call: Call) -> int | str:
    row = next(it for it in policy.said if it.first <= call.nr <= it.last)
    return next((value for condition, value in row.cases if holds(condition, call)), row.otherwise)


def performs(verdict: int) -> bool:
    """By seccomp(2) a call is made where the action is SECCOMP_RET_ALLOW or SECCOMP_RET_LOG."""
    return verdict & 0xFFFF0000 in (ACTIONS["allow"], ACTIONS["log"])


def meets(expected: int | str, verdict: int) -> bool:
    if expected in (REFUSED, PERFORMED):
        return performs(verdict) == (expected == PERFORMED)
    return expected in (ANYTHING, verdict)


# ---- the filter: one range behind the other

LOAD, AND, EQUAL, GREATER, AT_LEAST, JUMP, RETURN = 0x20, 0x54, 0x15, 0x25, 0x35, 0x05, 0x06
Code = list[tuple[int, int, int, int]]


def place(register: str) -> int:
    return {"nr": 0, "ip": 8}[register] if register in ("nr", "ip") else 16 + 8 * int(register[5])


def goes(held: int, failed: int) -> Code:
    """Behind a comparison that falls into the first where it holds and into the second where it does not."""
    return [(JUMP, 0, 0, 1 + held), (JUMP, 0, 0, failed)]


def compare(it: Comparison, held: int, failed: int) -> Code:
    at, relation = place(it.bits.register), it.relation
    if relation in ("!=", "<", "<="):
        return compare(Comparison(it.bits, {"!=": "==", "<": ">=", "<=": ">"}[relation], it.number), failed, held)
    low = [(LOAD, 0, 0, at), (AND, 0, 0, it.bits.mask & LAST)]
    low += [({"==": EQUAL, ">": GREATER, ">=": AT_LEAST}[relation], 0, 1, it.number & LAST), *goes(held, failed)]
    above = it.number >> 32
    if it.bits.register == "nr":
        high = [(LOAD, 0, 0, 0), (AND, 0, 0, 0)]
    else:
        high = [(LOAD, 0, 0, at + 4), (AND, 0, 0, it.bits.mask >> 32)]
    if relation == "==":
        return [*high, (EQUAL, 1, 0, above), (JUMP, 0, 0, len(low) + failed), *low]
    return [*high, (GREATER, 0, 1, above), (JUMP, 0, 0, 2 + len(low) + held), (EQUAL, 1, 0, above), (JUMP, 0, 0, len(low) + failed), *low]


def ask(it: Condition, held: int, failed: int) -> Code:
    if isinstance(it, bool):
        return [(JUMP, 0, 0, held if it else failed)]
    if isinstance(it, Comparison):
        return compare(it, held, failed)
    kind, inside = it
    code: Code = []
    for at, one in enumerate(reversed(inside)):
        last = at == 0
        if kind == "all":
            code = [*ask(one, held if last else 0, (0 if last else len(code)) + failed), *code]
        else:
            code = [*ask(one, (0 if last else len(code)) + held, failed if last else 0), *code]
    return code


def answers(it: Said) -> Code:
    code: Code = [(RETURN, 0, 0, it.otherwise)]
    for condition, value in reversed(it.cases):
        code = [*ask(condition, 0, 1), (RETURN, 0, 0, value), *code]
    return code


def program(policy: Policy) -> Code:
    """The filter: the architecture, then each range by its last number."""
    code: Code = [(LOAD, 0, 0, 4), (EQUAL, 1, 0, AUDIT_X86_64), (RETURN, 0, 0, policy.others)]
    for it in policy.said:
        inside = answers(it)
        code += [(LOAD, 0, 0, 0), (GREATER, 0, 1, it.last), (JUMP, 0, 0, len(inside)), *inside]
    return [*code, (RETURN, 0, 0, 0)]


def image(code: Code) -> bytes:
    return b"".join(struct.pack("<HBBI", *it) for it in code)
