"""Random profiles as container runtimes have them, for x86-64, x32 and i386, what they say of a call, and calls at the borders of
what they compare.

The values stand at the borders of 32 and 64 bits on purpose. What a profile says is told as runc goes through it: which rules
it gives to libseccomp (matchCall of libcontainer/seccomp/seccomp_linux.go), what libseccomp keeps of them for each architecture
(seccomp_rule_add(3), seccomp_arch_add(3)), and what runc has stand before the filter (libcontainer/seccomp/patchbpf/
enosys_linux.go). runc 1.1.5 with libseccomp 2.5.4 was seen to do so. In three places libseccomp does not mean its rules, and what
docs/LINUX.md promises is told instead: the strictest verdict where socketcall(2) or ipc(2) may be a call whose rules ask for
arguments, sixteen bits of the first argument of ipc(2), and conditions that compare all of what they name."""
import json
import random
from typing import NamedTuple

MOST, HALF = 2**64 - 1, 2**32 - 1
FIRST_X32, LAST_X32 = 0x40000000, 0xFFFFFFFE
# The numbers of calls on x86-64, x32 without its bit, and i386, by asm/unistd_64.h, unistd_x32.h and unistd_32.h of Linux 6.12.
NUMBERS: dict[str, tuple[int | None, int | None, int | None]] = {
    "read": (0, 0, 3), "write": (1, 1, 4), "open": (2, 2, 5), "close": (3, 3, 6), "clone": (56, 56, 120), "fork": (57, 57, 2),
    "uselib": (134, None, 86), "personality": (135, 135, 136), "futex": (202, 202, 240), "vserver": (236, None, 273),
    "pidfd_open": (434, 434, 434), "rt_sigaction": (13, 512, 174), "ioctl": (16, 514, 54), "execve": (59, 520, 11),
    "readv": (19, 515, 145), "ptrace": (101, 521, 26), "arch_prctl": (158, 158, 384), "chown32": (None, None, 212),
    "mmap2": (None, None, 192), "waitpid": (None, None, 7), "socketcall": (None, None, 102), "ipc": (None, None, 117),
    "socket": (41, 41, 359), "connect": (42, 42, 362), "accept": (43, 43, None), "accept4": (288, 288, 364),
    "sendto": (44, 44, 369), "sendmsg": (46, 518, 370), "recvmmsg": (299, 537, 337), "send": (None, None, None),
    "recv": (None, None, None), "semget": (64, 64, 393), "semop": (65, 65, None), "semtimedop": (220, 220, None),
    "shmat": (30, 30, 397), "msgctl": (71, 71, 402), "shmctl": (31, 31, 396),
}
# Calls that x86-64 has.
NATIVE = ("read", "write", "open", "close", "clone", "fork", "uselib", "personality", "futex", "vserver", "pidfd_open")
X86_64, X32, I386 = "x86-64", "x32", "i386"
NAMES: dict[str, dict[str, int]] = {
    X86_64: {name: it[0] for name, it in NUMBERS.items() if it[0] is not None},
    X32: {name: it[1] | FIRST_X32 for name, it in NUMBERS.items() if it[1] is not None},
    I386: {name: it[2] for name, it in NUMBERS.items() if it[2] is not None},
}
# What linux/audit.h has for them, and for some others: aarch64, arm, the word that libseccomp has for x32, and none.
AUDIT = {X86_64: 0xC000003E, X32: 0xC000003E, I386: 0x40000003}
FOREIGN = [0xC00000B7, 0x40000028, 0x4000003E, 0]
LISTED = {X86_64: "SCMP_ARCH_X86_64", X32: "SCMP_ARCH_X32", I386: "SCMP_ARCH_X86"}
# What i386 has one number for, by the first argument: linux/net.h and linux/ipc.h. Linux takes 32 bits of it for socketcall(2), and
# 16 for ipc(2): the others are a version.
SOCKETS = {"socket": 1, "connect": 3, "accept": 5, "send": 9, "recv": 10, "sendto": 11, "sendmsg": 16, "accept4": 18, "recvmmsg": 19}
IPCS = {"semop": 1, "semget": 2, "semtimedop": 4, "msgctl": 14, "shmat": 21, "shmctl": 24}
ONE_OF_SEVERAL = {**{it: ("socketcall", at, HALF) for it, at in SOCKETS.items()}, **{it: ("ipc", at, 0xFFFF) for it, at in IPCS.items()}}
VALUES = [
    0, 1, 2, 5, 7, 8, 0xFF, 0x100, 0xFFFF, 0x7FFFFFFF, 0x80000000, 0xFFFFFFFE, 0xFFFFFFFF, 0x100000000, 0x100000001, 0x200000005,
    0x1FFFFFFFF, 0xFFFFFFFF00000000, 0x8000000000000000, MOST - 1, MOST,
]
MASKS = [*VALUES, 3, 0xF0, 0x7E020000]
# Actions with their errors, and the value that a filter returns for them. The first four stand in rules.
ACTIONS = {
    ("SCMP_ACT_ALLOW", None): 0x7FFF0000, ("SCMP_ACT_ERRNO", 1): 0x50001, ("SCMP_ACT_ERRNO", 5): 0x50005,
    ("SCMP_ACT_ERRNO", 38): 0x50026, ("SCMP_ACT_KILL_PROCESS", None): 0x80000000, ("SCMP_ACT_TRAP", None): 0x30000,
    ("SCMP_ACT_LOG", None): 0x7FFC0000, ("SCMP_ACT_TRACE", 65535): 0x7FF0FFFF,
}
OF_RULES = list(ACTIONS)[:4]
# By seccomp(2), the strictest action first.
PRECEDENCE = [0x80000000, 0, 0x30000, 0x50000, 0x7FC00000, 0x7FF00000, 0x7FFC0000, 0x7FFF0000]
TESTS = {
    "SCMP_CMP_EQ": lambda found, value, _: found == value,
    "SCMP_CMP_NE": lambda found, value, _: found != value,
    "SCMP_CMP_LT": lambda found, value, _: found < value,
    "SCMP_CMP_LE": lambda found, value, _: found <= value,
    "SCMP_CMP_GT": lambda found, value, _: found > value,
    "SCMP_CMP_GE": lambda found, value, _: found >= value,
    "SCMP_CMP_MASKED_EQ": lambda found, mask, value: found & mask == value,
}
KILL_THREAD = 0
# What runc answers to a number that it knows no call of, and the defaults at which it does not.
NO_CALL, PERFORMED = 0x50026, ("SCMP_ACT_ALLOW", "SCMP_ACT_LOG", "SCMP_ACT_TRACE")


class Condition(NamedTuple):
    index: int
    op: str
    value: int
    value_two: int

    def holds(self, args: tuple[int, ...], is_narrow: bool = False) -> bool:
        """Registers of i386 have 32 bits, and libseccomp looks at no more of those of x32."""
        return TESTS[self.op](args[self.index] & (HALF if is_narrow else MOST), self.value, self.value_two)

    def near(self, dice: random.Random) -> int:
        """A number that the condition is true of, or one beside such a number."""
        if self.op == "SCMP_CMP_MASKED_EQ":
            return (self.value_two | dice.getrandbits(64) & ~self.value) ^ dice.choice([0, 0, 1 << dice.randrange(64)])
        return (self.value + dice.choice([-1, 0, 0, 1])) & MOST

    def entry(self) -> dict:
        return {"index": self.index, "value": self.value, "valueTwo": self.value_two, "op": self.op}


class Rule(NamedTuple):
    name: str
    action: tuple[str, int | None]
    conditions: tuple[Condition, ...]

    def entry(self) -> dict:
        action, number = self.action
        made: dict = {"names": [self.name], "action": action, "args": [it.entry() for it in self.conditions]}
        return made if number is None else {**made, "errnoRet": number}


class Kept(NamedTuple):
    """What stands for a rule in the filter of an architecture."""

    value: int
    conditions: tuple[Condition, ...]
    is_narrow: bool

    def fits(self, args: tuple[int, ...]) -> bool:
        return all(it.holds(args, self.is_narrow) for it in self.conditions)


def strictest(values: list[int]) -> int:
    return min(values, key=lambda it: PRECEDENCE.index(it & 0xFFFF0000))


class Profile(NamedTuple):
    default: tuple[str, int | None]
    rules: tuple[Rule, ...]
    listed: tuple[str, ...] = (X86_64,)
    runc: bool = False
    native: bool = False

    def document(self) -> dict:
        action, number = self.default
        made: dict = {"defaultAction": action} if number is None else {"defaultAction": action, "defaultErrnoRet": number}
        return {**made, "architectures": [LISTED[it] for it in self.listed], "syscalls": [it.entry() for it in self.rules]}

    def text(self) -> str:
        return json.dumps(self.document())

    def architectures(self) -> tuple[str, ...]:
        """Those that the filter has calls of: with --native it is as if nothing else were listed."""
        return (X86_64,) if self.native else self.listed

    def given(self) -> list[Rule]:
        """The rules that runc gives to libseccomp: it skips a redundant one, whose action and number are the default's."""
        return [it for it in self.rules if ACTIONS[it.action] != ACTIONS[self.default]]

    def unseen(self, name: str) -> int:
        """What is said of a call where its arguments are out of sight: the plain rule of its name, and else the strictest."""
        its = [it for it in self.given() if it.name == name]
        plain = next((it for it in its if not it.conditions), None)
        return ACTIONS[plain.action] if plain else strictest([ACTIONS[it] for it in (self.default, *(it.action for it in its))])

    def several(self, call: str) -> list[Kept]:
        """What socketcall(2) or ipc(2) is for the names that it stands for."""
        names = dict.fromkeys(it.name for it in self.given() if ONE_OF_SEVERAL.get(it.name, ("", 0, 0))[0] == call)
        rows = ((it, *ONE_OF_SEVERAL[it][1:]) for it in names)
        return [Kept(self.unseen(it), (Condition(0, "SCMP_CMP_MASKED_EQ", mask, at),), True) for it, at, mask in rows]

    def kept(self, architecture: str, number: int) -> list[Kept]:
        """What libseccomp keeps for a number. A rule for all calls takes the place of those with conditions, and the first one
        stays. A name is looked up on the machine, and taken to each architecture that has it."""
        names = NAMES[architecture]
        is_narrow = architecture != X86_64
        its = [Kept(ACTIONS[it.action], it.conditions, is_narrow) for it in self.given() if names.get(it.name) == number]
        for call in ("socketcall", "ipc"):
            if names.get(call) == number:
                its += self.several(call)
        plain = next((it for it in its if not it.conditions), None)
        return [plain] if plain else its

    def last_call(self, architecture: str) -> int:
        """The greatest number of a named call, by which runc has the numbers above it fail, or 0: also of the rules that it
        skips. libseccomp has negative numbers for what socketcall(2) and ipc(2) stand for on i386: these are not the greatest."""
        names = {it.name for it in self.rules} - (set(ONE_OF_SEVERAL) if architecture == I386 else set())
        return max((NAMES[architecture][it] for it in names if it in NAMES[architecture]), default=0)

    def of_number(self, audit: int, number: int) -> str | None:
        """The architecture that runc takes a number for, by bit 30 on x86-64."""
        found = X32 if audit == AUDIT[X86_64] and number & FIRST_X32 else next((it for it in (X86_64, I386) if AUDIT[it] == audit), None)
        return found if found in self.architectures() else None

    def is_unknown(self, audit: int, number: int) -> bool:
        """Whether runc has the call fail by itself."""
        architecture = self.of_number(audit, number)
        if not self.runc or self.default[0] in PERFORMED or architecture is None:
            return False
        return 0 < self.last_call(architecture) < number

    def says(self, audit: int, number: int, args: tuple[int, ...]) -> int:
        """The value that a filter is to return for this call. libseccomp has one section for x86-64 and x32; without x32 it ends
        what has one of its numbers, but for -1, by which a tracer passes over a call."""
        if self.is_unknown(audit, number):
            return NO_CALL
        its = [it for it in self.architectures() if AUDIT[it] == audit]
        if not its or (X32 not in its and audit == AUDIT[X86_64] and FIRST_X32 <= number <= LAST_X32):
            return KILL_THREAD
        kept = (it for architecture in its for it in self.kept(architecture, number))
        return next((it.value for it in kept if it.fits(args)), ACTIONS[self.default])


def condition(dice: random.Random, index: int) -> Condition:
    op = dice.choice([*TESTS, "SCMP_CMP_EQ"])
    if op != "SCMP_CMP_MASKED_EQ":
        return Condition(index, op, dice.choice(VALUES), 0)
    mask = dice.choice(MASKS)
    return Condition(index, op, mask, dice.choice(VALUES) & mask)


def rule(dice: random.Random, name: str, default: tuple[str, int | None]) -> Rule:
    indexes = sorted(dice.sample(range(6), dice.choice([0, 1, 1, 1, 2, 2, 3])))
    return Rule(name, dice.choice([*OF_RULES, default]), tuple(condition(dice, it) for it in indexes))


def profile(dice: random.Random, names: tuple[str, ...] = NATIVE) -> Profile:
    """Some of these calls, with some rules each. Two of them may contradict each other."""
    chosen = dice.sample(names, dice.randint(1, 5))
    default = dice.choice(list(ACTIONS))
    return Profile(default, tuple(rule(dice, it, default) for it in chosen for _ in range(dice.randint(1, 5))))


def several(dice: random.Random) -> Profile:
    """A profile that lists x32, i386, both or neither beside x86-64, for runc or not, and sometimes for x86-64 alone."""
    others = dice.sample([X32, I386], dice.choice([0, 1, 1, 2, 2, 2]))
    listed = dice.sample([X86_64, *others], 1 + len(others))
    return profile(dice, tuple(NUMBERS))._replace(listed=tuple(listed), runc=dice.random() < 0.5, native=dice.random() < 0.1)


def numbers_of(name: str) -> list[tuple[int, int]]:
    """The calls that a name is on each architecture, with those that stand for it."""
    found = [(AUDIT[it], NAMES[it][name]) for it in NAMES if name in NAMES[it]]
    call = ONE_OF_SEVERAL.get(name)
    return found + ([(AUDIT[I386], NAMES[I386][call[0]])] if call else [])


def arguments(dice: random.Random, it: Rule) -> tuple[int, ...]:
    """Arguments at the borders of a rule's conditions; the first may choose among several calls, with bits that Linux drops."""
    args = [dice.choice([*VALUES, dice.getrandbits(64)]) for _ in range(6)]
    for asked in it.conditions:
        if dice.random() < 0.8:
            args[asked.index] = asked.near(dice)
    call = ONE_OF_SEVERAL.get(it.name)
    if call and dice.random() < 0.5:
        args[0] = (call[1] + dice.choice([0, 0, 0, 1])) | dice.choice([0, 0, 1 << 16, 1 << 31, 1 << 32, MOST << 32 & MOST])
    # What i386 and x32 do not look at.
    if dice.random() < 0.3:
        args = [found & HALF | dice.getrandbits(32) << 32 for found in args]
    return tuple(args)


def calls(given: Profile, dice: random.Random) -> list[tuple[int, int, tuple[int, ...]]]:
    """Calls of each rule, at the borders of its conditions, and of numbers at borders, each with its architecture's word."""
    found = [(audit, number, arguments(dice, it)) for it in given.rules for _ in range(4) for audit, number in numbers_of(it.name)]
    named = [it for names in NAMES.values() for it in names.values()]
    numbers = [*named, *(it + 1 for it in named), 600, 1023, 1024, FIRST_X32 - 1, FIRST_X32, 2 * FIRST_X32 - 1, 2 * FIRST_X32]
    numbers += [3 * FIRST_X32 - 1, 3 * FIRST_X32, LAST_X32, LAST_X32 + 1, *(given.last_call(it) + 1 for it in NAMES)]
    found += [(audit, it, tuple(dice.choice(VALUES) for _ in range(6))) for it in numbers for audit in (AUDIT[X86_64], AUDIT[I386])]
    return found + [(audit, it, (0,) * 6) for audit in FOREIGN for it in dice.sample(numbers, 10)]
