"""Random texts of policies and of expectations: each spelling of a row, a verdict and a condition comes up."""
import random
import re

from policies import ALL, CONSTANTS, LAST, NAME_OF, NAMES, PERFORMED, REFUSED, Call, performs, verdict

NUMBERS = (0, 1, 2, 3, 7, 8, 0x10, 0xFF, 0x1000, 0x7FFFFFFF, 0x80000000, 0xFFFFFFFF, 0x100000000, 0x8000000000000000, (1 << 64) - 1)
VERDICTS = (
    "allow", "allow", "allow", "log", "kill_process", "kill_thread", "trap", "trap/5", "trace/7", "user_notif", "errno/EPERM", "errno/1",
    "errno/1 EPERM", "errno/38 ENOSYS", "errno/0", "errno/0x5f", "errno/11 EAGAIN", "log/3", "allow/65535",
)
RELATIONS = ("==", "==", "==", "!=", "<", "<=", ">", ">=")


def number(dice: random.Random) -> str:
    value = dice.choice(NUMBERS) if dice.random() < 0.8 else dice.getrandbits(dice.choice((8, 32, 64)))
    return dice.choice((str(value), hex(value)))


def part(dice: random.Random) -> str:
    return dice.choice(list(CONSTANTS)) if dice.random() < 0.3 else number(dice)


def value(dice: random.Random) -> str:
    if dice.random() < 0.8:
        return part(dice)
    return "(" + dice.choice(("|", " | ")).join(part(dice) for _ in range(dice.randint(1, 3))) + ")"


def factor(dice: random.Random) -> str:
    if dice.random() < 0.8:
        return value(dice)
    return "~" + dice.choice(("0x7", "0", "CLONE_NEWNS", "(PROT_READ|PROT_EXEC)", "(0x7fffffff)"))


def bits(dice: random.Random) -> str:
    register = dice.choice(("nr", "ip", "args[0]", "args[0]", "args[1]", "args[2]", "args[5]"))
    if dice.random() < 0.6:
        return register
    return f"({register} & {' & '.join(factor(dice) for _ in range(dice.choice((1, 1, 1, 2))))})"


def comparison(dice: random.Random) -> str:
    sides = [bits(dice), value(dice)]
    dice.shuffle(sides)
    blank = dice.choice((" ", " ", ""))
    return f"{sides[0]}{blank}{dice.choice(RELATIONS)}{blank}{sides[1]}"


def span(dice: random.Random) -> str:
    side = bits(dice)
    return f"({value(dice)} <= {side} && {side} <= {value(dice)})"


def alternative(dice: random.Random, depth: int) -> str:
    roll = dice.random()
    if depth == 0 or roll < 0.7:
        return comparison(dice)
    return span(dice) if roll < 0.85 else f"({alternatives(dice, depth - 1)})"


def alternatives(dice: random.Random, depth: int) -> str:
    return " || ".join(alternative(dice, depth) for _ in range(dice.randint(1, 3)))


def condition(dice: random.Random) -> str:
    roll = dice.random()
    if roll < 0.05:
        return dice.choice("01")
    if roll < 0.5:
        return alternatives(dice, 2)
    return " && ".join(alternative(dice, 2) for _ in range(dice.randint(2, 3)))


def item(dice: random.Random, nr: int) -> str:
    spelled = [str(nr), f"{nr} -", hex(nr), f"{nr}-{nr}"]
    if nr in NAME_OF and NAMES[NAME_OF[nr]] == nr:
        spelled += [NAME_OF[nr]] * 3 + [f"{nr} {NAME_OF[nr]}"]
    return dice.choice(spelled)


def items(dice: random.Random, taken: set[int]) -> str:
    found = []
    for _ in range(dice.choice((1, 1, 1, 2, 4))):
        nr = dice.choice((dice.randrange(480), dice.randrange(480), 0x40000000 + dice.randrange(600), 0xFFFFFFFF, dice.getrandbits(32)))
        if nr not in taken:
            taken.add(nr)
            found.append(item(dice, nr))
    if dice.random() < 0.1 and 600 not in taken:
        taken.update(range(600, 700))
        found.append(dice.choice(("600-699", "0x258-699 -")))
    return dice.choice((", ", ",", ",\n  ")).join(found)


def row(dice: random.Random, taken: set[int]) -> str:
    who = items(dice, taken)
    if not who:
        return ""
    colon = dice.choice(("", ":", " :"))
    remark = dice.choice(("", "", "   # why, and since when"))
    if dice.random() < 0.5:
        return f"{who}{colon} {dice.choice(VERDICTS)}{remark}\n"
    cases = [f"  {dice.choice(VERDICTS)} where {condition(dice)}" for _ in range(dice.choice((1, 1, 2, 3)))]
    broken = [it.replace(" || ", "\n      || ", 1) if dice.random() < 0.2 else it for it in cases]
    return "\n".join([who + colon + remark, *broken, f"\t{dice.choice(VERDICTS)} else", ""])


def policy(dice: random.Random) -> str:
    taken: set[int] = set()
    rows = [row(dice, taken) for _ in range(dice.randint(1, 8))]
    rows.insert(dice.randrange(len(rows) + 1), f"default {dice.choice(VERDICTS)}\n")
    if dice.random() < 0.5:
        rows.insert(dice.randrange(len(rows) + 1), f"others: {dice.choice(VERDICTS)}\n")
    return dice.choice(("", "# A policy.\n\n")) + dice.choice(("", "\n")).join(rows)


WRITTEN = re.compile(r"\b(?:allow|log|kill_process|kill_thread|trap|trace|user_notif|errno)\b(?:/\w+)?(?: E[A-Z]+\b)?")


def expected(dice: random.Random, written: str, wrong: float) -> str:
    """What may be expected where a policy has this verdict: of the wrong ones so many."""
    if dice.random() < wrong:
        return dice.choice((*VERDICTS, REFUSED, PERFORMED))
    does = PERFORMED if performs(verdict(written.split())) else REFUSED
    return dice.choice((written, does, does))


def expectations(dice: random.Random, text: str) -> str:
    """Expectations of a policy with this text: half of the texts expect nothing else than what it says."""
    wrong = dice.choice((0, 0.1))
    said = WRITTEN.sub(lambda it: expected(dice, it[0], wrong), text)
    lines = [it for it in said.splitlines() if not (it.startswith(("default", "others")) or it.endswith(" else")) or dice.random() < 0.6]
    return "\n".join([*lines, ""])


def calls(dice: random.Random, numbers: list[int], count: int) -> list[Call]:
    """Calls with these numbers and their neighbours, by the numbers that conditions have, and those beside them."""
    words = [*NUMBERS, *CONSTANTS.values()]

    def word() -> int:
        return (dice.choice(words) | dice.choice((0, 0, *words))) + dice.choice((-1, 0, 0, 0, 1)) & ALL

    return [
        Call((dice.choice(numbers) + dice.choice((-1, 0, 0, 0, 1))) & LAST, word(), tuple(word() for _ in range(6))) for _ in range(count)
    ]


def spoiled(dice: random.Random, text: str) -> str:
    """The text with a word or a sign too many, too few, or another one."""
    words = text.split(" ")
    at = dice.randrange(len(words))
    kind = dice.random()
    if kind < 0.4:
        del words[at]
    elif kind < 0.7:
        words.insert(at, dice.choice(("&&", "||", "(", ")", ",", "else", "where", "allow", "0", "args[6]", "~", "|", "&", "x", "read")))
    else:
        words[at] = words[at][:-1] if words[at] else "="
    return " ".join(words)
