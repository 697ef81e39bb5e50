"""Chains of filters that make it dear to say under which conditions their verdicts come, the same at each run.

A chain has eight filters, as long as the path limit lets them be: they part the calls at as many instructions as there is
room for, on both sides of each, and end with one of two values. No answer can follow all their ways."""
import random
import struct

LONGEST, EIGHT = 4096, 8
# A filter costs 4 instructions beside its own, and the newest of a chain comes in without them.
SHORTER = 4 * (EIGHT - 1)
ALLOW, ERRNO = 0x7FFF0000, 0x00050000
LOAD, CONSTANT, STORE, LOAD_STORED, TO_INDEX, RETURN = 0x20, 0x00, 0x02, 0x60, 0x07, 0x06
AND, ADD, OR = 0x54, 0x04, 0x44
EQUAL, ABOVE, FROM, COMMON, EQUAL_INDEX = 0x15, 0x25, 0x35, 0x45, 0x1D
NUMBER, ARGUMENTS, WORDS = 0, range(16, 64, 4), range(16)


def insn(code, k=0, jt=0, jf=0):
    return struct.pack("<HBBI", code, jt, jf, k)


def load(dice):
    """Some word of the arguments."""
    return insn(LOAD, dice.choice(ARGUMENTS))


def filled(length, dice, start, step):
    """The start, and as many steps as there is room for, each of which goes on behind itself on both sides; then a test
    with a value on either side."""
    last = [load(dice), insn(COMMON, 1 << dice.randrange(32), 0, 1), insn(RETURN, ERRNO + dice.randrange(1, 40)), insn(RETURN, ALLOW)]
    image = list(start)
    more = step()
    while len(image) + len(more) + len(last) <= length:
        image += more
        more = step()
    image += [load(dice) for _ in range(length - len(image) - len(last))]
    return b"".join(image + last)


def equalities(length, dice):
    """One word is compared with another number at each instruction."""
    return filled(length, dice, [load(dice)], lambda: [insn(EQUAL, dice.getrandbits(32))])


def bits(length, dice):
    """Single bits of all words."""
    return filled(length, dice, [], lambda: [load(dice), insn(COMMON, 1 << dice.randrange(32))])


def masks(length, dice):
    """Masked words, compared with few numbers."""
    return filled(length, dice, [], lambda: [load(dice), insn(AND, dice.getrandbits(32)), insn(EQUAL, dice.getrandbits(8))])


def stored_words(length, dice):
    """Words that are stored on one side of a test, loaded again and tested."""
    start = [it for word in WORDS for it in (load(dice), insn(STORE, word))]
    return filled(length, dice, start, lambda: [
        load(dice), insn(EQUAL, dice.getrandbits(32), 0, 1), insn(STORE, dice.choice(WORDS)), insn(LOAD_STORED, dice.choice(WORDS)),
        insn(COMMON, dice.getrandbits(32))])


def stored_constants(length, dice):
    """Constants that are stored on one side of a test alone."""
    start = [insn(STORE, word) for word in WORDS]
    return filled(length, dice, start, lambda: [
        load(dice), insn(EQUAL, dice.getrandbits(32), 0, 2), insn(CONSTANT, dice.getrandbits(32)), insn(STORE, dice.choice(WORDS))])


def far_jumps(length, dice):
    """Jumps that lead up to 255 instructions on, so that ways from many places meet at each one."""
    image = []
    for place in range(length - 4):
        room = min(255, length - 5 - place)
        test = insn(dice.choice([EQUAL, ABOVE, FROM, COMMON]), dice.getrandbits(32), dice.randint(0, room), dice.randint(0, room))
        image.append(test if place % 2 else load(dice))
    return filled(length, dice, image, lambda: [load(dice)])


def calculations(length, dice):
    """Sums and the index register, which are not followed."""
    return filled(length, dice, [], lambda: [
        load(dice), insn(dice.choice([ADD, OR]), dice.getrandbits(32)), insn(TO_INDEX), load(dice), insn(EQUAL_INDEX)])


def numbers(length, dice):
    """The number of the call, compared with another one each time, between words of the arguments."""
    return filled(length, dice, [], lambda: [insn(LOAD, NUMBER), insn(EQUAL, dice.getrandbits(32)), load(dice), insn(EQUAL, dice.getrandbits(32))])


def open_words(length, dice):
    """Three bits of one word, which are not those: which words are left is hard to say."""
    word = dice.choice(ARGUMENTS)

    def step():
        mask = sum({1 << dice.randrange(32) for _ in range(3)})
        return [insn(LOAD, word), insn(AND, mask), insn(EQUAL, mask & dice.getrandbits(32), 0, 1), insn(RETURN, ERRNO + 1)]
    return filled(length, dice, [], step)


KINDS = {it.__name__: it for it in (
    equalities, bits, masks, stored_words, stored_constants, far_jumps, calculations, numbers, open_words)}


def hostile_chain(kind, seed=0):
    """The images of eight filters of a kind, the oldest first."""
    dice = random.Random(f"{kind} {seed}")
    return [KINDS[kind](length, dice) for length in [LONGEST] * (EIGHT - 1) + [LONGEST - SHORTER]]
