#!/usr/bin/env python3
"""filters.py: asks the library of skern.h about filters in files, with the words and the answers of filters.c, by skern.py.

The library is the shared object that LIBSKERN names, and else libskern.so where the system looks for libraries."""
import os
import sys
from collections.abc import Callable

sys.dont_write_bytecode = True

from skern import NO_MEMORY, PATH_LIMIT, SPENT, UNFOLLOWED, Call, Library, Refused

MOST_FILTERS, CALL = 32, 64
YES, NO, TROUBLE = 0, 1, 2
USAGE = "usage: filters check FILE.. | verdict CALLS FILE.. | compare [--stricter] OLD NEW | profile FILE | policy FILE | lint FILE.."


class Trouble(Exception):
    """Why there is no answer: a line, and lines below it."""


def contents(path: str) -> bytes:
    try:
        with open(path, "rb") as file:
            return file.read()
    except OSError as why:
        raise Trouble(f"{path}: {why.strerror}") from why


def chain_of(paths: list[str]) -> list[bytes]:
    """The filters of files, the oldest first."""
    if len(paths) > MOST_FILTERS:
        raise Trouble("there are more than 32 files")
    return [contents(it) for it in paths]


def call_of(seen: bytes) -> Call:
    """A call from the bytes of its struct seccomp_data."""
    words = [int.from_bytes(seen[at:at + size], "little") for at, size in ((0, 4), (4, 4), *((at, 8) for at in range(8, CALL, 8)))]
    return Call(words[0], tuple(words[3:]), words[1], words[2])


def no_answer(why: Refused, paths: list[list[str]]) -> Trouble:
    """Only what is wrong with a filter names its file."""
    if why.reason <= PATH_LIMIT:
        return Trouble(f"{paths[why.chain][why.filter]}: refused {why.reason} {why.text} at {why.place}")
    return Trouble(why.text)


def check(library: Library, paths: list[str]) -> int:
    status = YES
    for path in paths:
        image = contents(path)
        try:
            library.check(image)
            print(f"{path}: ok {len(image) // 8}")
        except Refused as why:
            print(f"{path}: refused {why.reason} {why.text} at {why.place}")
            status = NO
    return status


def verdict(library: Library, words: list[str]) -> int:
    seen, paths = contents(words[0]), words[1:]
    if not seen or len(seen) % CALL:
        raise Trouble("there are no calls")
    try:
        values = library.verdicts(chain_of(paths), [call_of(seen[at:at + CALL]) for at in range(0, len(seen), CALL)])
    except Refused as why:
        raise no_answer(why, [paths]) from why
    print("".join(f"0x{it:08x}\n" for it in values), end="")
    return YES


def compare(library: Library, words: list[str]) -> int:
    stricter = len(words) == 3
    old, new = paths = words[stricter:]
    try:
        it = library.compare([contents(old)], [contents(new)], stricter)
    except Refused as why:
        raise no_answer(why, [[it] for it in paths]) from why
    if it is None:
        print(f"{'as strict' if stricter else 'the same'} on every call")
        return YES
    number = it.call.nr - (it.call.nr >> 31 << 32)
    print(f"syscall({number}, {', '.join(map(hex, it.call.args))}): 0x{it.old_verdict:08x} -> 0x{it.new_verdict:08x}")
    return NO


def made(make: Callable[[bytes], bytes], path: str) -> int:
    try:
        image = make(contents(path))
    except Refused as why:
        raise Trouble(f"{path}: refused {why.reason} {why.text}") from why
    sys.stdout.buffer.write(image)
    return YES


def lint(library: Library, paths: list[str]) -> int:
    try:
        it = library.lint(chain_of(paths))
    except Refused as why:
        if why.reason in (UNFOLLOWED, SPENT):
            raise Trouble(f"{library.reason(why.reason)}\n{why.text}".rstrip("\n")) from why
        raise no_answer(why, [paths]) from why
    print(it.lines, end="")
    return YES if it.is_strict else NO


def asked(library: Library, words: list[str]) -> int:
    match words:
        case ["check", _, *_]:
            return check(library, words[1:])
        case ["verdict", _, *_]:
            return verdict(library, words[1:])
        case ["compare", _, _] | ["compare", "--stricter", _, _]:
            return compare(library, words[1:])
        case ["profile", path]:
            return made(library.profile, path)
        case ["policy", path]:
            return made(library.policy, path)
        case ["lint", _, *_]:
            return lint(library, words[1:])
    raise Trouble(USAGE)


def main(words: list[str]) -> int:
    try:
        library = Library(os.environ.get("LIBSKERN", "libskern.so"))
        status = asked(library, words)
        sys.stdout.flush()
        return status
    except (MemoryError, OSError, Trouble) as why:
        print(f"filters: {why}", file=sys.stderr)
    return TROUBLE


if __name__ == "__main__":
    sys.exit(main(sys.argv[1:]))
