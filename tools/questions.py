#!/usr/bin/env python3
"""questions.py STORE PROGRAM [WORD ..]: stands in for ask or skern where they are not proved, in a folder that `stage` makes,
so that one build of a program answers many questions.

What the store has an answer to is answered so. Any other question is kept there, and a line on standard output says that,
by which whatever is asked about that line knows that it is no question yet. `answer` has `rt try --cases` answer what is
kept. So commands are run until nothing is."""
import hashlib
import os
import re
import sys
from collections.abc import Callable

sys.dont_write_bytecode = True

from crates import TOP
from words import Words, smallest

UNANSWERED = b"questions: this one is not answered yet\n"
ENDED = re.compile(rb"^case=(\w+) run=ended status=(\d+) ", re.M)
ANSWERS = re.compile(rb"== ([0-9a-f]{64})\n")


def read(path: str) -> bytes:
    with open(path, "rb") as file:
        return file.read()


def write(path: str, content: bytes) -> None:
    with open(path, "wb") as file:
        file.write(content)


def stage(store: str, programs: list[str]) -> str:
    """A folder like this repository, in which these programs are stood in for."""
    for name in ("answered", "rooms", "stage", "asked/filters", *(f"asked/{it}" for it in programs)):
        os.makedirs(f"{store}/{name}")
    for name in os.listdir(TOP):
        if name in programs:
            script = f'#!/bin/sh\nexec "{sys.executable}" "{TOP}/tools/questions.py" "{store}" {name} "$@"\n'
            write(f"{store}/stage/{name}", script.encode())
            os.chmod(f"{store}/stage/{name}", 0o755)
        elif name != ".git":
            os.symlink(f"{TOP}/{name}", f"{store}/stage/{name}")
    return f"{store}/stage"


def asked(store: str) -> list[str]:
    """The programs of the questions that are not answered. Where skern is built for one of them it takes those on filters."""
    if os.path.isdir(f"{store}/asked/skern") and os.listdir(f"{store}/asked/skern"):
        for it in os.listdir(f"{store}/asked/filters"):
            os.rename(f"{store}/asked/filters/{it}", f"{store}/asked/skern/{it}")
    return [it for it in os.listdir(f"{store}/asked") if os.listdir(f"{store}/asked/{it}")]


def answer(store: str, name: str, run: Callable[[list[str], str], tuple[bytes, bytes]]) -> tuple[int, bytes]:
    """Has one build of a program answer what is asked of it, and gives how many got no answer, with what rt says."""
    folder = f"{store}/asked/{name}"
    out, said = run(["rt", "try", "--seconds", "600", "--cases", folder], f"{TOP}/crates/{name}")
    statuses = dict(ENDED.findall(said))
    pieces = ANSWERS.split(out)
    answers = dict(zip(pieces[1::2], pieces[2::2]))
    missed = 0
    for key in os.listdir(folder):
        if not key.endswith(".args"):
            is_well = key.encode() in statuses
            missed += not is_well
            write(f"{store}/answered/{key}", statuses[key.encode()] + b"\n" + answers.get(key.encode(), b"") if is_well else b"2\n")
        os.rename(f"{folder}/{key}", f"{store}/rooms/{key}")
    return missed, said


def main(store: str, program: str, *typed: str) -> int:
    words, name = Words(program, list(typed), f"{store}/rooms"), smallest(program, list(typed))
    if words.options:
        sys.exit(f"{program}: not proved here, and no file may lie in the folder itself: {typed}")
    contents = [read(it) for it in (words.input, *words.paths())]
    key = hashlib.sha256(repr((name, typed, contents)).encode()).hexdigest()
    if os.path.exists(f"{store}/answered/{key}"):
        status, _, text = read(f"{store}/answered/{key}").partition(b"\n")
    else:
        status, text = b"0", UNANSWERED
        if not any(UNANSWERED in it for it in contents):
            write(f"{store}/asked/{name}/{key}", contents[0])
            write(f"{store}/asked/{name}/{key}.args", "".join(f"{it}\n" for it in words.given).encode())
    # rt ends each answer with a line end. Raw bytes are instructions of eight.
    if {"--raw", "raw"} & {*typed} and len(text) % 8 == 1:
        text = text[:-1]
    sys.stdout.buffer.write(words.as_answered(text) if program == "ask" else text)
    return int(status)


if __name__ == "__main__":
    sys.exit(main(*sys.argv[1:]))
