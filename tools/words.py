"""The words and the standard input of ask and skern for a program that `rt try` runs: in a folder of its own, and without the
streams of whoever asks. rt cuts a standard input that is silent for two seconds, so each is read whole before."""
import errno
import html
import json
import os
import re
import stat
import tempfile
from collections.abc import Callable

from crates import TOP

# As their manual pages have it: the words by which skern reads its input, and the most that skern and ask read of one.
ON_FILTERS = {"check", "eval", "asm", "list"}
SKERN_READS = {"run", *ON_FILTERS}
MOST_OF_SKERN = 1_048_576
MOST_OF_ASK = 268_435_456
# The names that rt try keeps for itself in the folder that a program runs in, and the way out of it.
KEPT = {"program", "stdin", "stdout", "stderr", "case", ".."}
# A file of the system that is opened, and fails at the first read.
UNREADABLE = "/proc/self/mem"


def smallest(program: str, typed: list[str]) -> str:
    """The smallest program that answers to these words as the named one does."""
    return "filters" if program == "skern" and len(typed) == 1 and typed[0] in ON_FILTERS else program


def take(stream: int, path: str, most: int) -> str:
    """Writes into a file what a stream gives, up to one byte more than the most that the program takes."""
    left = most + 1
    with open(path, "wb") as file:
        while left and (part := os.read(stream, min(left, 1 << 20))):
            file.write(part)
            left -= len(part)
    return path


def mode_of(word: str) -> int | None:
    """What kind of file the word names; none where there is no such file, or no file can have such a name."""
    try:
        word.encode()
        return os.stat(word).st_mode
    except (FileNotFoundError, UnicodeEncodeError):
        return None
    except OSError as error:
        # Something is there on the way, and to open it fails for that.
        return None if error.errno == errno.ENAMETOOLONG else 0


def is_stream(word: str, mode: int | None) -> bool:
    """Whether the bytes behind the name can be read once, or the name means something else to another process."""
    return mode is not None and (stat.S_ISFIFO(mode) or stat.S_ISSOCK(mode) or word.startswith(("/dev/fd/", "/dev/std", "/proc/")))


def shown(word: str) -> bytes:
    """A word as ask shows it: no byte of it ends the line or changes how it is shown."""
    return re.sub(rb"[\x00-\x1f\x7f]", b"?", os.fsencode(word))


class Words:
    """What a program is given in place of the words that were typed, with options of rt try and a standard input.

    A file of the caller's folder is copied into the program's, under its own name. Any other one, and what comes from a
    stream, has a name in the room in its place."""

    def __init__(self, program: str, typed: list[str], room: str):
        self.room = tempfile.mkdtemp(dir=room)
        self.folder = f"{TOP}/crates/{program}"
        self.input = f"{self.room}/input"
        self.options: list[str] = []
        self.renamed: list[str] = []
        self.given = typed
        open(self.input, "wb").close()
        if program == "ask":
            # The first one is what is asked.
            self.given = [*typed[:1], *map(self.name, typed[1:])]
        elif len(typed) == 1 and typed[0] in SKERN_READS:
            take(0, self.input, MOST_OF_SKERN)

    def name(self, word: str) -> str:
        """The word that the program gets in place of this one."""
        if word.startswith("-") and word != "-":
            return word
        mode = mode_of(word)
        is_plain = "/" not in word and "=" not in word and not self.is_hidden(word)
        if word == "-" or is_stream(word, mode):
            return self.rename(word, self.stream(word))
        if mode is None:
            return self.rename(word) if self.is_hidden(word) else word
        if is_plain and stat.S_ISDIR(mode):
            self.options += ["--data", f"{word}/empty={os.devnull}"]
            return word
        if is_plain and stat.S_ISREG(mode) and os.access(word, os.R_OK):
            self.options += ["--data", f"{word}={os.path.abspath(word)}"]
            return word
        return self.rename(word)

    def is_hidden(self, word: str) -> bool:
        """Whether the program would find something else by this name than the caller does."""
        path = os.path.normpath(word)
        return path.split("/")[0] in KEPT or os.path.isfile(f"{self.folder}/{path}")

    def rename(self, word: str, path: str | None = None) -> str:
        """A name in the room for a path, or for the one that the word is in the caller's folder."""
        name = f"{self.room}/{len(self.renamed)}"
        os.symlink(path or os.path.join(os.getcwd(), word), name)
        self.renamed.append(word)
        return name

    def stream(self, word: str) -> str:
        """A file with what comes from a stream. Standard input gives all to the first word that names it."""
        path = f"{self.room}/taken-{len(self.renamed)}"
        try:
            with open(0 if word == "-" else word, "rb", buffering=0, closefd=word != "-") as given:
                return take(given.fileno(), path, MOST_OF_ASK)
        except OSError:
            return UNREADABLE

    def paths(self) -> list[str]:
        return [f"{self.room}/{place}" for place in range(len(self.renamed))]

    def as_typed(self, said: bytes) -> bytes:
        """What the program says, with the words that were typed."""
        return self.with_names(said, shown)

    def as_answered(self, text: bytes) -> bytes:
        """The answer of ask, with the words that were typed: some name their files in it, a page as HTML and a document as JSON."""
        if self.given[:1] == ["page"]:
            return self.with_names(text, lambda it: html.escape(os.fsdecode(shown(it))).encode())
        if "--json" in self.given:
            return self.with_names(text, lambda it: json.dumps(os.fsdecode(shown(it)))[1:-1].encode())
        return self.with_names(text, shown)

    def with_names(self, text: bytes, written: Callable[[str], bytes]) -> bytes:
        """A text, with the words that were typed in place of names in this room, or in another one beside it."""
        names = re.compile(rb"%b/[^/\s]+/(\d+)" % re.escape(os.fsencode(os.path.dirname(self.room))))
        return names.sub(lambda it: written(self.renamed[int(it[1])]), text)
