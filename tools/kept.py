"""What earlier runs of tools/faults on this machine refused, by the sums of all that they read.

A name is the sum of everything that the judgement rests on: the toolchain, the scripts, the texts of the crate and of those
below it, and the edit. So what is kept never goes stale: any other text has another name. Only refusals are kept."""
import contextlib
import functools
import hashlib
import os
import tempfile
import time
from collections.abc import Iterator

from crates import TOP, Crates, files_of

STORE = f"{os.environ.get('XDG_CACHE_HOME') or os.path.expanduser('~/.cache')}/skern-faults"
SCRIPTS = ("faults", "crates.py", "kept.py")
# What nobody asked for so long is removed.
LONGEST = 30 * 24 * 60 * 60


def content(path: str) -> bytes:
    with open(path, "rb") as file:
        return file.read()


def sum_of(parts: Iterator[bytes]) -> str:
    """A sum of these parts, each with its length, so that no two lists of parts have one text."""
    made = hashlib.sha256()
    for it in parts:
        made.update(b"%d:" % len(it))
        made.update(it)
    return made.hexdigest()


@functools.lru_cache(maxsize=None)
def tools_sum(kit: str) -> str:
    """A sum of the toolchain and of the scripts that judge by it."""
    paths = [f"{kit}/KIT-ID", f"{kit}/WHAT", f"{kit}/bin/rattle", *(f"{TOP}/tools/{it}" for it in SCRIPTS)]
    return sum_of(content(it) for it in paths)


class Kept:
    """The refusals of one crate as it stands."""

    def __init__(self, crates: Crates, name: str, kit: str):
        self.sum = sum_of(self.parts(crates, name, kit))

    @staticmethod
    def parts(crates: Crates, name: str, kit: str) -> Iterator[bytes]:
        yield tools_sum(kit).encode()
        for crate in [*crates.below(name), name]:
            yield crates.lines[crate].encode()
            for path in sorted(files_of(crate)):
                yield os.path.relpath(path, f"{TOP}/crates").encode()
                yield content(path)

    def path(self, edit: str) -> str:
        return f"{STORE}/{sum_of(iter([self.sum.encode(), content(edit)]))}"

    def said(self, edit: str) -> str | None:
        """What an earlier run said when it refused this edit of the same texts."""
        with contextlib.suppress(OSError):
            path = self.path(edit)
            said = content(path).decode()
            os.utime(path)
            return said
        return None

    def keep(self, edit: str, said: str) -> None:
        """Keeps that this edit was refused. It is written apart and renamed, so that nobody reads half of it."""
        with contextlib.suppress(OSError):
            os.makedirs(STORE, 0o700, exist_ok=True)
            with tempfile.NamedTemporaryFile("w", dir=STORE, prefix="new-", delete=False, encoding="utf-8") as file:
                file.write(said)
            os.replace(file.name, self.path(edit))


def shrink() -> None:
    """Removes what nobody has asked for in a long time."""
    with contextlib.suppress(OSError):
        for it in os.scandir(STORE):
            if it.stat().st_mtime < time.time() - LONGEST:
                os.unlink(it.path)
