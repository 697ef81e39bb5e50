"""Puts the tests of several crates together in one crate, so that one build runs them all.

What they stand on is compiled once in it, and not once for each. Each crate becomes a module of its name, in a folder that
looks like this repository."""
import os
import re
import shutil

from crates import PARTS, TOP, Crates

# What names a module of the crate itself.
OWN = re.compile(r"\bcrate::")
# The line that each crate begins with, which stands once.
HEAD = "#![tactic(auto)]\n"


def write(path: str, text: str) -> None:
    os.makedirs(os.path.dirname(path), exist_ok=True)
    with open(path, "w", encoding="utf-8") as file:
        file.write(text)


def as_module(name: str, text: str) -> str:
    """The text of a file of the crate, as one of a module of its name."""
    return OWN.sub(f"crate::{name}::", text.replace(HEAD, "", 1))


def stage(room: str, whole: str, names: list[str]) -> str:
    """Makes in the room a repository with a crate more, of the tests of these, and gives that crate's folder."""
    crates = Crates()
    folder = f"{room}/crates/{whole}"
    os.makedirs(folder)
    below = crates.below_all(names)
    # rt takes no crate that lies elsewhere by a link.
    for it in below:
        for part in filter(lambda part: os.path.isdir(f"{TOP}/crates/{it}/{part}"), PARTS):
            shutil.copytree(f"{TOP}/crates/{it}/{part}", f"{room}/crates/{it}/{part}")
    shutil.copy(f"{TOP}/HANDLES", f"{room}/HANDLES")
    used = dict.fromkeys(use for it in names for use in crates.rows[it])
    write(f"{room}/crates.txt", "".join(f"{it}\n" for it in [*(crates.lines[it] for it in below), f"{whole}: {' '.join(used)}"]))
    for name in names:
        source = f"{TOP}/crates/{name}/src"
        for at, _, files in os.walk(source):
            for it in files:
                with open(f"{at}/{it}", encoding="utf-8") as file:
                    text = as_module(name, file.read())
                inside = os.path.relpath(f"{at}/{it}", source)
                write(f"{folder}/src/{name}.rt" if inside == "lib.rt" else f"{folder}/src/{name}/{inside}", text)
    modules = "".join(f"#[cfg(test)]\nmod {it};\n" for it in names)
    write(f"{folder}/src/lib.rt", f"//! The tests of {', '.join(names)}.\n{HEAD}\n{modules}")
    return folder
