"""Packages of Debian's trixie, which stays at Linux 6.12, for the scripts that compare tables with what is in them. apt-get gets
them from where the machine gets its packages, and verifies who signed them. Nothing is installed, and what was fetched is kept
in ~/.cache/skern-headers."""
import os
import re
import subprocess
import tempfile
from pathlib import Path

from call_tables import Trouble

KEYS = "/usr/share/keyrings/debian-archive-keyring.gpg"
STORE = Path(os.environ.get("XDG_CACHE_HOME") or os.path.expanduser("~/.cache")) / "skern-headers"
# The packages, by how the names of their files begin.
HEADERS = r"linux-libc-dev_6\.12\."
KERNEL = r"linux-headers-6\.12\.\d+\+deb13-common_6\.12\."
LIBRARY = r"libc6-dev_2\.41-\S+_amd64"
MANUAL = r"manpages-dev_6\.9\."


def ran(words, folder):
    """What a command prints that has to end well."""
    try:
        end = subprocess.run(words, cwd=folder, stdin=subprocess.DEVNULL, capture_output=True, text=True, check=False)
    except OSError as why:
        raise Trouble(f"{words[0]} can't be run: {why}") from why
    if end.returncode:
        raise Trouble(f"{' '.join(words[:1] + words[-2:])}: {end.stderr.strip() or end.stdout.strip()}")
    return end.stdout


def apt_in(room, program="apt-get", **more):
    """apt-get or apt-cache with its lists and what it fetches in a folder of their own."""
    for it in ("lists/partial", "archives/partial"):
        os.makedirs(f"{room}/{it}", exist_ok=True)
    options = {"Dir::State": room, "Dir::State::status": "/dev/null", "Dir::Cache": room, "APT::Sandbox::User": "root",
               "Acquire::Languages": "none", "Acquire::Retries": "3", **more}
    return [program, "-q", *(word for it in options.items() for word in ("-o", "=".join(it)))]


def mirror():
    """Where the machine itself gets Debian's packages. apt-get knows it once it has read the lists of there, which a new machine
    has not."""
    STORE.mkdir(parents=True, exist_ok=True)
    with tempfile.TemporaryDirectory(dir=STORE) as room:
        apt = apt_in(room)
        ran([*apt, "update"], room)
        told = ran([*apt, "indextargets", "--format", "$(REPO_URI)", "Created-By: Packages", "Origin: Debian", "Label: Debian"], room)
    if not told:
        raise Trouble("apt-get knows no mirror of Debian")
    return told.splitlines()[0]


def in_order(name):
    """A key by which names stand in the order of the numbers in them."""
    return [(int(it), "") if it.isdigit() else (0, it) for it in re.split(r"(\d+)", name)]


def package_of(wanted, cache, room):
    """The latest package of this name."""
    name = wanted.split("_")[0]
    known = ran([*cache, "pkgnames", re.split(r"[\\.]", name)[0]], room).split()
    found = sorted((it for it in known if re.fullmatch(name, it)), key=in_order)
    if not found:
        raise Trouble(f"Debian's trixie has no package {name}")
    return found[-1]


def fetch(wanted):
    """Puts packages into the store."""
    source = f"deb [signed-by={KEYS}] {mirror()} trixie main\n"
    with tempfile.TemporaryDirectory(dir=STORE) as room:
        Path(room, "sources.list").write_text(source, encoding="ascii")
        where = {"Dir::Etc::sourcelist": f"{room}/sources.list", "Dir::Etc::sourceparts": "/dev/null"}
        apt = apt_in(room, **where)
        ran([*apt, "update"], room)
        cache = apt_in(room, "apt-cache", **where)
        ran([*apt, "download", *(package_of(it, cache, room) for it in wanted)], room)
        for it in Path(room).glob("*.deb"):
            it.rename(STORE / it.name)


def kept(wanted):
    """The latest file of a package in the store."""
    found = [it for it in STORE.glob("*.deb") if re.match(wanted, it.name.replace("%3a", ":"))]
    return max(found, key=lambda it: in_order(it.name)) if found else None


def unpacked(folder, *wanted):
    """The files of packages, unpacked into a folder."""
    STORE.mkdir(parents=True, exist_ok=True)
    missing = [it for it in wanted if not kept(it)]
    if missing:
        fetch(missing)
    for it in wanted:
        if not kept(it):
            raise Trouble(f"Debian's trixie has no {it}")
        ran(["dpkg-deb", "-x", str(kept(it)), folder], folder)
    return Path(folder)
