#!/usr/bin/env python3
"""Checks what no prover sees: that the repository stands alone, that the page of promises is that of the contracts, that each
path and command that its documents name is there, that their sentences are short, and that each example in them prints what
they say, in the repository and in the archive that tools/package makes of it.

check_documents.py [FOLDER PAGE ..]: with a folder, only runs the commands of these pages, in the folder, and looks at what
they print. Prints each problem, and at last 'N passed, M failed'."""
import os
import pathlib
import re
import shutil
import subprocess
import sys
import tempfile
import threading
import time
from concurrent.futures import ThreadPoolExecutor

ROOT = os.path.dirname(os.path.dirname(os.path.abspath(__file__)))
EXPORT = "examples/exports/unix-sockets.bpf"
COMMANDS = {"run", "check", "eval", "asm", "list"}
# A rule is said where it is used, in words: no number of a paper stands in for it.
CITED = re.compile(r"\b(T[1-5]|D([1-9]|1[0-9]|2[01])|W([1-9]|1[0-9]|2[0-7])|R([1-9]|1[0-6])|row [0-9]+)\b|[Dd]ocument 0[0-9]|0[1-4]-(scope|theorems|requests|tables)")
MACHINE = re.compile(r"(^|[\s'\"`(=])/(work|opt|root|home|tmp)/")
PATH = re.compile(r"^[A-Za-z0-9_.-]+(/[A-Za-z0-9_.-]+)+/?$|^[A-Za-z0-9_-]+\.(md|txt|rt|antt|sh|py|hex|scenario|asm|bpf|1)$")
# The most words that a sentence has, and that those of a page have on an average.
LONGEST, AVERAGE = 35, 20
# What was said of what has changed.
NOT_MEASURED = {"CHANGELOG.md"}
results = {"passed": 0, "failed": 0}
judging = threading.Lock()


def judge(problems, what):
    with judging:
        results["failed" if problems else "passed"] += 1
        for problem in problems:
            print(f"{what}: {problem}")


def read(path):
    with open(os.path.join(ROOT, path), encoding="utf-8", errors="replace") as file:
        return file.read()


def tracked():
    listed = subprocess.run(["git", "ls-files", "-co", "--exclude-standard"], cwd=ROOT, capture_output=True, text=True, check=True)
    return [path for path in listed.stdout.splitlines() if os.path.isfile(os.path.join(ROOT, path))]


def citations(paths):
    for path in paths:
        if os.path.basename(path) == os.path.basename(__file__) or path.endswith(".png"):
            continue
        for number, line in enumerate(read(path).splitlines(), 1):
            if CITED.search(line):
                yield f"{path}:{number}: cites a paper by number: {line.strip()[:100]}"
            if MACHINE.search(line):
                yield f"{path}:{number}: names a path of a machine: {line.strip()[:100]}"


def is_there(path, paths):
    """A document may leave out the folders that it speaks of."""
    wanted = path.removeprefix("../").removeprefix("./").rstrip("/")
    return any(f"/{it}".endswith(f"/{wanted}") or f"/{wanted}/" in f"/{it}" for it in paths)


def paragraphs(text):
    """The paragraphs, items and cells of a page, without its blocks and headings."""
    lines = []
    for line in [*re.sub(r"^```.*?^```$", "", text, flags=re.M | re.S).splitlines(), ""]:
        line = line.strip()
        if lines and (not line or line.startswith(("#", "|")) or re.match(r"([-*]|\d+\.) ", line)):
            yield " ".join(lines)
            lines = []
        if line.startswith("|"):
            yield from re.split(r"(?<!\\)\|", line.strip("|"))
        elif line and not line.startswith("#"):
            lines.append(re.sub(r"^([-*]|\d+\.) ", "", line))


def sentences(text):
    """The sentences of a page, each as its words; what stands in backquotes is one word."""
    for paragraph in paragraphs(text):
        plain = re.sub(r"\[([^]]*)\]\([^)]*\)", r"\1", re.sub(r"`[^`]*`", "code", paragraph)).replace("**", "")
        for sentence in re.split(r"(?<=[.!?]) +|(?<=[:;]) +(?=[A-Z(])", plain):
            if words := [it for it in sentence.split() if re.search(r"\w", it)]:
                yield words


def long_sentences(document, text):
    """Sentences that a reader has to read twice. Headings of columns and lists of names are none."""
    told = [it for it in sentences(text) if len(it) > 3 and 2 * sum(word.startswith("code") for word in it) < len(it)]
    for words in told:
        if len(words) > LONGEST:
            yield f"{document}: a sentence has {len(words)} words: {' '.join(words)[:160]}"
    if told and sum(map(len, told)) > AVERAGE * len(told):
        yield f"{document}: its sentences have more than {AVERAGE} words on an average"


def paths_named(document, text, paths):
    for token in re.findall(r"`([^`\n]+)`", text) + re.findall(r"\]\(([^)#\s]+)\)", text):
        if PATH.match(token) and "://" not in token and not is_there(token, paths):
            yield f"{document}: names {token}, which is not there"


def words_named(document, text, known):
    """A document that says what is proved names functions, clauses and definitions that are there."""
    for token in re.findall(r"`([A-Za-z_]\w*(?:::\w+)*)`", text):
        for word in token.split("::"):
            if word not in known:
                yield f"{document}: names {token}, and no crate has {word}"


def promises_differ():
    """What the page of promises says otherwise than the contracts."""
    ran = subprocess.run(["tools/promises", "--check"], cwd=ROOT, capture_output=True, text=True)
    if ran.returncode:
        yield from (ran.stdout + ran.stderr).splitlines()


def blocks(text, kind):
    return re.findall(rf"^```{kind}\n(.*?)^```$", text, re.M | re.S)


def commands_named(document, text):
    for block in blocks(text, "console") + blocks(text, "sh"):
        for line in block.splitlines():
            for word, argument in re.findall(r"(?<![\w/.])\./([\w.-]+(?:/[\w.-]+)*)(?: +(\w+))?", line):
                if not os.access(os.path.join(ROOT, word), os.X_OK):
                    yield f"{document}: names ./{word}, which is no command"
                elif word == "skern" and argument and argument not in COMMANDS:
                    yield f"{document}: names ./skern {argument}, which is no command"


def lacks_privilege(document, said, complaint):
    """Whether a command that follows another process lacked the privilege for it: that is told, and it is not counted."""
    if "Operation not permitted" not in complaint and "Permission denied" not in complaint:
        return False
    print(f"{document}: not tried, for want of privilege: `{said}`")
    return True


def examples(document, text, folder=ROOT):
    """Each '$ command' of a console block, with the lines that it is to print, in this folder."""
    for block in blocks(text, "console"):
        for piece in re.split(r"^\$ ", block, flags=re.M)[1:]:
            command, _, wanted = piece.partition("\n")
            while command.endswith("\\"):
                more, _, wanted = wanted.partition("\n")
                command = command[:-1] + more.lstrip("> ")
            ran = subprocess.run(["bash", "-c", command], cwd=folder, stdin=subprocess.DEVNULL, capture_output=True, text=True, timeout=3000)
            if "examples/attached" in command and lacks_privilege(document, command, ran.stderr):
                continue
            problems = [] if ran.stdout == wanted else [f"`{command}` prints\n{ran.stdout}and not\n{wanted}{ran.stderr[-400:]}"]
            judge(problems, f"{document}: example")


def ends_well(document, said, command, folder=ROOT):
    """Whether a command ends with status 0 and prints something."""
    ran = subprocess.run(["bash", "-c", f"set -eo pipefail; {command}"], cwd=folder, stdin=subprocess.DEVNULL, capture_output=True, text=True, timeout=3000)
    if "PID" in said and lacks_privilege(document, said, ran.stderr):
        return
    problems = [f"`{said}` ends with status {ran.returncode}\n{ran.stdout[-400:]}{ran.stderr[-400:]}"] if ran.returncode or not ran.stdout else []
    judge(problems, f"{document}: command")


def beside_a_process(document, line, folder=ROOT):
    """A command with the word PID, on a process that has attached a filter."""
    with tempfile.TemporaryFile("w+") as lines:
        lines.write(f"filter {''.join(read('examples/filters/docker-default-linear.hex').split())}\n")
        lines.seek(0)
        with subprocess.Popen(["examples/attach", "sleep", "100"], cwd=folder, stdin=lines, stderr=subprocess.PIPE, text=True) as process:
            status = pathlib.Path(f"/proc/{process.pid}/status")
            while process.poll() is None and "Seccomp:\t2" not in status.read_text():
                time.sleep(0.1)
            if process.poll() is not None:
                complaint = process.stderr.read()
                if not lacks_privilege(document, line, complaint):
                    judge([complaint], f"{document}: examples/attach")
                return
            command = line if shutil.which("sudo") and os.geteuid() else line.replace("sudo ", "")
            ends_well(document, line, re.sub(r"\bPID\b", str(process.pid), command), folder)
            process.kill()


def on_a_copy(document, block, paths):
    """The commands of the prover, on a copy of the crates, since they write into them."""
    with tempfile.TemporaryDirectory() as copy:
        for path in paths:
            if path.startswith("crates") or path == "HANDLES":
                os.makedirs(os.path.dirname(os.path.join(copy, path)), exist_ok=True)
                shutil.copy(os.path.join(ROOT, path), os.path.join(copy, path))
        ends_well(document, block.rstrip(), block, copy)


def commands_run(document, text, paths):
    """Runs each command of a sh block: with the word FILE on a filter that libseccomp exported, with the word PID on a
    process that has attached one, measurements in one turn of the programs that are built; but not this gate itself."""
    for block in blocks(text, "sh"):
        if re.search(r"^rt |&& rt ", block, re.M):
            on_a_copy(document, block, paths)
            continue
        for line in block.splitlines():
            if re.search(r"\bPID\b", line):
                beside_a_process(document, line)
            elif line == "./bench/run":
                ends_well(document, line, "./bench/run --as-built --turns 1")
            elif not line.startswith(("./gate", "./test", "./prove")):
                ends_well(document, line, re.sub(r"\bFILE\b", EXPORT, line))


def run_in(folder, document, text):
    """Runs what a page shows in a folder that need not be this repository: all but the commands of the prover, the tests, the
    gate and the measurements, which stand in the repository alone."""
    examples(document, text, folder)
    for line in (line for block in blocks(text, "sh") for line in block.splitlines()):
        if re.search(r"\bPID\b", line):
            beside_a_process(document, line, folder)
        elif not re.match(r"rt |\./(gate|test|prove|bench/)|tools/|cd ", line):
            ends_well(document, line, re.sub(r"\bFILE\b", EXPORT, line), folder)


def in_archive():
    """The pages of the archive, their commands run in it as it is unpacked."""
    with tempfile.TemporaryDirectory() as room:
        made = subprocess.run(["tools/package", "--as-built", room], cwd=ROOT, capture_output=True, text=True, timeout=3000)
        judge([f"tools/package ends with status {made.returncode}\n{made.stdout[-400:]}{made.stderr[-400:]}"] if made.returncode else [], "archive")
        if made.returncode:
            return
        archive = made.stdout.splitlines()[-1]
        subprocess.run(["tar", "-xzf", archive, "-C", room], check=True)
        folder = pathlib.Path(archive.removesuffix(".tar.gz"))
        for page in sorted(folder.rglob("*.md")):
            run_in(folder, f"archive: {page.relative_to(folder)}", page.read_text(encoding="utf-8"))


def check(document, paths):
    text = read(document)
    judge(list(paths_named(document, text, paths)), "paths")
    judge(list(commands_named(document, text)), "commands")
    if document not in NOT_MEASURED:
        judge(list(long_sentences(document, text)), "sentences")
    examples(document, text)
    commands_run(document, text, paths)


def check_all():
    os.environ["SKERN_PROVED"] = "1"
    paths = tracked()
    judge(list(citations(paths)), "the repository stands alone")
    known = {word for path in paths if path.startswith("crates") for word in re.findall(r"[A-Za-z_]\w*", read(path) + path)}
    judge(list(promises_differ()), "promises")
    for document in ("README.md", "docs/PROVED.md", "docs/MAP.md", "docs/SEMANTICS.md"):
        judge(list(words_named(document, read(document), known)), "names")
    documents = [path for path in paths if path.endswith(".md")]
    # Two side by side, and first those with commands: the prover's and the measurements take a minute each.
    documents.sort(key=lambda path: not blocks(read(path), "sh"))
    with ThreadPoolExecutor(2) as pool:
        list(pool.map(lambda path: check(path, paths), documents))
    in_archive()


def main(words):
    if words:
        for document in words[1:]:
            run_in(words[0], document, read(document))
    else:
        check_all()
    print(f"{results['passed']} passed, {results['failed']} failed")
    return 1 if results["failed"] else 0


if __name__ == "__main__":
    sys.exit(main(sys.argv[1:]))
