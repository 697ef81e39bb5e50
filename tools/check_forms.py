#!/usr/bin/env python3
"""Compares what `ask` reads in the forms in which filters are published with the filters themselves.

check_forms.py [FILE..]: each FILE holds one filter in hexadecimal digits; where none is named, those of examples/filters are
taken. This script writes each filter in every form, from the manuals of the tools. The installed tools write it too: xxd(1),
hexdump(1), base64(1), and strace(1) of a program that takes the filter. `ask filter` has to write the image of each such text.
`ask diff` has to find the text and the image the same on every call. gcc compiles the arrays in C, where it is installed,
and has to make that image. Three of the forms this script reads too, as the sources of the tools print them, and has to make
the images of published texts.

forms.txt has published texts with their images, and texts of no form. `ask filter` has to say of such a text what it says of
its image. It has to refuse each text of no form. A constant of Linux's headers has to be the number that gcc has for it.

Prints each problem, and at last 'N passed, M failed'. ASK in the environment names another program than the proved one."""
import base64
import glob
import os
import re
import shutil
import struct
import subprocess
import sys
import tempfile
from collections.abc import Callable, Iterator
from typing import NamedTuple

ROOT = os.path.dirname(os.path.dirname(os.path.abspath(__file__)))
PROGRAM = os.environ.get("ASK", os.path.join(ROOT, "crates/ask/out/ask"))
PUBLISHED = os.path.join(ROOT, "tools/forms.txt")
SECONDS = 120
SAME = "the same on every call\n"
HEADERS = ["linux/filter.h", "linux/seccomp.h", "linux/audit.h"]
INCLUDES = "#include <stddef.h>\n#include <stdio.h>\n" + "".join(f"#include <{it}>\n" for it in HEADERS) + "#define X32_SYSCALL_BIT 0x40000000\n"
# The parts of a code, as linux/bpf_common.h and linux/filter.h name them.
CLASSES = ["LD", "LDX", "ST", "STX", "ALU", "JMP", "RET", "MISC"]
SIZES = {0: "W", 8: "H", 16: "B"}
MODES = {0: "IMM", 0x20: "ABS", 0x40: "IND", 0x60: "MEM", 0x80: "LEN", 0xA0: "MSH"}
OPERATIONS = {0: "ADD", 0x10: "SUB", 0x20: "MUL", 0x30: "DIV", 0x40: "OR", 0x50: "AND", 0x60: "LSH", 0x70: "RSH", 0x80: "NEG", 0x90: "MOD", 0xA0: "XOR"}
JUMPS = {0: "JA", 0x10: "JEQ", 0x20: "JGT", 0x30: "JGE", 0x40: "JSET"}
FIELDS = {0: "nr", 4: "arch", 8: "instruction_pointer"}
ACTIONS = {0x80000000: "KILL_PROCESS", 0: "KILL_THREAD", 0x30000: "TRAP", 0x50000: "ERRNO", 0x7FC00000: "USER_NOTIF", 0x7FF00000: "TRACE", 0x7FFC0000: "LOG",
           0x7FFF0000: "ALLOW"}
# A program that takes a filter from standard input by seccomp(2) of x86-64, for strace: prctl(PR_SET_NO_NEW_PRIVS), and the call.
TAKES = """
import ctypes, os, sys
image = sys.stdin.buffer.read()
held = ctypes.create_string_buffer(image, len(image))
class Program(ctypes.Structure):
    _fields_ = [("length", ctypes.c_ushort), ("filter", ctypes.c_void_p)]
program = Program(len(image) // 8, ctypes.addressof(held))
libc = ctypes.CDLL(None)
libc.prctl(38, 1, 0, 0, 0)
child = os.fork()
if child == 0:
    libc.syscall(317, 1, 0, ctypes.byref(program))
    os._exit(0)
os.waitpid(child, 0)
"""


class Insn(NamedTuple):
    code: int
    jt: int
    jf: int
    k: int


class Published(NamedTuple):
    source: str
    image: bytes | None  # none where the text is of no form
    text: bytes


def instructions(image: bytes) -> list[Insn]:
    return [Insn(*it) for it in struct.iter_unpack("<HBBI", image)]


# ---- the forms, from the manuals

def code_names(code: int) -> str:
    """A code in names, which gcc joins to that code."""
    kind = CLASSES[code & 7]
    if kind in ("LD", "LDX"):
        return f"BPF_{kind}|BPF_{SIZES[code & 0x18]}|BPF_{MODES[code & 0xE0]}"
    if kind in ("ALU", "JMP"):
        return f"BPF_{kind}|BPF_{(OPERATIONS if kind == 'ALU' else JUMPS)[code & 0xF0]}|BPF_{'X' if code & 8 else 'K'}"
    if kind == "RET":
        return "BPF_RET|BPF_A" if code & 0x18 == 0x10 else "BPF_RET|BPF_K"
    if kind == "MISC":
        return "BPF_MISC|BPF_TXA" if code & 0xF8 == 0x80 else "BPF_MISC|BPF_TAX"
    return f"BPF_{kind}"


def operand(insn: Insn) -> str:
    """The operand as programs write it: the field of a load, the action of a return, the architecture, and else a number."""
    if insn.code == 0x20 and insn.k in FIELDS:
        return f"offsetof(struct seccomp_data, {FIELDS[insn.k]})"
    if insn.code == 0x20 and 16 <= insn.k < 64 and insn.k % 4 == 0:
        return f"offsetof(struct seccomp_data, args[{(insn.k - 16) // 8}])" + (" + 4" if insn.k % 8 else "")
    if insn.code == 6 and (insn.k & 0xFFFF0000) in ACTIONS:
        return f"SECCOMP_RET_{ACTIONS[insn.k & 0xFFFF0000]}" + (f" | {insn.k & 0xFFFF}" if insn.k & 0xFFFF else "")
    if insn.code == 0x15 and insn.k == 0xC000003E:
        return "AUDIT_ARCH_X86_64"
    return f"{insn.k:#x}"


def macro(insn: Insn) -> str:
    if insn.code & 7 == 5 or insn.jt or insn.jf:
        return f"BPF_JUMP({code_names(insn.code)}, {operand(insn)}, {insn.jt}, {insn.jf})"
    return f"BPF_STMT({code_names(insn.code)}, {operand(insn)})"


def rows_of_tcpdump(image: bytes) -> str:
    return "".join(f"{{ {it.code:#x}, {it.jt}, {it.jf}, 0x{it.k:08x} }},\n" for it in instructions(image))


def declared(image: bytes) -> str:
    rows = ",\n".join(f"    {{ {it.code}, {it.jt:#04x}, {it.jf}u, {it.k}UL }} /* {number} */" for number, it in enumerate(instructions(image)))
    return f"static const struct sock_filter filter[] = {{\n    // made by a script\n{rows}\n}};\n"


def of_bpf_asm(image: bytes) -> str:
    # As tools/bpf/bpf_asm.c has it: `#` leaves a 0 without its prefix.
    return "".join("{ %s, %2d, %2d, %s },\n" % (f"{it.code:#04x}" if it.code else "0000", it.jt, it.jf, f"{it.k:#010x}" if it.k else "0" * 10) for it in instructions(image))


def decimal_lines(image: bytes) -> str:
    return f"{len(image) // 8}\n" + "".join(f"{it.code} {it.jt} {it.jf} {it.k}\n" for it in instructions(image))


def decimal_commas(image: bytes) -> str:
    return f"{len(image) // 8}," + "".join(f"{it.code} {it.jt} {it.jf} {it.k}," for it in instructions(image)) + "\n"


def macros(image: bytes) -> str:
    return "struct sock_filter filter[] = {\n" + "".join(f"\t{macro(it)},\n" for it in instructions(image)) + "};\n"


def of_strace(image: bytes) -> str:
    return f"{{len={len(image) // 8}, filter=[{', '.join(macro(it) for it in instructions(image))}]}}\n"


def table(head: str, image: bytes) -> str:
    rows = "".join(f" {place:04d}: 0x{it.code:02x} 0x{it.jt:02x} 0x{it.jf:02x} 0x{it.k:08x}  whatever: {place}, 0x1 = [x]\n" for place, it in enumerate(instructions(image)))
    return f"{head}\n{'=' * 33}\n{rows}"


def letters(part: bytes) -> str:
    return "".join(chr(it) if 32 <= it < 127 else "." for it in part)


def of_xxd(image: bytes) -> str:
    lines = []
    for at in range(0, len(image), 16):
        part = image[at:at + 16]
        lines.append(f"{at:08x}: {' '.join(part[i:i + 2].hex() for i in range(0, len(part), 2)):39}  {letters(part)}\n")
    return "".join(lines)


def of_hexdump(image: bytes) -> str:
    lines = []
    for at in range(0, len(image), 16):
        part = image[at:at + 16]
        lines.append(f"{at:08x}  {part[:8].hex(' '):23}  {part[8:].hex(' '):23}  |{letters(part)}|\n")
    return "".join(lines) + f"{len(image):08x}\n"


def byte_array(image: bytes) -> str:
    return f"unsigned char filter[] = {{\n  {', '.join(f'0x{it:02x}' for it in image)}\n}};\nunsigned int filter_len = {len(image)};\n"


def string(image: bytes) -> str:
    return "".join('"' + "".join(f"\\x{it:02x}" for it in image[at:at + 16]) + '"\n' for at in range(0, len(image), 16))


FORMS: dict[str, Callable[[bytes], str]] = {
    "tcpdump -dd": rows_of_tcpdump, "an array in C": declared, "bpf_asm -c": of_bpf_asm, "tcpdump -ddd": decimal_lines, "bpf_asm": decimal_commas, "macros": macros,
    "strace": of_strace, "the list of strace": lambda image: of_strace(image).partition(", ")[2].rstrip("}\n"),
    "seccomp-tools": lambda image: table(" line  CODE  JT   JF      K", image), "scmp_bpf_disasm": lambda image: table(" line  OP   JT   JF   K", image),
    "a table without its head": lambda image: table("", image).split("\n", 2)[2], "xxd": of_xxd, "hexdump -C": of_hexdump, "xxd -i": byte_array,
    "bytes": lambda image: ", ".join(map(str, image)), "a string": string, "base64": lambda image: base64.encodebytes(image).decode(),
}


# ---- three of them read, as the sources of the tools print them

ROW = re.compile(r"\{ 0x(0|[1-9a-f][0-9a-f]*), (0|[1-9]\d*), (0|[1-9]\d*), 0x([0-9a-f]{8}) \},")
DECIMALS = re.compile(r"(0|[1-9]\d*),((0|[1-9]\d*)( (0|[1-9]\d*)){3},)+\n")


def packed(rows: list[Insn]) -> bytes:
    return b"".join(struct.pack("<HBBI", *it) for it in rows)


def of_rows(text: str) -> bytes:
    """The image of lines as bpf_dump of libpcap prints them for `-dd`: `{ 0x%x, %u, %u, 0x%08x },`."""
    rows = []
    for line in text.removesuffix("\n").split("\n"):
        it = ROW.fullmatch(line)
        if it is None:
            raise ValueError("another line than tcpdump prints")
        rows.append(Insn(int(it[1], 16), int(it[2]), int(it[3]), int(it[4], 16)))
    return packed(rows)


def of_decimals(text: str) -> bytes:
    """The image of a line as bpf_asm.c prints it: `%u,`, and `%u %u %u %u,` for each row."""
    if not DECIMALS.fullmatch(text):
        raise ValueError("another line than bpf_asm prints")
    number, *rows = text.removesuffix(",\n").split(",")
    if int(number) != len(rows):
        raise ValueError("another number of rows")
    return packed([Insn(*map(int, it.split())) for it in rows])


def of_base64(text: str) -> bytes:
    return base64.b64decode(text.removesuffix("\n"), validate=True)


# By what the source of a published text begins with.
READERS: dict[str, Callable[[str], bytes]] = {"tcpdump -dd ": of_rows, "bpf_asm foo:": of_decimals, "base64 -w0 ": of_base64}

# Those that gcc compiles, with what it wants before and behind them.
IN_C = {"tcpdump -dd": ("struct sock_filter filter[] = {", "};"), "an array in C": ("", ""), "bpf_asm -c": ("struct sock_filter filter[] = {", "};"), "macros": ("", ""),
        "xxd -i": ("", "")}
TOOLS = {"xxd": ["xxd"], "hexdump": ["hexdump", "-Cv"], "base64": ["base64"]}


# ---- programs

def run(words: list[str], given: bytes = b"", folder: str | None = None) -> tuple[int, bytes, bytes]:
    ran = subprocess.run(words, input=given, capture_output=True, timeout=SECONDS, cwd=folder, check=False)
    return ran.returncode, ran.stdout, ran.stderr


def compiled(text: str, folder: str) -> bytes:
    """The bytes of the array `filter` in a text of C."""
    with open(f"{folder}/filter.c", "w", encoding="ascii") as file:
        file.write(f"{INCLUDES}{text}\nint main(void) {{ return fwrite(filter, sizeof filter, 1, stdout) != 1; }}\n")
    subprocess.run(["gcc", "-std=c11", "-o", f"{folder}/filter", f"{folder}/filter.c"], check=True, timeout=SECONDS)
    return subprocess.run([f"{folder}/filter"], capture_output=True, check=True, timeout=SECONDS).stdout


def by_tools(image: bytes, folder: str) -> Iterator[tuple[str, bytes]]:
    """What the installed tools write of an image."""
    for name, words in TOOLS.items():
        if shutil.which(words[0]):
            yield " ".join(words), run(words, image)[1]
    if shutil.which("xxd"):
        with open(f"{folder}/filter", "wb") as file:
            file.write(image)
        yield "xxd -i FILE", run(["xxd", "-i", "filter"], folder=folder)[1]
        yield "xxd -i", run(["xxd", "-i"], image)[1]
    if shutil.which("strace"):
        told = run(["strace", "-f", "-v", "-e", "trace=seccomp", sys.executable, "-c", TAKES], image)[2]
        frame = re.search(rb"\{len=\d+, filter=\[.*\]\}", told)
        if frame:
            yield "strace -v", frame[0] + b"\n"
        else:
            print("strace shows no filter here, so that its texts are not tried")


def constants() -> list[str]:
    """The names of numbers in filters that the headers have."""
    text = "".join(run(["gcc", "-E", "-dM", "-include", it, "-"])[1].decode() for it in HEADERS)
    return sorted(set(re.findall(r"^#define ((?:SECCOMP_RET|AUDIT_ARCH)_\w+|BPF_(?:" + "|".join(
        [*CLASSES, *SIZES.values(), *MODES.values(), *OPERATIONS.values(), *JUMPS.values(), "K", "X", "A", "TAX", "TXA"]) + r")) ", text, re.M)))


def published() -> list[Published]:
    with open(PUBLISHED, encoding="ascii") as file:
        blocks = re.split(r"^@ ", file.read(), flags=re.M)[1:]
    rows = []
    for it in blocks:
        source, image, text = it.split("\n", 2)
        rows.append(Published(source, None if image == "none" else bytes.fromhex(image), text.encode()))
    return rows


# ---- what is looked at

class Checks:
    def __init__(self, folder: str) -> None:
        self.folder, self.passed, self.failed = folder, 0, 0
        for it in ("text", "image"):
            os.mkdir(f"{folder}/{it}")

    def expect(self, holds: bool, what: str) -> None:
        if holds:
            self.passed += 1
        else:
            self.failed += 1
            print(what)

    def answers(self, text: bytes, image: bytes) -> list[tuple[int, bytes, bytes]]:
        """What `ask filter` answers of a text and of an image, in files of one name."""
        answers = []
        for name, held in (("text", text), ("image", image)):
            with open(f"{self.folder}/{name}/filter", "wb") as file:
                file.write(held)
            answers.append(run([PROGRAM, "filter", "--raw", "filter"], folder=f"{self.folder}/{name}"))
        return answers

    def is_image(self, name: str, text: bytes, image: bytes) -> None:
        of_text, _ = self.answers(text, image)
        self.expect(of_text == (0, image, b""), f"{name}: `ask filter` has status {of_text[0]} and {len(of_text[1])} bytes, and says {of_text[2]!r}")
        status, answer, complaint = run([PROGRAM, "diff", "image/filter", "text/filter"], folder=self.folder)
        self.expect((status, answer.decode()) == (0, SAME), f"{name}: `ask diff` has status {status}, and says {(answer + complaint)[:200]!r}")

    def filters(self, path: str) -> None:
        with open(path, encoding="ascii") as file:
            image = bytes.fromhex("".join(file.read().split()))
        for name, write in FORMS.items():
            text = write(image)
            self.is_image(f"{path}: {name}", text.encode(), image)
            if name in IN_C and shutil.which("gcc"):
                before, behind = IN_C[name]
                self.expect(compiled(f"{before}{text}{behind}", self.folder) == image, f"{path}: {name}: gcc makes other bytes of it")
        for name, text in by_tools(image, self.folder):
            self.is_image(f"{path}: by {name}", text, image)

    def rows(self) -> None:
        for it in published():
            if it.image is None:
                status, answer, complaint = self.answers(it.text, b"")[0]
                self.expect(status == 2 and answer == b"" and complaint != b"", f"{it.source}: status {status}, {len(answer)} bytes, {complaint!r}")
            else:
                of_text, of_image = self.answers(it.text, it.image)
                self.expect(of_text == of_image, f"{it.source}: of the text {of_text[0]} {of_text[2]!r}, of the image {of_image[0]} {of_image[2]!r}")

    def readers(self) -> None:
        """What the published texts stand for to the readers of this script."""
        for begins, read in READERS.items():
            texts = [it for it in published() if it.image is not None and it.source.startswith(begins)]
            self.expect(texts != [], f"no published text begins with {begins!r}")
            for it in texts:
                self.is_read(it.source, read, it.text, it.image)

    def is_read(self, name: str, read: Callable[[str], bytes], text: bytes, image: bytes) -> None:
        try:
            self.expect(read(text.decode()) == image, f"{name}: this script reads another image of it")
        except (ValueError, struct.error) as error:
            self.expect(False, f"{name}: this script can't read it: {error}")

    def constants(self) -> None:
        names = constants()
        image = compiled("struct sock_filter filter[] = {" + ",".join(f"{{ 0x06, 0, 0, {it} }}" for it in names) + "};", self.folder)
        for name, insn in zip(names, instructions(image), strict=True):
            self.is_image(name, f"BPF_STMT(BPF_RET|BPF_K, {name})\n".encode(), struct.pack("<HBBI", *insn))


def main() -> int:
    paths = sys.argv[1:] or sorted(glob.glob(f"{ROOT}/examples/filters/*.hex"))
    with tempfile.TemporaryDirectory() as folder:
        checks = Checks(folder)
        for it in paths:
            checks.filters(os.path.abspath(it))
        checks.rows()
        checks.readers()
        if shutil.which("gcc"):
            checks.constants()
        else:
            print("gcc is not installed, so that its numbers are not compared")
    print(f"{checks.passed} passed, {checks.failed} failed")
    return 1 if checks.failed or not checks.passed else 0


if __name__ == "__main__":
    sys.exit(main())
