"""Proved answers about seccomp filters, by the library of skern.h.

    library = Library("libskern.so")
    library.check(image)                          # raises Refused where the filter is not valid
    library.verdict([image], Call(39))            # 0x7fff0000: SECCOMP_RET_ALLOW
    library.verdicts([image], calls)              # the same of many calls, for which the filters are checked once
    library.compare([old], [new])                 # None where they answer the same on every call, or a Difference
    library.profile(json, Setting(DOCKER))        # the image of the filter that a container's profile means
    library.policy(text)                          # the image of the filter that a policy's text means
    library.lint([image])                         # whether bits that Linux does not read get a less strict verdict

An image is the bytes of struct sock_filters, as seccomp_export_bpf(3) writes them. A chain is a list of images, the oldest
filter first. Threads may use one Library side by side."""
import ctypes
from collections.abc import Callable, Sequence
from typing import NamedTuple

X86_64 = 0xC000003E  # AUDIT_ARCH_X86_64 of linux/audit.h
DOCKER = 0xA80425FB  # the capabilities that docker leaves to a container
MOST_BYTES = 32768  # of a filter
LINES = 65536  # room for what lint says of most filters
# Of enum skern_reason. Those up to PATH_LIMIT refuse one filter.
OK, PATH_LIMIT, NO_MEMORY, DIFFER, UNFOLLOWED, SPENT, WIDE = 0, 12, 13, 14, 15, 16, 24


class Call(NamedTuple):
    """What a filter sees of a call: struct seccomp_data of linux/seccomp.h."""

    nr: int
    args: tuple[int, ...] = (0, 0, 0, 0, 0, 0)
    arch: int = X86_64
    instruction_pointer: int = 0


class Setting(NamedTuple):
    """Where a profile is to hold: the capabilities that are held, bit n for the one with the number n of linux/capability.h, the
    version of the kernel, and whether runc attaches the filter."""

    capabilities: int = 0
    kernel: tuple[int, int] = (6, 12)
    runc: bool = False


class Difference(NamedTuple):
    """A call to which two chains do not answer as is asked, and the verdict of each."""

    call: Call
    old_verdict: int
    new_verdict: int


class Lint(NamedTuple):
    """What bits that Linux does not read do to verdicts. `is_strict` says that no call gets a less strict verdict by them; the
    lines tell of the calls that may, and of those that are counted."""

    is_strict: bool
    lines: str


class Refused(Exception):
    """No answer. `reason` is a number of enum skern_reason, and `text` says what is wrong. Where it is of a filter, `chain` is 0
    for the only or old chain and 1 for the new one, `filter` its number there, and `place` that of its instruction. All count
    from 0. Where it is of a policy, `place` is the line in which the sentence begins that is wrong, from 1
    on, or 0 where none is."""

    def __init__(self, reason: int, text: str, chain: int = 0, filter: int = 0, place: int = 0):
        where = f": {'new filter' if chain else 'filter'} {filter} at {place}" if reason <= PATH_LIMIT else ""
        super().__init__(f"{reason} {text}{where}")
        self.reason, self.text, self.chain, self.filter, self.place = reason, text, chain, filter, place


class _Fault(ctypes.Structure):
    _fields_ = [("reason", ctypes.c_uint32), ("chain", ctypes.c_uint32), ("filter", ctypes.c_size_t), ("place", ctypes.c_size_t)]


class _Filter(ctypes.Structure):
    _fields_ = [("insns", ctypes.c_char_p), ("bytes", ctypes.c_size_t)]


class _Call(ctypes.Structure):
    _fields_ = [("nr", ctypes.c_uint32), ("arch", ctypes.c_uint32), ("instruction_pointer", ctypes.c_uint64), ("args", ctypes.c_uint64 * 6)]


class _Setting(ctypes.Structure):
    _fields_ = [("capabilities", ctypes.c_uint64), ("major", ctypes.c_uint32), ("minor", ctypes.c_uint32), ("runc", ctypes.c_bool)]


class _Difference(ctypes.Structure):
    _fields_ = [("call", _Call), ("old_verdict", ctypes.c_uint32), ("new_verdict", ctypes.c_uint32)]


_Writing = Callable[[ctypes.Array[ctypes.c_char], int, object], _Fault]


def _written(room: int, ask: _Writing) -> tuple[_Fault, bytes]:
    """What a function says, and what it writes, with as much room as it asks for."""
    while True:
        out, size = ctypes.create_string_buffer(room), ctypes.c_size_t()
        fault = ask(out, room, ctypes.byref(size))
        if size.value <= room:
            return fault, out.raw[:size.value]
        room = size.value


def _filters(chain: Sequence[bytes]) -> ctypes.Array[_Filter]:
    return (_Filter * len(chain))(*(_Filter(it, len(it)) for it in chain))


class Library:
    """The library at a path, as a shared object."""

    def __init__(self, path: str):
        library = ctypes.CDLL(path)
        filters, size = ctypes.POINTER(_Filter), ctypes.c_size_t
        self._check = library.skern_check
        self._check.argtypes, self._check.restype = [ctypes.c_char_p, size], _Fault
        self._verdict = library.skern_verdict
        self._verdict.argtypes = [filters, size, ctypes.POINTER(_Call), size, ctypes.POINTER(ctypes.c_uint32), size]
        self._verdict.restype = _Fault
        self._compare = library.skern_compare
        self._compare.argtypes = [filters, size, filters, size, ctypes.c_bool, ctypes.POINTER(_Difference)]
        self._compare.restype = _Fault
        self._profile = library.skern_profile
        self._profile.argtypes = [ctypes.c_char_p, size, ctypes.POINTER(_Setting), ctypes.c_char_p, size, ctypes.POINTER(size)]
        self._profile.restype = _Fault
        self._policy = library.skern_policy
        self._policy.argtypes, self._policy.restype = [ctypes.c_char_p, size, ctypes.c_char_p, size, ctypes.POINTER(size)], _Fault
        self._lint = library.skern_lint
        self._lint.argtypes, self._lint.restype = [filters, size, ctypes.c_char_p, size, ctypes.POINTER(size)], _Fault
        self._reason = library.skern_reason
        self._reason.argtypes, self._reason.restype = [ctypes.c_uint32, ctypes.c_char_p, size], size

    def reason(self, number: int) -> str:
        """The text of a number of enum skern_reason."""
        text = ctypes.create_string_buffer(b"", 64)
        self._reason(number, text, len(text))
        return text.value.decode("ascii")

    def check(self, image: bytes) -> None:
        """Returns where the filter is valid by seccomp(2), and raises Refused with its first fault where it is not."""
        self._refuse(self._check(image, len(image)))

    def verdict(self, chain: Sequence[bytes], call: Call) -> int:
        """What the filters answer to a call: a value of seccomp(2), with its action and its data."""
        return self.verdicts(chain, [call])[0]

    def verdicts(self, chain: Sequence[bytes], calls: Sequence[Call]) -> list[int]:
        """What the filters answer to each of the calls."""
        seen = (_Call * len(calls))(*(_Call(it.nr, it.arch, it.instruction_pointer, (ctypes.c_uint64 * 6)(*it.args)) for it in calls))
        values = (ctypes.c_uint32 * len(calls))()
        self._refuse(self._verdict(_filters(chain), len(chain), seen, len(seen), values, len(values)))
        return list(values)

    def compare(self, old: Sequence[bytes], new: Sequence[bytes], stricter: bool = False) -> Difference | None:
        """None where the new chain answers every call of x86-64 as the old one does, or with `stricter` as strictly; else a
        call to which it does not."""
        it = _Difference()
        fault = self._compare(_filters(old), len(old), _filters(new), len(new), stricter, ctypes.byref(it))
        if fault.reason != DIFFER:
            self._refuse(fault)
            return None
        call = Call(it.call.nr, tuple(it.call.args), it.call.arch, it.call.instruction_pointer)
        return Difference(call, it.old_verdict, it.new_verdict)

    def profile(self, json: bytes, setting: Setting = Setting()) -> bytes:
        """The image of the filter that answers to every call of x86-64 what the profile says there."""
        there = _Setting(setting.capabilities, *setting.kernel, setting.runc)
        return self._made(lambda out, room, size: self._profile(json, len(json), ctypes.byref(there), out, room, size))

    def policy(self, text: bytes) -> bytes:
        """The image of the filter that answers to every call what the text says."""
        return self._made(lambda out, room, size: self._policy(text, len(text), out, room, size))

    def lint(self, chain: Sequence[bytes]) -> Lint:
        """Whether the filters tell calls apart by bits of arguments that Linux does not read. Refused where it is not known; its
        text has the lines then."""
        filters = _filters(chain)
        fault, lines = _written(LINES, lambda out, room, size: self._lint(filters, len(chain), out, room, size))
        if fault.reason in (UNFOLLOWED, SPENT):
            self._refuse(fault, lines)
        if fault.reason != WIDE:
            self._refuse(fault)
        return Lint(fault.reason == OK, lines.decode())

    def _made(self, ask: _Writing) -> bytes:
        """The image that is written, or what is wrong with a text."""
        fault, image = _written(MOST_BYTES, ask)
        self._refuse(fault, image)
        return image

    def _refuse(self, fault: _Fault, text: bytes = b"") -> None:
        if fault.reason == NO_MEMORY:
            raise MemoryError(self.reason(fault.reason))
        if fault.reason != OK:
            raise Refused(fault.reason, text.decode() or self.reason(fault.reason), fault.chain, fault.filter, fault.place)
