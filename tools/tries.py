"""Waits for a run of `rt try`."""
import contextlib
import os
import signal
import subprocess


def end_search(pid: int) -> None:
    """Ends the search for reserved names that rt makes beside a build: it takes as long as the build, for a hint."""
    with contextlib.suppress(OSError):
        with open(f"/proc/{pid}/task/{pid}/children", encoding="ascii") as file:
            children = file.read().split()
        for it in children:
            with open(f"/proc/{it}/cmdline", "rb") as file:
                words = file.read().split(b"\0")
            if os.path.basename(words[0]) == b"rattle" and words[1:2] == [b"check"]:
                os.kill(int(it), signal.SIGKILL)


def written(process: subprocess.Popen[bytes]) -> tuple[bytes, bytes]:
    """What the run writes to standard output and to standard error, up to its end."""
    while True:
        try:
            return process.communicate(timeout=1)
        except subprocess.TimeoutExpired:
            end_search(process.pid)
