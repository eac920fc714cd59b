"""Runs the program on a source, and measures what that takes."""

import ctypes
import os
import signal
import subprocess
from dataclasses import dataclass
from tempfile import NamedTemporaryFile, TemporaryFile
from typing import IO

# Linux keeps in a process what the one before it in the same place took at most, so that a run begun by Python would tell Python's memory.
# A shell begins the run and ends, and the run is handed to this process, which is to take in such orphans (`PR_SET_CHILD_SUBREAPER`). It
# waits for a line until then, so that the shell doesn't take its status.
TAKES_IN_ORPHANS = 36
BEGINS = 'set -e; ulimit -s "$1"; ulimit -t "$2"; source=$3; shift 3; exec 3<&0; { read -r _ <&3; exec "$@" <"$source" 3<&- >/dev/null; } & echo $!'
STACK = 8192
SECONDS = 600


@dataclass(frozen=True)
class Cost:
    """How a run ended, the seconds of a processor that it took, and its largest memory in KiB."""

    status: int
    note: str
    seconds: float
    memory: int

    @property
    def was_ended(self) -> bool:
        """Whether its seconds were over."""
        return self.status in (-signal.SIGKILL, -signal.SIGXCPU)


def begin(words: list[str], source: str, notes: IO[bytes], bounds: list[str]) -> int:
    """Begins a run on a file, within these bounds of its stack and its seconds, and gives its number."""
    ctypes.CDLL(None).prctl(TAKES_IN_ORPHANS, 1, 0, 0, 0)
    shell = ["/bin/sh", "-c", BEGINS, "sh", *bounds, source, *words]
    with subprocess.Popen(shell, stdin=subprocess.PIPE, stdout=subprocess.PIPE, stderr=notes) as begun:
        assert begun.stdin and begun.stdout
        number = int(begun.stdout.readline())
        begun.wait()
        begun.stdin.write(b"\n")
    return number


def cost(program: str, words: list[str], source: bytes, stack: int = STACK, seconds: int = SECONDS) -> Cost:
    """What a run takes with a stack of so many KiB. It is ended after so many seconds of a processor."""
    with NamedTemporaryFile() as given, TemporaryFile() as notes:
        given.write(source)
        given.flush()
        number = begin([program, *words], given.name, notes, [str(stack), str(seconds)])
        _, status, used = os.wait4(number, 0)
        notes.seek(0)
        note = notes.read().decode("utf-8", "replace").strip()
    return Cost(os.waitstatus_to_exitcode(status), note, used.ru_utime + used.ru_stime, used.ru_maxrss)
