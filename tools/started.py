"""Processes that end with who starts them: in a group of their own, which is killed at the end, however that comes."""

import os
import signal
import subprocess
import sys
from collections.abc import Iterator, Sequence
from contextlib import contextmanager, suppress
from typing import Any

ENDING = (signal.SIGTERM, signal.SIGHUP)


@contextmanager
def started(command: Sequence[Any], **how: Any) -> Iterator[subprocess.Popen[Any]]:
    """Starts a process. At the end of the block it is killed, and with it all that it started and didn't wait for."""
    with raising():
        process = subprocess.Popen(command, start_new_session=True, **how)
        try:
            yield process
        finally:
            with suppress(ProcessLookupError):
                os.killpg(process.pid, signal.SIGKILL)
            process.wait()
            for pipe in filter(None, (process.stdin, process.stdout, process.stderr)):
                with suppress(OSError):
                    pipe.close()


def run(command: Sequence[Any], given: Any = None, seconds: float | None = None, **how: Any) -> subprocess.CompletedProcess[Any]:
    """Runs a process to its end on what it is given, for which it has so many seconds, and keeps what it writes."""
    pipe = subprocess.PIPE
    source = subprocess.DEVNULL if given is None else pipe
    with started(command, **{"stdin": source, "stdout": pipe, "stderr": pipe, **how}) as process:
        written, noted = process.communicate(given, timeout=seconds)
    return subprocess.CompletedProcess(command, process.returncode, written, noted)


@contextmanager
def raising() -> Iterator[None]:
    """Whoever ends this process by a signal that can be caught has its blocks end first."""
    changed = {}
    for number in ENDING:
        with suppress(ValueError):
            if signal.getsignal(number) is signal.SIG_DFL:
                changed[number] = signal.signal(number, lambda number, _: sys.exit(128 + number))
    try:
        yield
    finally:
        for number, before in changed.items():
            signal.signal(number, before)
