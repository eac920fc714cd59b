"""Processes that run in the place of this one: they are told the signals that this one is, and end where this one does."""

import ctypes
import os
import resource
import signal
import subprocess
from collections.abc import Callable, Iterator
from contextlib import contextmanager, suppress
from typing import Any

# The signals by which who knows this process alone ends what it runs.
ENDING = (signal.SIGTERM, signal.SIGINT, signal.SIGHUP)

SYSTEM = ctypes.CDLL(None)
PR_SET_PDEATHSIG = 1


def tied(number: int = signal.SIGKILL) -> Callable[[], None]:
    """What a process that this one starts does first (`preexec_fn`), so that the system sends it a signal where this one ends before
    it, by SIGKILL too. That is remembered when it becomes another program."""
    parent = os.getpid()

    def tie() -> None:
        SYSTEM.prctl(PR_SET_PDEATHSIG, number)
        if os.getppid() != parent:
            os._exit(128 + number)

    return tie


@contextmanager
def attended(process: subprocess.Popen[Any]) -> Iterator[None]:
    """In the block, what would end this process goes to that one, if it isn't ignored. Once that one has ended by it or otherwise,
    this one ends by the same."""
    told: list[int] = []

    def hand_on(number: int, _: object) -> None:
        told.append(number)
        process.send_signal(number)

    changed = {number: signal.signal(number, hand_on) for number in ENDING if signal.getsignal(number) is not signal.SIG_IGN}
    try:
        yield
        process.wait()
    finally:
        for number, before in changed.items():
            signal.signal(number, before)
    if told:
        end_by(told[0])


def end_by(number: int) -> None:
    """Ends this process by a signal, so that its caller sees what came of the process that ran in its place."""
    resource.setrlimit(resource.RLIMIT_CORE, (0, 0))
    with suppress(OSError):
        signal.signal(number, signal.SIG_DFL)
    os.kill(os.getpid(), number)
