"""How a command of the tools ends: its exit status, which is the program's for the same, and a sentence where it refuses."""

import os
import sys
from collections.abc import Callable
from contextlib import suppress

from telling import printable

DONE = 0
USAGE = 2
PLAN = 3
TEXT = 4
READ_FAULT = 6
WRITE_FAULT = 7
TOO_LONG = 8
ABSENT = 10
NOT_BUILT = 127


class Refused(Exception):
    """Why a command is refused, and with which status."""

    def __init__(self, status: int, sentence: str) -> None:
        super().__init__(sentence)
        self.status = status


def status_of(command: Callable[[], None]) -> int:
    """Runs a command, which writes to standard output, and tells where it refuses. Gives the exit status."""
    if sys.stdout is None:
        return told(WRITE_FAULT, "write fault: standard output is closed")
    try:
        command()
        sys.stdout.flush()
    except Refused as refused:
        return told(refused.status, str(refused))
    except OSError as error:
        # Python would fail once more where it closes what can't be written to.
        os.dup2(os.open(os.devnull, os.O_WRONLY), 1)
        return told(WRITE_FAULT, f"write fault: {error}")
    return DONE


def told(status: int, sentence: str) -> int:
    """Tells a sentence on standard error, where that can be written. Gives the status."""
    if sys.stderr:
        with suppress(OSError):
            print(printable(sentence), file=sys.stderr, flush=True)
    return status
