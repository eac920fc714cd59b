"""Runs the sources without their proof by the kit's command `rt try`, as the program is run: with its words, streams and statuses."""

import os
import re
import shutil
import signal
import stat
import subprocess
import sys
from pathlib import Path

from attended import attended, tied
from faults.files import LONGEST, TEXTS, hand_over

CRATE = Path(__file__).resolve().parent.parent / "crates/rc_main"
GAVE_UP = 127

# The kit's own lines on standard error, and the last of them where the program ended.
OF_KIT = re.compile(rb"(?:interpreter: |checked: |races: |run=|rt: ).*\n?")
ENDED = re.compile(rb"run=ended status=(\d+) .*\n?")
TOO_SLOW = b"the program did not end within the time limit"

NO_KIT = "no 'rt' on the path: install the Rattle kit, which runs, proves and builds the sources, or a release, which needs no kit"
NO_TIME = (
    "the kit gave up: without the proof a run may take 60 seconds, or as many as RT_SECONDS says, and is much slower; ask for fewer "
    "matches, turns or rounds, or build the program by ./cardhouse build, which runs as long as it takes"
)
NO_ANSWER = "the kit gave up without an answer of the program"


def main(words: list[str]) -> int:
    """Runs the sources with these words, and ends with their status."""
    if signal.getsignal(signal.SIGINT) is signal.default_int_handler:
        signal.signal(signal.SIGINT, signal.SIG_DFL)
    if not shutil.which("rt"):
        return give_up(NO_KIT)
    lines = notes_of(words)
    ended = ENDED.fullmatch(lines[-1]) if lines else None
    if not ended:
        is_slow = any(TOO_SLOW in line for line in lines)
        return give_up(NO_TIME) if is_slow else give_up(NO_ANSWER, lines)
    note([line for line in lines if not OF_KIT.fullmatch(line)])
    return int(ended[1])


def notes_of(words: list[str]) -> list[bytes]:
    """The lines that a run leaves on standard error, the kit's among them."""
    reads = words[:1] and words[0] in TEXTS
    if reads:
        read_to_end()
    source = None if reads else subprocess.DEVNULL
    # The kit ends what it started where it is told to end.
    how = {"cwd": CRATE, "stdin": source, "stderr": subprocess.PIPE, "preexec_fn": tied(signal.SIGTERM)}
    with subprocess.Popen(["rt", "try", "--", *words], **how) as trying, attended(trying):
        assert trying.stderr
        return trying.stderr.read().splitlines(keepends=True)


def read_to_end() -> None:
    """Reads what another program writes to standard input until it ends, since the kit doesn't wait for long."""
    if not stat.S_ISREG(os.fstat(0).st_mode):
        with open(0, "rb", closefd=False) as given:
            hand_over(given.read(LONGEST + 1))


def give_up(why: str, lines: list[bytes] | None = None) -> int:
    note([*(lines or []), f"cardhouse: {why}\n".encode()])
    return GAVE_UP


def note(lines: list[bytes]) -> None:
    """Writes lines to standard error."""
    sys.stderr.buffer.write(b"".join(lines))
    sys.stderr.buffer.flush()
