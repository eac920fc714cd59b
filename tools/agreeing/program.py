"""Runs of a program, within bounds."""

import resource
import subprocess
from dataclasses import dataclass
from pathlib import Path

ROOT = Path(__file__).resolve().parent.parent.parent
PROGRAM = ROOT / "crates/rc_main/out/rc_main"

# What a run may take: seconds of all its processors, seconds that pass, and bytes of memory.
SECONDS = 60
LONGEST = 600
MEMORY = 1_000_000_000

NO_MEMORY = 5


@dataclass(frozen=True)
class End:
    """How a run ended: its status, what it wrote, and its note."""

    status: int
    text: bytes
    note: bytes

    def is_out_of_bounds(self) -> bool:
        """Whether it was ended for its time, or had no memory."""
        return self.status in (NO_MEMORY, -24, -9)

    def __str__(self) -> str:
        return f"status {self.status}, {len(self.text)} bytes of text, note {self.note.decode('latin-1')!r}"


class Program:
    """A built program."""

    def __init__(self, file: Path) -> None:
        self.file = file

    def run(self, words: tuple[str, ...], source: bytes, seconds: int = SECONDS) -> End:
        """How it ends with these words on a source, for which it has so many seconds."""
        pipe = subprocess.PIPE
        with subprocess.Popen([self.file, *words], stdin=pipe, stdout=pipe, stderr=pipe) as ran:
            resource.prlimit(ran.pid, resource.RLIMIT_CPU, (seconds, seconds + 1))
            resource.prlimit(ran.pid, resource.RLIMIT_AS, (MEMORY, MEMORY))
            try:
                text, note = ran.communicate(source, timeout=LONGEST)
            except subprocess.TimeoutExpired:
                ran.kill()
                text, note = ran.communicate()
        return End(ran.returncode, text, note)
