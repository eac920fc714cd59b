"""Counts instructions of whole runs by valgrind's callgrind: numbers that are the same on every machine."""

import re
import shutil
import subprocess
from tempfile import TemporaryFile

COUNTS = re.compile(rb"Collected : (\d+)")


def can_count() -> bool:
    return shutil.which("valgrind") is not None


def instructions(program: str, words: list[str], source: bytes) -> int:
    """How many instructions a run takes, with those of its start."""
    counting = ["valgrind", "--tool=callgrind", "--callgrind-out-file=/dev/null", program, *words]
    with TemporaryFile() as given:
        given.write(source)
        given.seek(0)
        ran = subprocess.run(counting, stdin=given, stdout=subprocess.DEVNULL, stderr=subprocess.PIPE, check=False)
    found = COUNTS.search(ran.stderr)
    if not found:
        raise RuntimeError(f"valgrind told no count: {ran.stderr.decode('utf-8', 'replace')[-300:]}")
    return int(found[1])
