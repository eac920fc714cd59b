"""A copy of the script `cardhouse` and its tools in a folder, with a program or a kit that does as a test tells it."""

import os
import shutil
import stat
import subprocess
import tempfile
import unittest
from pathlib import Path

from started import run

ROOT = Path(__file__).resolve().parent.parent
SECONDS = 120

# Writes what it reads, then a note, and ends as it is told. Its words go to a file.
PROGRAM = """#!/bin/sh
echo "$@" >"$SAID"
[ "$1" = words ] || cat
[ -z "$NOTE" ] || echo "$NOTE" >&2
exit "$STATUS"
"""

# The same as the kit's command does it, with lines of its own.
KIT = """#!/bin/sh
echo "$@" >"$SAID"
cat
printf "$KIT_NOTE" >&2
exit "$STATUS"
"""


class Scripted(unittest.TestCase):
    """Tests that run the script in a folder of their own."""

    def setUp(self) -> None:
        self.root = Path(tempfile.mkdtemp())
        self.addCleanup(shutil.rmtree, self.root)
        shutil.copy(ROOT / "cardhouse", self.root)
        shutil.copytree(ROOT / "tools", self.root / "tools", ignore=shutil.ignore_patterns("__pycache__", "test_*"))
        self.program = self.root / "crates/rc_main/out/rc_main"
        self.program.parent.mkdir(parents=True)
        self.make(self.program, PROGRAM)
        self.write("crates.txt", "rc_main:\n")

    def make(self, file: Path, text: str) -> None:
        """Writes a file that can be run."""
        file.write_text(text)
        file.chmod(file.stat().st_mode | stat.S_IXUSR)

    def write(self, name: str, text: str) -> str:
        """Writes a file into the folder in which the script runs, and returns its name there."""
        (self.root / name).write_text(text)
        return name

    def make_kit(self, text: str = KIT) -> None:
        """Puts a kit on the path of the script."""
        (self.root / "bin").mkdir()
        self.make(self.root / "bin/rt", text)

    def run_script(
        self, *words: str, note: str = "sheet Stray 2", status: int = 1, kit: str = "", **how: object
    ) -> subprocess.CompletedProcess[bytes]:
        """Runs the script in its folder. The program ends with a note and a status, and the kit with lines and the status."""
        told = {"NOTE": note, "STATUS": str(status), "KIT_NOTE": kit, "SAID": str(self.root / "said")}
        env = {**os.environ, **told, "PATH": f"{self.root / 'bin'}:{os.environ['PATH']}"}
        how = {"given": b"\n )\n", "seconds": SECONDS, "env": env, "cwd": self.root, **how}
        return run([self.root / "cardhouse", *words], **how)  # type: ignore[arg-type]

    def said(self) -> str:
        """The words that the program was handed, or the kit."""
        return (self.root / "said").read_text().strip()
