"""How the program ends where its input or its output can't be used: by the statuses that docs/FORMATS.md names, and by no signal."""

import subprocess
import unittest

from built import PROGRAM, ROOT, Built
from started import run, started

SOURCE = b"".join((ROOT / f"examples/first.{part}").read_bytes() for part in ("sheet", "plan"))
READ_FAULT, WRITE_FAULT = 6, 7
SECONDS = 60


class Ports(Built):
    def shell(self, command: str, source: bytes = SOURCE) -> tuple[int, bytes, bytes]:
        """The status, the output and the notes of `play` where the shell changes its ports."""
        ran = run(["sh", "-c", f'"$0" play {command}', PROGRAM], source, seconds=SECONDS)
        return ran.returncode, ran.stdout, ran.stderr

    def test_output_that_is_closed_or_full(self) -> None:
        for output in (">&-", ">/dev/full"):
            with self.subTest(output=output):
                self.assertEqual(self.shell(output), (WRITE_FAULT, b"", b"write fault\n"))

    def test_notes_that_are_closed_or_full(self) -> None:
        told = (ROOT / "examples/first.transcript").read_bytes()
        for notes in ("2>&-", "2>/dev/full"):
            with self.subTest(notes=notes):
                self.assertEqual(self.shell(notes), (WRITE_FAULT, told, b""))

    def test_input_that_is_closed_or_a_folder(self) -> None:
        for source in ("<&-", "</"):
            with self.subTest(source=source):
                self.assertEqual(self.shell(source), (READ_FAULT, b"", b"read fault\n"))

    def test_a_pipe_that_closes_early(self) -> None:
        plan = b"(plan (seats (random 1) (random 2)) (matches (from 1 1 4096)) (turns 60))"
        source = (ROOT / "examples/first.sheet").read_bytes() + plan
        pipe = subprocess.PIPE
        with started([PROGRAM, "play"], stdin=pipe, stdout=pipe, stderr=pipe) as ran:
            ran.stdin.write(source)
            ran.stdin.close()
            self.assertEqual(ran.stdout.read(8), b"house 1\n")
            ran.stdout.close()
            self.assertEqual((ran.wait(SECONDS), ran.stderr.read()), (WRITE_FAULT, b"write fault\n"))


if __name__ == "__main__":
    unittest.main()
