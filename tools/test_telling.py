"""Tests that words and names that strangers wrote reach a terminal as something that it only shows."""

import os
import pty
import sys
import tempfile
import unittest
from pathlib import Path

from scripted import ROOT, Scripted
from started import run
from telling import printable

SECONDS = 60
SHEET = (
    "(game (setup (create players 1) (create deck (game vloc PILE) (deck (A (0 1))))) "
    "(do (set (game sto A\x1b[31mB\x1b[2J) 1)) (scoring max 0))"
)

# A name with a line feed, ESC and a byte that is no UTF-8.
NAME = b"a\n\x1b[2J\x9b"
SHOWN = "a\\x0a\\x1b[2J\\x9b"


class Told(unittest.TestCase):
    def test_what_is_printable_stays(self) -> None:
        for text in ("", "a `B` ü 牌 \\x1b"):
            self.assertEqual(printable(text), text)

    def test_what_is_not_is_told_by_its_bytes(self) -> None:
        for text, shown in (("\x1b[2J\n\t\x7f", "\\x1b[2J\\x0a\\x09\\x7f"), ("\x9b\u202e", "\\xc2\\x9b\\xe2\\x80\\xae")):
            self.assertEqual(printable(text), shown)
        self.assertEqual(printable("\udc9b\ud800"), "\\x9b\\xed\\xa0\\x80")


class Tools(unittest.TestCase):
    def setUp(self) -> None:
        folder = tempfile.TemporaryDirectory()
        self.addCleanup(folder.cleanup)
        self.root = Path(folder.name)

    def told(self, *command: object, status: int) -> str:
        """What a tool writes, where each of its lines is printable."""
        ran = run([ROOT / "tools" / str(command[0]), *command[1:]], cwd=self.root, seconds=SECONDS)
        self.assertEqual(ran.returncode, status, ran.stderr)
        lines = (ran.stdout + ran.stderr).decode().splitlines()
        self.assertEqual([line for line in lines if not line.isprintable()], [])
        return "\n".join(lines)

    def test_findings_of_lint(self) -> None:
        file = self.root / os.fsdecode(NAME)
        file.write_bytes(SHEET.encode())
        said = f"{SHOWN}:1:101: `A\\x1b[31mB\\x1b[2J` is set and never read, so that nothing comes of it."
        self.assertEqual(self.told("lint", file.name, status=1), said)

    def test_names_of_files(self) -> None:
        for command, status in ((("lint",), 6), (("table",), 6), (("series", "table"), 6)):
            with self.subTest(command):
                self.assertIn(SHOWN, self.told(*command, NAME, status=status))
        (self.root / os.fsdecode(NAME)).write_text("house 3\n")
        self.assertIn(f"{SHOWN}:1: ", self.told("table", NAME, status=4))

    def test_words(self) -> None:
        run_piece = ("series", b"run", b"out")
        for command in (("table", b"--" + NAME), (*run_piece, b"0", NAME), (*run_piece, NAME), ("series", NAME)):
            with self.subTest(command):
                self.assertIn("[2J", self.told(*command, status=2))


class Script(Scripted):
    def test_names_of_files(self) -> None:
        for option in ((), ("--explain",)):
            ran = self.run_script(*option, "sheet", NAME)
            self.assertEqual((ran.returncode, ran.stderr), (6, f"cardhouse: {SHOWN} can't be read: there is no such file\n".encode()))

    def test_an_explanation(self) -> None:
        (self.root / os.fsdecode(NAME)).write_text("(game (\x1b[2J))")
        for kind, at in (("Shape", 6), ("Shape", 7), ("Sort", 7), ("BadByte", 7)):
            ran = self.run_script("--explain", "sheet", NAME, note=f"sheet {kind} {at}")
            told = ran.stderr.decode().splitlines()
            self.assertEqual([line for line in told if not line.isprintable()], [])
            self.assertEqual(told[0], f"sheet {kind} {at}")
        self.assertTrue(any(line.startswith(f"{SHOWN}:1:") for line in told), told)

    def test_what_a_terminal_is_told_before_a_proof(self) -> None:
        self.program.unlink()
        self.make_kit()
        (self.root / "docs").mkdir()
        self.write("docs/times.txt", "rc_a proof 700 alone\n")
        (self.root / os.fsdecode(NAME)).write_text("(game)")
        leader, follower = pty.openpty()
        self.run_script("--proved", "sheet", NAME, stderr=follower)
        os.close(follower)
        said = os.read(leader, 65536)
        os.close(leader)
        self.assertIn(b"./cardhouse --try sheet a??[2J?\r\n", said)


if __name__ == "__main__":
    sys.exit(unittest.main())
