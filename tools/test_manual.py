"""Tests of the man page: it can be formatted, and its statuses and lines are those of the page on formats."""

import re
import shutil
import subprocess
import sys
import unittest
from pathlib import Path

from faults import kinds

ROOT = Path(__file__).resolve().parent.parent
MANUAL = ROOT / "docs/cardhouse.1"
FORMATS = ROOT / "docs/FORMATS.md"

# What the script that starts the program ends with where it can't build it.
NOT_BUILT = 127

# What the program ends with where the plan hasn't what the words name.
ABSENT = 10


def told_in_manual() -> dict[int, set[str]]:
    """The lines of each exit status."""
    text = MANUAL.read_text("ascii").partition('.SH "EXIT STATUS"')[2].partition("\n.SH ")[0]
    statuses: dict[int, set[str]] = {}
    for entry in text.split(".TP\n.B ")[1:]:
        status, _, said = entry.partition("\n")
        statuses[int(status)] = {quoted or plain for quoted, plain in re.findall(r'^\.BR (?:"(.+)"|(\w+)) :$', said, re.MULTILINE)}
        statuses[int(status)] |= set(re.findall(r'^\.BR "(.+)" [,:]$', said, re.MULTILINE))
    return statuses


def told_in_formats() -> list[tuple[int, str]]:
    """The rows of the table of notes: a status and a line."""
    text = FORMATS.read_text("utf-8").partition("\n## Notes\n")[2].partition("\n## ")[0]
    rows = re.findall(r"^\| (\d+) \| `([^`]+)`", text, re.MULTILINE)
    return [(int(status), line) for status, line in rows]


class Manual(unittest.TestCase):
    def test_statuses_and_lines_are_those_of_the_formats(self) -> None:
        rows = told_in_formats()
        self.assertGreaterEqual(len(rows), 10)
        manual = told_in_manual()
        for status, line in rows:
            with self.subTest(status):
                self.assertIn(line, manual[status])

    def test_no_other_statuses(self) -> None:
        self.assertEqual(told_in_manual().keys(), {*range(9), ABSENT, NOT_BUILT})

    def test_each_line_is_explained(self) -> None:
        lines = {line for status, lines in told_in_manual().items() if status not in (0, NOT_BUILT) for line in lines}
        whole = {line.partition(":")[0] for line in lines if not re.search("[A-Z]{2}", line)}
        self.assertEqual(whole, kinds.WHOLE.keys() | {"absent"})

    def test_commands_and_options(self) -> None:
        text = MANUAL.read_text("ascii")
        for command in ("play", "check", "sheet", "migrate", "measure"):
            self.assertIn(f"\n.TP\n.B {command}\n", text)
        for entry in ('.BI bench " N"', '.BI watch " SEAT MATCH"', '.BI rival " K DEPTH ROUNDS KEY"', '.BI show " SHEET PLAN"', '.BI report " SHEET PLAN"', '.BI \\-\\-workers " N"', '.BI \\-\\-cache " N"', ".B \\-\\-explain", ".B \\-\\-try"):
            self.assertIn(f"\n.TP\n{entry}\n", text)

    def test_its_files_are_there(self) -> None:
        names = re.findall(r"^\.I ((?:docs|editors)/\S+)$", MANUAL.read_text("ascii"), re.MULTILINE)
        self.assertEqual(len(names), 4)
        for name in names:
            self.assertTrue((ROOT / name).is_file(), name)

    def lint(self, command: list[str]) -> None:
        """Formats the page without a warning. Where there is no such command, the reason is printed, since unittest prints a letter
        alone for a test that is skipped."""
        if not shutil.which(command[0]):
            reason = f"no '{command[0]}' on the path"
            print(f"\n{self.id()} is skipped: {reason}", file=sys.stderr)
            self.skipTest(reason)
        ran = subprocess.run([*command, MANUAL], capture_output=True, text=True, timeout=60)
        self.assertEqual((ran.returncode, ran.stderr), (0, ""))
        self.formatted = ran.stdout

    def test_mandoc(self) -> None:
        self.lint(["mandoc", "-Tlint", "-Wwarning"])

    def test_groff(self) -> None:
        self.lint(["groff", "-man", "-ww", "-z"])

    def test_man(self) -> None:
        self.lint(["man", "--warnings", "-l"])
        for title in ("NAME", "SYNOPSIS", "COMMANDS", "EXIT STATUS"):
            self.assertRegex(self.formatted, rf"(?m)^{title}$")


if __name__ == "__main__":
    unittest.main()
