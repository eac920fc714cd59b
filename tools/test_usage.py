"""Tests of what the script says of its commands: `--help`, a wrong word, the explanations and the man page name every one."""

import re
import unittest

from built import PROGRAM, ROOT, skip_unless_built
from faults import kinds
from scripted import Scripted
from started import run

SCRIPT = (ROOT / "cardhouse").read_text()


def commands() -> list[str]:
    """The commands that the script takes."""
    body = SCRIPT.partition("is_command() {")[2].partition("*)")[0]
    return [word for row in re.findall(r"^ +([a-z |]+)\) ;;$", body, re.MULTILINE) for word in row.split(" | ")]


class Usage(Scripted):
    def test_help_tells_of_every_command(self) -> None:
        for words in (["--help"], ["-h"], ["help"], ["--explain", "--help"]):
            ran = self.run_script(*words)
            self.assertEqual((ran.returncode, ran.stderr), (0, b""))
            told = re.findall(r"^  ([a-z]+) ", ran.stdout.decode(), re.MULTILINE)
            self.assertEqual(sorted(told), sorted(commands()))
            self.assertFalse((self.root / "said").exists())

    def test_a_wrong_word_is_told_every_command(self) -> None:
        for words in ([], ["plays"], [""], ["--workers", "2"], ["--explain", "PLAY", "a"], ["--try", "x"]):
            with self.subTest(words):
                ran = self.run_script(*words)
                first, said = ran.stderr.decode().splitlines()
                self.assertEqual((ran.returncode, ran.stdout), (2, b""))
                self.assertEqual(set(commands()) - set(re.findall("[a-z]+", said)), set())
                self.assertFalse((self.root / "said").exists())

    def test_its_first_line_is_the_programs(self) -> None:
        skip_unless_built()
        told = run([PROGRAM, "plays"], b"", seconds=60)
        self.assertEqual(self.run_script("plays").stderr.splitlines()[0], told.stderr.rstrip(b"\n"))
        self.assertEqual(told.returncode, 2)

    def test_nothing_is_built_for_a_wrong_word(self) -> None:
        self.program.unlink()
        self.make_kit("#!/bin/sh\ntouch \"$SAID\"\n")
        self.assertEqual(self.run_script("plays").returncode, 2)
        self.assertEqual(self.run_script("--help").returncode, 0)
        self.assertFalse((self.root / "said").exists())

    def test_files_stand_behind_the_command(self) -> None:
        self.write("a.sheet", "(game)")
        self.assertIn(b"files stand behind the command", self.run_script("a.sheet").stderr)

    def test_the_explanation_and_the_man_page_name_them(self) -> None:
        manual = (ROOT / "docs/cardhouse.1").read_text("ascii")
        synopsis, told = manual.partition(".SH SYNOPSIS")[2].split(".SH DESCRIPTION")
        for command in commands():
            with self.subTest(command):
                self.assertIn(f"`{command}", kinds.WHOLE["usage"])
                self.assertRegex(synopsis, rf"(?m)^\.B (cardhouse )?{command}$")
                self.assertRegex(told, rf"(?m)^\.TP\n\.BI? (R )?{command}\b|^\.TP\n\.BR {command} ")

    def test_the_page_on_words_names_the_tools(self) -> None:
        row = re.search(r"^\| (`lint`.*?), and words \|", (ROOT / "docs/FORMATS.md").read_text("utf-8"), re.MULTILINE)
        assert row
        tools = [word for word in commands() if (ROOT / "tools" / word).is_file()]
        self.assertEqual(re.findall(r"`(\w+)`", row[1]), tools)


if __name__ == "__main__":
    unittest.main()
