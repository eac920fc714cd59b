"""Tests of words with files: how the files are put together, and that what is told of them is told in their own lines."""

import os
import pty
import signal
import subprocess
import sys
import unittest
from pathlib import Path

from faults.explaining import explanation
from faults.files import LONGEST, FilesRefused, looked_at
from faults.places import place_of
from faults.sources import File, Source
from scripted import SECONDS, Scripted
from started import run, started

ROOT = Path(__file__).resolve().parent.parent

# A sheet of three lines without a last line feed, and a plan of two lines behind a comment.
SHEET = "(game (setup (create players 1)\n(create deck (game hloc S) (deck (R (A)))))\n(do (cycle reverse)) (scoring max 0)) ; ("
PLAN = "; a plan\n(plan (seats (script)) (matches (0 0))\n  (turns 9))\n"
TEXT = "; played\n\nhouse 1\nmatch 0 deal 0 seats 0\nend done 2\n"
FILES = (File("a.sheet", 0), File("a.plan", len(SHEET) + 1), File("a.text", len(SHEET) + 1 + len(PLAN)))
SOURCE = f"{SHEET}\n{PLAN}{TEXT}".encode()


class Places(unittest.TestCase):
    def test_a_byte_stands_in_the_lines_of_its_file(self) -> None:
        source = Source(SOURCE, FILES)
        for word, place in (("(game", "a.sheet:1:1"), ("(do", "a.sheet:3:1"), ("(seats", "a.plan:2:7"), ("9", "a.plan:3:10")):
            self.assertEqual(str(source.place(SOURCE.index(word.encode()))), place)
        self.assertEqual(str(source.place(len(SHEET))), f"a.sheet:3:{len(SHEET.splitlines()[2]) + 1}")
        self.assertEqual(str(source.place(len(SHEET) + 1)), "a.plan:1:1")
        self.assertEqual(str(source.place(len(SOURCE) + 7)), "a.text:6:1")

    def test_without_files_it_is_one_text(self) -> None:
        for at in (0, 40, len(SOURCE)):
            self.assertEqual(Source(SOURCE).place(at), place_of(SOURCE, at))

    def test_explanations_begin_with_the_place(self) -> None:
        for what, kind, word, place in (("sheet", "Shape", "(do", "a.sheet:3:1: "), ("plan", "Turns", "9", "a.plan:3:10: ")):
            first, line, caret, *_ = explanation(f"{what} {kind} {SOURCE.index(word.encode())}", SOURCE, ["play"], FILES)
            self.assertTrue(first.startswith(place), first)
            self.assertEqual(line[caret.index("^")], word[0])
            self.assertTrue(first.endswith("."), first)

    def test_a_plan_that_is_missing(self) -> None:
        end = len(SHEET) + 1
        said = explanation(f"plan Shape {end}", SOURCE[:end], ["play"], (FILES[0], File("a.plan", end)))
        self.assertTrue(said[0].startswith("a.plan:1:1: No plan stands behind the sheet"), said)
        said = explanation(f"plan Shape {end - 1}", SOURCE[: end - 1], ["play"], FILES[:1])
        self.assertTrue(said[0].startswith("a.sheet:3:"), said)

    def test_lines_of_a_transcript(self) -> None:
        for note, begin in (
            ("illegal 2 Match", "a.text:4:1: line 2 of the transcript, in match 0: The matches are"),
            ("text 1", "a.text:3:1: line 1 of the transcript: A transcript begins with the line `house 1`"),
            ("text 4", "a.text:6:1: line 4 of the transcript, where the text ends: more lines are to follow. No transcript"),
        ):
            said = explanation(note, SOURCE, ["check"], FILES)
            self.assertTrue(said[0].startswith(begin), said)


class Words(unittest.TestCase):
    def setUp(self) -> None:
        self.addCleanup(os.chdir, os.getcwd())
        os.chdir(ROOT / "examples")

    def test_files_stand_between_options_and_numbers(self) -> None:
        for words, kept, names in (
            ("play first.sheet first.plan", "play", "first.sheet first.plan"),
            ("play --workers 2 first.sheet --cache=7 first.plan", "play --workers 2 --cache=7", "first.sheet first.plan"),
            ("play --format 2 first.sheet first.plan --format=1", "play --format 2 --format=1", "first.sheet first.plan"),
            ("migrate first.sheet first.plan first.transcript", "migrate", "first.sheet first.plan first.transcript"),
            ("measure first.sheet first.plan first.named", "measure", "first.sheet first.plan first.named"),
            ("rival first.sheet first.plan 0 4 1 5", "rival 0 4 1 5", "first.sheet first.plan"),
            ("watch first.sheet first.plan 1 0", "watch 1 0", "first.sheet first.plan"),
            ("watch 1 first.sheet 0 first.plan", "watch 1 0", "first.sheet first.plan"),
            ("watch 1 0", "watch 1 0", ""),
            ("sheet first.sheet", "sheet", "first.sheet"),
            ("play --workers check", "play --workers check", ""),
            ("play 7 -h --help", "play 7 -h --help", ""),
            ("bench first.sheet", "bench first.sheet", ""),
            ("first.sheet first.plan", "first.sheet first.plan", ""),
            ("", "", ""),
        ):
            with self.subTest(words):
                self.assertEqual(looked_at(words.split()), (kept.split(), names.split()))
        self.assertEqual(looked_at(["play", ""]), (["play", ""], []))

    def test_files_that_are_refused(self) -> None:
        for words, why, status in (
            ("sheet first.sheet first.plan", "first.plan is a file too many, since `sheet` reads a sheet", 2),
            ("play a b c", "c is a file too many, since `play` reads a sheet and a plan", 2),
            ("watch a b c 0 0", "c is a file too many, since `watch` reads a sheet and a plan", 2),
            ("play first.sheet none.plan", "none.plan can't be read: there is no such file", 6),
            ("sheet .", ". can't be read: it is a folder", 6),
        ):
            with self.subTest(words), self.assertRaises(FilesRefused) as refused:
                looked_at(words.split())
            self.assertEqual((str(refused.exception), refused.exception.status), (why, status))


class Script(Scripted):
    """The script with a program that writes what it reads."""

    def setUp(self) -> None:
        super().setUp()
        self.write("a.sheet", SHEET)
        self.write("a.plan", PLAN)
        self.write("7up", TEXT)

    def check(self, words: str, kept: str, text: str, **how: object) -> None:
        ran = self.run_script(*words.split(), note="", status=0, **how)
        self.assertEqual((ran.returncode, ran.stdout, ran.stderr), (0, text.encode(), b""))
        self.assertEqual(self.said(), kept)

    def test_files_are_put_together(self) -> None:
        for option in ("", "--explain "):
            self.check(f"{option}sheet a.sheet", "sheet", SHEET)
            self.check(f"{option}play --workers 2 a.sheet a.plan", "play --workers 2", f"{SHEET}\n{PLAN}")
            self.check(f"{option}check a.sheet a.plan 7up", "check", SOURCE.decode())
            self.check(f"{option}watch a.sheet a.plan 0 12", "watch 0 12", f"{SHEET}\n{PLAN}")
            self.check(f"{option}check a.sheet a.plan /dev/stdin", "check", f"{SHEET}\n{PLAN}given", given=b"given")

    def test_wherever_it_is_called_from(self) -> None:
        folder = self.root / "a b"
        folder.mkdir()
        (folder / "link").symlink_to("../cardhouse")
        (folder / "cards").symlink_to("link")
        (folder / "tools").mkdir()
        names = {**os.environ, "NOTE": "", "STATUS": "0", "SAID": "said", "CDPATH": f"{folder}:{self.root}:."}
        for words, cwd in (("tools/../cardhouse", self.root), ("a\\ b/cards", self.root), ("./link", folder), ("sh link", folder)):
            with self.subTest(words):
                ran = run(["bash", "-c", f"{words} sheet {self.root}/a.sheet"], seconds=SECONDS, cwd=cwd, env=names)
                self.assertEqual((ran.returncode, ran.stdout, ran.stderr), (0, SHEET.encode(), b""))
        names["PATH"] = f"{folder}:{names['PATH']}"
        ran = run(["cards", "sheet", self.root / "a.sheet"], seconds=SECONDS, cwd=folder, env=names)
        self.assertEqual((ran.returncode, ran.stdout), (0, SHEET.encode()))

    def test_without_a_file_standard_input_is_read(self) -> None:
        for words in ("play", "play --cache 7", "play 7", "bench a.sheet"):
            self.check(words, words, "given", given=b"given")

    def test_standard_input_may_be_closed_where_files_are_named(self) -> None:
        folder = os.open(self.root, os.O_RDONLY)
        self.check("sheet a.sheet", "sheet", SHEET, given=None, stdin=folder)
        os.close(folder)
        names = {**os.environ, "NOTE": "", "STATUS": "0", "SAID": "said"}
        ran = run(["sh", "-c", "./cardhouse sheet a.sheet <&-"], seconds=SECONDS, cwd=self.root, env=names)
        self.assertEqual((ran.returncode, ran.stdout), (0, SHEET.encode()))

    def test_the_line_and_the_status_stay(self) -> None:
        at = SOURCE.index(b"9))")
        ran = self.run_script("play", "a.sheet", "a.plan", note=f"plan Turns {at}", status=3)
        self.assertEqual((ran.returncode, ran.stderr), (3, f"plan Turns {at}\n".encode()))
        ran = self.run_script("--explain", "play", "a.sheet", "a.plan", note=f"plan Turns {at}", status=3)
        self.assertEqual(ran.returncode, 3)
        self.assertTrue(ran.stderr.startswith(f"plan Turns {at}\n\na.plan:3:10: The turn limit".encode()), ran.stderr)

    def test_at_a_terminal_it_is_explained(self) -> None:
        leader, follower = pty.openpty()
        how = {"stdout": subprocess.PIPE, "stderr": follower}
        self.run_script("sheet", "a.sheet", note="sheet Twice 32", **how)
        os.close(follower)
        self.assertIn(b"a.sheet:2:1: ", os.read(leader, 4096))
        os.close(leader)

    def test_files_that_cant_be_read(self) -> None:
        for option in ((), ("--explain",)):
            ran = self.run_script(*option, "play", "a.sheet", "b.plan")
            self.assertEqual((ran.returncode, ran.stdout), (6, b""))
            self.assertEqual(ran.stderr, b"cardhouse: b.plan can't be read: there is no such file\n")
            self.assertEqual(self.run_script(*option, "sheet", "a.sheet", "a.plan").returncode, 2)

    def test_they_are_told_before_the_program_is_built(self) -> None:
        self.program.unlink()
        self.make_kit()
        ran = self.run_script("play", "a.sheet", "b.plan")
        self.assertEqual((ran.returncode, ran.stderr), (6, b"cardhouse: b.plan can't be read: there is no such file\n"))

    def test_a_longer_file_is_handed_over_as_too_long(self) -> None:
        self.write("long", "x" * (LONGEST + 9))
        ran = self.run_script("sheet", "long", note="too long", status=8)
        self.assertEqual((ran.returncode, len(ran.stdout)), (8, LONGEST + 1))

    def test_a_reader_that_ends_ends_the_program(self) -> None:
        self.make(self.program, "#!/bin/sh\nwhile :; do echo more; done\n")
        command = [self.root / "cardhouse", "sheet", "a.sheet"]
        with started(command, cwd=self.root, stdout=subprocess.PIPE) as running:
            assert running.stdout
            running.stdout.close()
            self.assertEqual(running.wait(20), -signal.SIGPIPE)

    def test_tools_beside_the_program_are_handed_the_words(self) -> None:
        self.program.unlink()
        for tool in ("lint", "table", "show", "report", "series"):
            self.make(self.root / "tools" / tool, '#!/bin/sh\necho "$0 $*"\nexit 9\n')
            ran = self.run_script("--explain", tool, "a.sheet", "--csv")
            self.assertEqual((ran.returncode, ran.stdout), (9, f"{self.root}/tools/{tool} a.sheet --csv\n".encode()))


if __name__ == "__main__":
    sys.exit(unittest.main())
