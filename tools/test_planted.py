"""Tests of planted/try, with a kit that says what a test tells it."""

import os
import re
import shutil
import stat
import subprocess
import sys
import tempfile
import unittest
from pathlib import Path

from started import run

ROOT = Path(__file__).resolve().parent.parent
SECONDS = 60

# The kit notes its words and the edits that it finds, and says what stands in a file.
KIT = '#!/bin/sh\necho "$@" >"$ROOM/words"\nls -d crates/*/must-fail/*.edit crates/*/src/* >"$ROOM/found"\ncat "$ROOM/says"\nexit "$STATUS"\n'
REFUSED = "rt: must-fail {}: refused, as it must be: src/lib.rt:7:1: error: no"
BY_PROOFS = "rt: must-fail {}: refused, as it must be (only because a proof file names what the edit took away, so this says little): no"
BY_LIMITS = "rt: must-fail {}: refused, as it must be (only by a limit of the prover, which gave no verdict): no"
BAD = "rt: must-fail {}: BAD EDIT: an 'old:' text is in src/lib.rt 0 times, and not once"
MISSED = "rt: must-fail {}: NOT REFUSED: the crate is still proved with this edit"
EDITS = ("rc_a/first.edit", "rc_a/other.edit", "rc_b/first.edit")


class Planted(unittest.TestCase):
    def setUp(self) -> None:
        if not shutil.which("git"):
            reason = "no 'git' on the path"
            print(f"\n{self.id()} is skipped: {reason}", file=sys.stderr)
            self.skipTest(reason)
        folder = tempfile.TemporaryDirectory()
        self.addCleanup(folder.cleanup)
        self.room = Path(folder.name)
        self.root = self.room / "repository"
        self.make(self.room / "bin/rt", KIT)
        self.make(self.root / "planted/try", (ROOT / "planted/try").read_text("utf-8"))
        for edit in EDITS:
            self.make(self.root / "planted" / edit, "file: src/lib.rt\nold: a\nnew: b\n")
        for crate in ("rc_a", "rc_b", "rc_c"):
            self.make(self.root / "crates" / crate / "src/lib.rt", "a\n")
        self.make(self.root / "crates/rc_c/must-fail/own.edit", "file: src/lib.rt\nold: a\nnew: b\n")
        # What git is told of the repository around, as by a hook, isn't handed on.
        self.env = {name: value for name, value in os.environ.items() if not name.startswith("GIT_")}
        set_so = ("-c", "user.name=a", "-c", "user.email=a", "-c", "core.hooksPath=/dev/null")
        for words in (("init", "-q"), ("add", "-A"), (*set_so, "commit", "-q", "-m", "All")):
            subprocess.run(["git", *words], cwd=self.root, env=self.env, check=True, capture_output=True)

    def make(self, file: Path, text: str) -> None:
        file.parent.mkdir(parents=True, exist_ok=True)
        file.write_text(text)
        file.chmod(file.stat().st_mode | stat.S_IXUSR)

    def tried(self, *says: str, words: tuple[str, ...] = (), status: int = 0) -> tuple[int, str, str]:
        """How it ends where the kit says this of the edits, the last line that it writes, and what it notes."""
        (self.room / "says").write_text("".join(f"{line.format(edit)}\n" for line, edit in zip(says, EDITS)))
        path = f"{self.room / 'bin'}:{os.environ['PATH']}"
        env = {**self.env, "PATH": path, "ROOM": str(self.room), "STATUS": str(status)}
        ran = run([self.root / "planted/try", *words], seconds=SECONDS, env=env, text=True)
        return ran.returncode, ran.stdout.splitlines()[-1] if ran.stdout else "", ran.stderr

    def test_all_are_refused(self) -> None:
        status, last, notes = self.tried(REFUSED, REFUSED, REFUSED)
        self.assertEqual((status, notes), (0, ""))
        told = r"\d{4}-\d\d-\d\d, commit [0-9a-f]{12}: (.*)"
        found = re.fullmatch(told, last)
        self.assertTrue(found, last)
        assert found
        said = "3 of 3 planted bodies refused, 0 of them by answers of proofs alone and 0 by a limit of the prover"
        self.assertEqual(found[1], said)

    def test_the_kit_finds_them_beside_those_of_the_crates(self) -> None:
        self.tried(REFUSED, REFUSED, REFUSED)
        self.assertEqual((self.room / "words").read_text(), "ci rc_a rc_b\n")
        places = [f"crates/{edit.replace('/', '/must-fail/')}" for edit in (*EDITS, "rc_c/own.edit")]
        sources = [f"crates/{crate}/src/lib.rt" for crate in ("rc_a", "rc_b", "rc_c")]
        self.assertEqual((self.room / "found").read_text().split(), sorted(places + sources))
        self.assertFalse((self.root / "crates/rc_a/must-fail").exists())

    def test_some_crates_alone(self) -> None:
        self.assertIn(": 2 of 2 planted bodies refused,", self.tried(REFUSED, BY_PROOFS, words=("rc_a",))[1])
        self.assertEqual((self.room / "words").read_text(), "ci rc_a\n")

    def test_how_they_are_refused(self) -> None:
        status, last, _ = self.tried(BY_PROOFS, BY_LIMITS, BY_PROOFS)
        self.assertEqual(status, 0)
        self.assertIn(": 3 of 3 planted bodies refused, 2 of them by answers of proofs alone and 1 by a limit of the prover", last)

    def test_one_that_isnt_refused_fails(self) -> None:
        for said in (BAD, MISSED):
            with self.subTest(said):
                status, last, notes = self.tried(REFUSED, said, REFUSED)
                self.assertEqual((status, notes), (1, f"planted/try: planted/rc_a/other.edit was not refused: {said.format(EDITS[1])}\n"))
                self.assertIn(": 2 of 3 planted bodies refused,", last)

    def test_a_kit_that_fails(self) -> None:
        status, last, notes = self.tried(status=1)
        self.assertEqual((status, notes.count("nothing was said of it")), (1, 3))
        self.assertIn(": 0 of 3 planted bodies refused,", last)

    def test_files_that_were_changed_are_told(self) -> None:
        (self.root / "crates/rc_a/src/lib.rt").write_text("a b\n")
        self.assertRegex(self.tried(REFUSED, REFUSED, REFUSED)[1], "commit [0-9a-f]{12}-dirty: ")


if __name__ == "__main__":
    unittest.main()
