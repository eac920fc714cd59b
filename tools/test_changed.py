"""Tests of tools/changed."""

import io
import os
import subprocess
import tempfile
import unittest
from contextlib import redirect_stderr, redirect_stdout
from pathlib import Path
from unittest.mock import patch

import changing
from crates import listed
from tables.ending import NOT_BUILT, USAGE

# The crates stand in another order than they are proved.
LISTED = "rc_top: rc_mid rc_low lru\nrc_mid: rc_low\nrc_low:\nrc_side: rc_low\n"
TIMES = "rc_low proof 10 alone\nrc_mid proof 20 busy\nrc_mid edits 4 alone\nrc_top tests 3 alone\n"
AS_NAMED = {"GIT_AUTHOR_NAME": "a", "GIT_AUTHOR_EMAIL": "a@b", "GIT_COMMITTER_NAME": "a", "GIT_COMMITTER_EMAIL": "a@b"}

# The kit's command: it notes where it runs, and fails in the crate that it is told.
KIT = '#!/bin/sh\necho "$(basename "$PWD") $*" >>"$SAID"\n[ "$(basename "$PWD")" != "$FAILS" ] || exit 3\n'


class InCheckout(unittest.TestCase):
    """Tests in a small checkout of their own."""

    def setUp(self) -> None:
        folder = tempfile.TemporaryDirectory()
        self.addCleanup(folder.cleanup)
        self.root = Path(folder.name, "root")
        self.write("crates.txt", LISTED)
        self.write(changing.SECONDS, TIMES)
        self.write(".gitignore", "out/\n")
        for crate in ("rc_low", "rc_mid", "rc_side", "rc_top"):
            self.write(f"crates/{crate}/src/lib.rt", f"//! {crate}\n")
        self.write("crates/rc_mid/must-fail/wrong.edit", "")
        self.write("crates/rc_top/src/tests.rt", "")
        self.git("init", "-q")
        self.commit()

    def write(self, name: str, text: str) -> None:
        file = self.root / name
        file.parent.mkdir(parents=True, exist_ok=True)
        file.write_text(text)

    def git(self, *words: str) -> None:
        subprocess.run(["git", *words], cwd=self.root, check=True, capture_output=True, env={**os.environ, **AS_NAMED})

    def commit(self) -> None:
        self.git("add", "-A")
        self.git("commit", "-q", "-m", "a")

    def change(self, revision: str = "HEAD") -> dict[str, int]:
        return changing.change_of(self.root, revision).crates

    def run_tool(self, *words: str) -> tuple[int, str, str]:
        told, notes = io.StringIO(), io.StringIO()
        with redirect_stdout(told), redirect_stderr(notes):
            status = changing.main([*words], self.root)
        return status, told.getvalue(), notes.getvalue()


class Changed(InCheckout):
    def test_nothing_is_changed(self) -> None:
        self.assertEqual(self.run_tool(), (0, "no crate is touched\n", ""))

    def test_those_above_come_behind_in_order(self) -> None:
        self.write("crates/rc_low/proofs/f/Answers.antt", "a\n")
        self.assertEqual(list(self.change().items()), [("rc_low", 1), ("rc_mid", 0), ("rc_top", 0), ("rc_side", 0)])
        self.git("add", "-A")
        self.assertEqual(self.change()["rc_low"], 1)

    def test_a_crate_alone(self) -> None:
        for name in ("src/lib.rt", "specs/A.antt", "proofs/A.antt"):
            with self.subTest(name):
                self.write(f"crates/rc_top/{name}", "a\n")
                self.assertEqual(self.change(), {"rc_top": 1})
                self.commit()
                self.assertEqual(self.change(), {})

    def test_files_that_are_gone_or_have_other_names(self) -> None:
        (self.root / "crates/rc_side/src/lib.rt").rename(self.root / "crates/rc_side/src/main.rt")
        self.assertEqual(self.change(), {"rc_side": 2})

    def test_what_no_proof_reads(self) -> None:
        for name in ("crates/rc_low/must-fail/a.edit", "crates/rc_low/stdout", "crates/rc_low/out/src/lib.rt", "docs/A.md", "B.md"):
            self.write(name, "a\n")
        said = "no crate is touched\nno proof reads what was changed of B.md (1), crates (2), docs (1)\n"
        self.assertEqual(self.run_tool(), (0, said, ""))

    def test_another_revision(self) -> None:
        self.write("crates/rc_mid/src/lib.rt", "a\n")
        self.commit()
        self.assertEqual(self.change(), {})
        self.assertEqual(self.change("HEAD~1"), {"rc_mid": 1, "rc_top": 0})

    def test_what_is_listed_for_a_crate(self) -> None:
        self.write("crates.txt", f"# crates\n{LISTED.replace('rc_side: rc_low', 'rc_side: rc_low itoa')}")
        self.assertEqual(self.change(), {"rc_side": 0})
        self.write("crates.txt", f"{LISTED}rc_new: rc_mid\n")
        self.assertEqual(self.change(), {"rc_new": 0})

    def test_a_crate_that_is_not_listed(self) -> None:
        self.write("crates/rc_new/src/lib.rt", "a\n")
        self.assertEqual(self.run_tool()[1], "no crate is touched\ncrates.txt doesn't list rc_new\n")

    def test_the_table_has_sums_and_says_what_is_unknown(self) -> None:
        self.write("crates/rc_mid/src/lib.rt", "a\n")
        self.write("crates/rc_mid/specs/A.antt", "a\n")
        self.write("crates/rc_low/out/rlib/stamp", "a\n")
        rows = [line.split() for line in self.run_tool()[1].splitlines()]
        self.assertEqual(
            rows,
            [
                ["crate", "proof", "edits", "tests", "changed"],
                ["rc_mid", "20*", "4", "2", "files"],
                ["rc_top", "?", "3"],
                ["all", "2", "20", "4", "3", "in", "all", "27", "seconds"],
                ["unknown:", "rc_top", "(proof)"],
            ],
        )

    def test_crates_below_of_which_there_is_no_library(self) -> None:
        self.write("crates/rc_top/src/lib.rt", "a\n")
        both = "below rc_top no check has left a library here of rc_low, rc_mid:\n`rt check` proves these first (30 seconds) if "
        self.assertIn(both, self.run_tool()[1])
        # What the gate leaves has no stamp.
        self.write("crates/rc_mid/out/rlib/rc_mid.rlib/sum", "a\n")
        self.assertIn(both, self.run_tool()[1])
        self.write("crates/rc_mid/out/rlib/stamp", "a\n")
        self.assertIn("a library here of rc_low:\n`rt check` proves these first (10 seconds) if ", self.run_tool()[1])
        self.write("crates/rc_low/out/rlib/stamp", "a\n")
        self.assertNotIn("below", self.run_tool()[1])

    def test_no_times_are_known(self) -> None:
        (self.root / changing.SECONDS).unlink()
        self.commit()
        self.write("crates/rc_side/src/lib.rt", "a\n")
        self.assertIn("unknown: rc_side (proof)\n", self.run_tool()[1])

    def test_wrong_words(self) -> None:
        for words in (["--checks"], ["HEAD", "HEAD"], ["HEAD", "--check"], ["--check", "--check"]):
            with self.subTest(words):
                status, said, notes = self.run_tool(*words)
                self.assertEqual((status, said), (USAGE, ""))
                self.assertIn("usage: tools/changed ", notes)

    def test_no_such_revision(self) -> None:
        self.assertEqual(self.run_tool("gone"), (USAGE, "", "tools/changed: there is no revision 'gone'\n"))

    def test_no_checkout(self) -> None:
        with patch.dict(os.environ, {"GIT_DIR": str(self.root / "gone")}):
            status, _, notes = self.run_tool()
        self.assertEqual(status, USAGE)
        self.assertIn("tools/changed: fatal: not a git repository", notes)


class Checked(InCheckout):
    """What `--check` runs."""

    def check(self, fails: str = "") -> tuple[int, str, str]:
        """How it ends, what it notes, and where the kit's command ran."""
        kit = self.root.parent / "bin/rt"
        kit.parent.mkdir()
        kit.write_text(KIT)
        kit.chmod(0o755)
        said = self.root.parent / "said"
        said.touch()
        path = f"{kit.parent}:{os.environ['PATH']}"
        with patch.dict(os.environ, {"PATH": path, "SAID": str(said), "FAILS": fails}):
            status, _, notes = self.run_tool("--check")
        return status, notes, said.read_text()

    def test_each_is_checked(self) -> None:
        self.write("crates/rc_mid/src/lib.rt", "a\n")
        notes = "tools/changed: rt check in rc_mid\ntools/changed: rt check in rc_top\n"
        self.assertEqual(self.check(), (0, notes, "rc_mid check\nrc_top check\n"))

    def test_it_stops_at_the_first_that_fails(self) -> None:
        self.write("crates/rc_low/src/lib.rt", "a\n")
        status, notes, ran = self.check("rc_mid")
        self.assertEqual((status, ran), (3, "rc_low check\nrc_mid check\n"))
        self.assertEqual(notes.splitlines()[-1], "tools/changed: rc_mid isn't proved; not checked: rc_top, rc_side")

    def test_nothing_is_to_be_checked(self) -> None:
        self.assertEqual(self.check(), (0, "", ""))

    def test_there_is_no_kit(self) -> None:
        with patch("changing.shutil.which", lambda name: None):
            status, _, notes = self.run_tool("--check")
        self.assertEqual(status, NOT_BUILT)
        self.assertIn("install the Rattle kit", notes)


class Repository(unittest.TestCase):
    def test_each_crate_stands_behind_those_that_it_stands_on(self) -> None:
        crates = listed(changing.ROOT)
        order = changing.lowest_first(crates)
        self.assertEqual(sorted(order), sorted(crates))
        for crate, libraries in crates.items():
            for library in {*libraries} & {*crates}:
                self.assertLess(order.index(library), order.index(crate))


if __name__ == "__main__":
    unittest.main()
