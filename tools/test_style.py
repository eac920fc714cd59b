"""Tests of tools/style.py."""

import io
import tempfile
import unittest
from contextlib import redirect_stderr
from pathlib import Path

import style
from style import Style

WIDE = "x" * 121


class Faults(unittest.TestCase):
    def setUp(self) -> None:
        folder = tempfile.TemporaryDirectory()
        self.addCleanup(folder.cleanup)
        self.root = Path(folder.name)
        self.write("crates.txt", "rc_a:\nrc_b: rc_a\n")
        self.write("crates/rc_a/src/lib.rt", f"//! What a does.\nfn taken() {{}}\n{'é' * 120}\n{WIDE}\n")
        self.write("crates/rc_a/specs/A.antt", f"{WIDE}\n")
        self.write("crates/rc_a/proofs/f/Answers.antt", f"{WIDE}\n")
        self.write("crates/rc_b/src/lib.rt", "//! What b does.\nfn take() {}\n")
        self.write(style.RECORD, "# head\nrc_a 1 2 0 taken\n")

    def write(self, name: str, text: str) -> None:
        file = self.root / name
        file.parent.mkdir(parents=True, exist_ok=True)
        file.write_text(text)

    def faults(self) -> list[str]:
        return list(style.all_faults(self.root))

    def test_what_is_recorded_is_let_be(self) -> None:
        self.assertEqual(self.faults(), [])
        self.assertEqual(style.style_of(self.root, "rc_a", 3), Style(1, 2, 3, frozenset(["taken"])))

    def test_no_crate_gets_more_wide_lines(self) -> None:
        self.write("crates/rc_a/src/more.rt", f"{WIDE}\n")
        self.write("crates/rc_a/proofs/More.antt", f"{WIDE}\n")
        self.write("crates/rc_b/specs/More.antt", f"{WIDE}\n")
        self.assertEqual(
            self.faults(),
            [
                "rc_a has lines of code wider than 120 columns: 2 in place of 1",
                "rc_a has lines of definitions and proofs wider than 120 columns: 3 in place of 2",
                "rc_b has lines of definitions and proofs wider than 120 columns: 1 in place of 0",
            ],
        )

    def test_no_crate_gets_more_lemmas_that_are_proved_elsewhere(self) -> None:
        self.write("crates/rc_a/specs/Lemmas.antt", "zeros : (n : ℕ) → n + 0 ≡ n\nzeros n = omega arith\n")
        self.write("crates/rc_b/proofs/Lemmas.antt", "none-more : (k : ℕ) → k + 0 ≡ k\nnone-more k = omega arith\n")
        self.assertEqual(
            self.faults(), ["rc_b has lemmas that are proved elsewhere: 1 in place of 0; tools/statements.py lists them"]
        )

    def test_no_function_more_is_named_by_a_participle_alone(self) -> None:
        self.write("crates/rc_b/src/more.rt", "// fn seen()\nfn taken() {}\nfn taken_cards() {}\nfn need() {}\nfn read() {}\nfn Taken() {}\n")
        self.assertEqual(self.faults(), ["rc_b has a function 'taken', which is named by a participle alone"])

    def test_what_is_a_participle(self) -> None:
        for name in ("taken", "seen", "counted", "redrawn", "searching", "unwanted"):
            with self.subTest(name):
                self.assertTrue(style.is_participle(name))
        for name in ("take", "need", "string", "seed", "setting", "red_cards", "set", "put", "edge", "ingot"):
            with self.subTest(name):
                self.assertFalse(style.is_participle(name))

    def test_a_comment_names_files_that_are_there(self) -> None:
        self.write("docs/A.md", "")
        said = "(`docs/A.md`, A.antt), rc_a/specs/A.antt; crates/rc_a/src/lib.rt, lib.rt. Not docs/"
        self.write("crates/rc_b/src/more.rt", f"/// As in {said}\nlet gone = \"docs/gone.md\";\n")
        self.assertEqual(self.faults(), [])
        for name in ("docs/gone.md", "tools/gone", "Gone.antt", "rc_b/specs/A.antt", "gone/lib.rt", "crates/rc_c"):
            with self.subTest(name):
                self.write("crates/rc_b/specs/More.antt", f"a = 1 -- as `{name}`.\n")
                self.assertEqual(self.faults(), [f"crates/rc_b/specs/More.antt: a comment names {name}, which isn't there"])

    def test_the_record_is_written_anew_and_says_where_it_rises(self) -> None:
        self.write("crates/rc_a/src/lib.rt", "fn told() {}\n")
        self.write("crates/rc_b/src/lib.rt", f"{WIDE}\n")
        notes = io.StringIO()
        with redirect_stderr(notes):
            style.renew(self.root, style.styles_of(self.root))
        self.assertEqual((self.root / style.RECORD).read_text(), f"{style.HEAD}rc_a 0 2 0 told\nrc_b 1 0 0\n")
        self.assertEqual(
            notes.getvalue(),
            "tools/style.py: the record rises: rc_a has a function 'told', which is named by a participle alone\n"
            "tools/style.py: the record rises: rc_b has lines of code wider than 120 columns: 1 in place of 0\n",
        )
        self.assertEqual(self.faults(), [])

    def test_where_the_record_can_be_lower(self) -> None:
        (self.root / "crates/rc_a/specs/A.antt").unlink()
        lower = list(style.more_in(style.read_record(self.root), style.styles_of(self.root)))
        self.assertEqual(lower, ["rc_a has lines of definitions and proofs wider than 120 columns: 2 in place of 1"])


class Repository(unittest.TestCase):
    def test_nothing_is_wrong(self) -> None:
        why = "break the lines that came in, and say what is taken, told or made; tools/style.py tells the same"
        self.assertEqual(list(style.all_faults(style.ROOT)), [], why)


if __name__ == "__main__":
    unittest.main()
