"""Tests of tools/crates.py."""

import tempfile
import unittest
from pathlib import Path

import crates

PICTURE = """# Page

```
rc_c                  a program
rc_b    rc_a          b; a
```

```
rc_other
```
"""


class Faults(unittest.TestCase):
    def setUp(self):
        folder = tempfile.TemporaryDirectory()
        self.addCleanup(folder.cleanup)
        self.root = Path(folder.name)
        self.write("crates.txt", "# crates\nrc_a:\nrc_b: rc_a lru\nrc_c status=3: rc_b\n")
        self.write("crates/rc_a/src/lib.rt", "//! What a does.\n//! Stands on no other crate.\n\npub use rows::f;\n")
        self.write("crates/rc_b/src/lib.rt", "//! What b does.\n//! Stands on rc_a, never on rc_c.\n\nuse lru::LruCache;\n")
        self.write("crates/rc_b/specs/Lib.antt", "use Rattle.rc_a.specs.A.{a}\nuse Rattle.std.specs.Int.{b}\n")
        self.write("crates/rc_c/src/main.rt", "//! What c does.\n//! Stands on rc_b.\n\nfn main() { rc_b::run() }\n")
        self.write(crates.PICTURE, PICTURE)
        self.write(crates.LONG_PAGE, "short\n")

    def write(self, name, text):
        file = self.root / name
        file.parent.mkdir(parents=True, exist_ok=True)
        file.write_text(text)

    def faults(self):
        return list(crates.all_faults(self.root))

    def test_nothing_is_wrong(self):
        self.assertEqual(self.faults(), [])

    def test_what_is_named_is_to_be_listed(self):
        for name, text in (
            ("src/f.rt", "use rc_a::f;\n"),
            ("src/f.rt", "ghost use Rattle.rc_a.specs.A.a;\n"),
            ("src/f.rt", "fn f() -> rc_a::A\n"),
            ("proofs/f/Answers.antt", "use Rattle.rc_a.proofs.A.{a}\n"),
        ):
            with self.subTest(text=text):
                self.write(f"crates/rc_c/{name}", text)
                self.assertEqual(self.faults(), ["rc_c names rc_a, which isn't listed for it"])
                (self.root / "crates/rc_c" / name).unlink()

    def test_libraries_of_the_kit_are_named_too(self):
        self.write("crates/rc_a/src/rows.rt", "use lru::LruCache;\n")
        self.assertEqual(self.faults(), ["rc_a names lru, which isn't listed for it"])

    def test_comments_and_modules_name_nothing(self):
        self.write("crates/rc_a/src/rows.rt", "//! As rc_b::f.\nuse crate::lru::f; // rc_c::f\nself.rc_b.f();\n")
        self.write("crates/rc_a/specs/A.antt", "-- as Rattle.rc_b.specs.B\na = a.rc_b\n")
        self.assertEqual(self.faults(), [])

    def test_what_is_never_named_is_told_and_dropped(self):
        kept = (self.root / "crates.txt").read_text()
        self.write("crates.txt", kept.replace("rc_c status=3: rc_b", "rc_c status=3: rc_a rc_b lru"))
        told = [f"rc_c never names {it}, which is listed for it: tools/crates.py drop takes it out" for it in ("lru", "rc_a")]
        self.assertEqual(self.faults(), told)
        crates.drop(self.root)
        self.assertEqual((self.root / "crates.txt").read_text(), kept)

    def test_crates_are_those_that_are_there(self):
        self.write("crates/rc_d/src/lib.rt", "//! What d does.\n")
        (self.root / "crates/rc_c/src/main.rt").unlink()
        (self.root / "crates/rc_c/src").rmdir()
        self.assertEqual(
            list(crates.listing_faults(self.root)),
            ["crates.txt lists rc_c, which isn't there", "crates.txt doesn't list rc_d"],
        )

    def test_the_picture_has_each_crate_once(self):
        self.write(crates.PICTURE, PICTURE.replace("rc_c", "rc_d    rc_a"))
        self.assertEqual(
            self.faults(),
            ["the picture lacks rc_c", "the picture has no such crate as rc_d", "the picture has rc_a more than once"],
        )

    def test_a_crate_stands_on_lower_ones_or_on_one_further_right(self):
        for lines in ("rc_a\nrc_c\nrc_b\n", "rc_c\nrc_a    rc_b\n"):
            with self.subTest(lines=lines):
                self.write(crates.PICTURE, f"```\n{lines}```\n")
                self.assertEqual(self.faults(), ["the picture has rc_a above rc_b, or before it, which stands on it"])

    def test_a_crate_says_what_it_does(self):
        self.write("crates/rc_a/src/lib.rt", "pub use rows::f;\n")
        self.assertEqual(list(crates.head_faults(self.root)), ["rc_a doesn't begin with a sentence on what it does"])

    def test_a_crate_says_what_it_stands_on(self):
        for head in ("What c does.", "What c does. Stands on rc_a.", "What c does. Stands on rc_a and rc_b.", "Stands on no other crate."):
            with self.subTest(head=head):
                self.write("crates/rc_c/src/main.rt", f"//! {head}\n\nfn main() {{ rc_b::run() }}\n")
                self.assertEqual(self.faults(), ["the head of rc_c is to say: Stands on rc_b."])

    def test_only_the_highest_are_told(self):
        self.write("crates.txt", "rc_a:\nrc_b: rc_a lru\nrc_c: rc_a rc_b\nrc_d: rc_a\nrc_e: rc_a rc_b rc_d\n")
        listed = crates.listed(self.root)
        self.assertEqual([crates.joined(crates.told_below(listed, crate)) for crate in listed], ["", "rc_a", "rc_b", "rc_a", "rc_b and rc_d"])
        self.assertEqual(crates.joined(["rc_a", "rc_b", "rc_c"]), "rc_a, rc_b and rc_c")

    def test_a_crate_never_stands_on_what_its_head_says(self):
        for others, fault in (
            ("rc_a", "rc_c stands on rc_a, and its head says that it never does"),
            ("rc_c", "rc_c stands on rc_c, and its head says that it never does"),
            ("rc_d", "the head of rc_c names rc_d, which isn't there"),
        ):
            with self.subTest(others=others):
                self.write("crates/rc_c/src/main.rt", f"//! What c does. Stands on rc_b, never on\n//! {others}.\n\nfn main() {{ rc_b::run() }}\n")
                self.assertEqual(self.faults(), [fault])

    def test_a_long_line_is_told(self):
        self.write(crates.LONG_PAGE, f"{'é' * 500}\n{'e' * 501}\n")
        self.assertEqual(self.faults(), ["docs/PROVED.md: line 2 has 501 letters, and may have 500: split the paragraph"])


class Repository(unittest.TestCase):
    def test_nothing_is_wrong(self):
        self.assertEqual(list(crates.all_faults(crates.ROOT)), [])


if __name__ == "__main__":
    unittest.main()
