"""Tests of tools/edits.py."""

import tempfile
import unittest
from pathlib import Path

import edits

LOWER = """\
//! What a does.

/// As Gone says.
pub struct Key {
    pub at: u16,
}

pub enum Kind {
    Plain,
    Marked(u8),
}

pub fn found(list: &[Key]) -> Option<&Key>
    ensures { IfSome result (λ key. key.at ≡ 0) }
{
    list.first()
}
"""
UPPER = "//! What b does.\n\nfn look(key: &Key) -> bool {\n    let all = [key];\n    same(all[0], key)\n}\n"
OTHER = "//! What c does.\n\npub struct Mark;\n\nfn late(list: &Vec<u8>) -> usize {\n    list.len()\n}\n"


class Faults(unittest.TestCase):
    def setUp(self) -> None:
        folder = tempfile.TemporaryDirectory()
        self.addCleanup(folder.cleanup)
        self.root = Path(folder.name)
        self.write("crates.txt", "rc_a:\nrc_b: rc_a\nrc_c: rc_a\n")
        for crate, text in (("rc_a", LOWER), ("rc_b", UPPER), ("rc_c", OTHER)):
            self.write(f"crates/{crate}/src/lib.rt", text)

    def write(self, name: str, text: str) -> None:
        file = self.root / name
        file.parent.mkdir(parents=True, exist_ok=True)
        file.write_text(text)

    def faults(self, *pairs: tuple[str, str], where: str = "planted/rc_b") -> list[str]:
        lines = "".join(f"old: {old}\nnew: {new}\n" for old, new in pairs)
        self.write(f"{where}/wrong.edit", f"file: src/lib.rt\n{lines}")
        return [fault.partition(".edit: ")[2] for fault in edits.all_faults(self.root)]

    def of_name(self, new: str) -> list[str]:
        return self.faults(("same(all[0], key)", new))

    def test_an_edit_that_fits(self) -> None:
        self.assertEqual(self.of_name("same(key, key)"), [])
        self.assertEqual(self.faults(("same(all[0], key)", "same(key, key)"), where="crates/rc_b/must-fail"), [])

    def test_a_text_stands_once(self) -> None:
        self.assertEqual(self.faults(("same(all[1], key)", "true")), ["'same(all[1], key)' stands 0 times in src/lib.rt, and not once"])
        self.assertEqual(self.faults(("all", "key")), ["'all' stands 2 times in src/lib.rt, and not once"])
        self.assertEqual(self.faults(), ["it replaces nothing"])

    def test_texts_are_replaced_one_after_the_other(self) -> None:
        self.assertEqual(self.faults(("all[0]", "key"), ("same(key, key)", "true")), [])
        self.assertEqual(self.faults(("[key]", "[key, key]"), ("[key]", "[]")), ["'[key]' stands 0 times in src/lib.rt, and not once"])

    def test_a_file_is_there(self) -> None:
        self.write("planted/rc_b/wrong.edit", "file: src/gone.rt\nold: a\nnew: b\n")
        told = ["planted/rc_b/wrong.edit: there is no file 'src/gone.rt' in rc_b"]
        self.assertEqual(list(edits.all_faults(self.root)), told)

    def test_names_of_the_crate_of_those_below_and_of_the_library(self) -> None:
        for new in (
            "found(&[]).is_some() && look(key)",
            "rc_a::found(&[]).is_some()",
            "key.at == Kind::Plain as u16",
            "matches(Kind::Marked(7), all.len())",
        ):
            with self.subTest(new):
                self.write("crates/rc_c/src/more.rt", "fn more(all: &Vec<u8>) { found(&[]).is_some(); matches(all) }\n")
                self.assertEqual(self.of_name(new), [])

    def test_names_that_are_nobodys(self) -> None:
        for new, name in (
            ("Mark::of(key)", "Mark"),
            ("late(key)", "late"),
            ("lost(key)", "lost"),
            ("key.lost", "lost"),
            ("key.lost()", "lost"),
            ("Kind::Lost", "Lost"),
            ("lost::look(key)", "lost"),
            ("key.at == Gone", "Gone"),
        ):
            with self.subTest(new):
                self.assertIn(f"there is no '{name}' in rc_b, in a crate below it or among the library's names that code uses ({edits.ADDED})", self.of_name(new))

    def test_what_an_edit_declares_and_what_is_no_code(self) -> None:
        used = ("same(all[0], key)", "mine(key) || b\"Lost(x)\".len() == 'L' as usize // Lost")
        declared = "fn mine<'a>(key: &'a Key) -> bool { true }"
        self.assertEqual(self.faults(used, ("fn look", f"{declared} fn look")), [])
        told = [f"there is no 'mine' in rc_b, in a crate below it or among the library's names that code uses ({edits.ADDED})"]
        self.assertEqual(self.faults(used, ("//! What b does.", f"//! What b does. {declared}")), told)


class Repository(unittest.TestCase):
    def test_each_edit_fits(self) -> None:
        self.assertEqual(list(edits.all_faults(edits.ROOT)), [])

    def test_there_are_some(self) -> None:
        self.assertGreater(len(list(edits.edits_of(edits.ROOT))), 10)


if __name__ == "__main__":
    unittest.main()
