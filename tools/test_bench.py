"""Tests that the sheet which the benches measure is the game that `bench` plays."""

import re
import unittest
from difflib import unified_diff
from pathlib import Path

from faults.tokens import tokens

ROOT = Path(__file__).resolve().parent.parent
SHEET = ROOT / "bench/tricks.sheet"
CODE = ROOT / "crates/rc_trick/src/game.rt"

MEND = "change the sheet to what `trick_text` says, which is proved to be accepted; white space and comments mean nothing"


def byte_string(code: str) -> str:
    """The text of the one byte string of a source file. A backslash at the end of a line leaves out the white space behind it."""
    (written,) = re.findall(r'(?<!\w)b"((?:[^"\\]|\\.)*)"', code, re.DOTALL)
    escapes = {"n": "\n", "t": "\t", "r": "\r", "\\": "\\", '"': '"'}
    return re.sub(r"\\(?:\n\s*|(.))", lambda found: escapes[found[1]] if found[1] else "", written)


def words_of(sheet: str) -> list[str]:
    """The parentheses and the atoms of a sheet, a line each."""
    return [f"{token.text}\n" for token in tokens(sheet.encode("latin-1"))]


class ByteStrings(unittest.TestCase):
    def test_escapes_and_lines_that_go_on(self) -> None:
        self.assertEqual(byte_string('{\n    b"(a\\n\\\n      b)\\n\\\n\n      \\"c\\\\"\n}\n'), '(a\nb)\n"c\\')

    def test_only_one_may_stand_there(self) -> None:
        for code in ("", 'b"a" b"b"'):
            self.assertRaises(ValueError, byte_string, code)
        self.assertRaises(KeyError, byte_string, r'b"\x41"')


class Tricks(unittest.TestCase):
    def test_the_sheet_says_what_the_text_in_the_code_says(self) -> None:
        text = words_of(byte_string(CODE.read_text("utf-8")))
        sheet = words_of(SHEET.read_text("latin-1"))
        differing = list(unified_diff(sheet, text, str(SHEET.relative_to(ROOT)), str(CODE.relative_to(ROOT)), n=0))
        self.assertFalse(differing, f"{MEND}\n{''.join(differing)}")


if __name__ == "__main__":
    unittest.main()
