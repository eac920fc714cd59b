"""Tests of what the indentation of a sheet tells of its parentheses."""

import random
import re
import unittest
from collections.abc import Iterator
from pathlib import Path

from faults.explaining import explanation
from faults.indentation import doubts_on
from faults.places import place_of
from faults.sources import File

ROOT = Path(__file__).resolve().parent.parent
SHEETS = sorted([*ROOT.glob("examples/**/*.sheet"), ROOT / "bench/tricks.sheet"])

# How many lines of each sheet are planted with either mistake.
LINES = 4

SHEET = b"""; A sheet with a ) in a comment.
(game
  (setup
    (create players 2)
    (create deck (game hloc STOCK)
      (deck (RANK (1 2 3)))))

  (do
    (shuffle (game hloc STOCK))
    (all player 'P
      (repeat 2
        (move (top (game hloc STOCK)) (top ('P iloc HAND))))))

  (scoring max (size ('SELF iloc HAND))))
"""
PLAN = b"(plan (seats (script) (script)) (matches (0 0)) (turns 9))\n"


def ends_of_lines(text: bytes) -> list[tuple[int, int]]:
    """The lines that end with a `)`, each with the place of that."""
    code = re.finditer(rb"^[^;\n]*(\))[ ]*(?:;.*)?$", text, re.MULTILINE)
    return [(place_of(text, found.start(1)).line, found.start(1)) for found in code]


def planted(text: bytes, at: int) -> Iterator[tuple[str, bytes]]:
    """The text with the `)` at this place missing, and with one too many there."""
    yield "missing", text[:at] + text[at + 1 :]
    yield "too many", text[:at] + text[at:].replace(b")", b"))", 1)


def told(text: bytes) -> list[tuple[str, int, int, int]]:
    """The doubts on a text: what is doubted, from which line to which, and the line that tells it."""
    lines = [(doubt, *(place_of(text, at).line for at in (doubt.since, doubt.at, doubt.line))) for doubt in doubts_on(text)]
    return [("missing" if doubt.missing else "too many", *places) for doubt, *places in lines]


def altered(old: str, new: str) -> bytes:
    assert SHEET.count(old.encode()) == 1, old
    return SHEET.replace(old.encode(), new.encode())


class Doubts(unittest.TestCase):
    def test_sheets_and_plans_that_ship_give_none(self) -> None:
        for sheet in SHEETS:
            with self.subTest(sheet.name):
                self.assertEqual(told(sheet.read_bytes()), [])
        for plan in ROOT.glob("examples/**/*.plan"):
            self.assertEqual(told(SHEET + plan.read_bytes()), [])

    def test_sheets_that_arent_indented_give_none(self) -> None:
        for sheet in SHEETS:
            flat = b"\n".join(line.strip() for line in sheet.read_bytes().splitlines())
            for _, at in ends_of_lines(flat)[::4]:
                for what, text in planted(flat, at):
                    with self.subTest(sheet.name, what=what, at=at):
                        self.assertEqual(told(text), [])

    def test_planted_parentheses_are_found(self) -> None:
        """In lines that are drawn from all that end with one but the last, behind which nothing stands that would tell."""
        draw = random.Random(1)
        for sheet in SHEETS:
            text = sheet.read_bytes()
            for line, at in draw.sample(ends_of_lines(text)[:-1], LINES):
                for what, mistaken in planted(text, at):
                    with self.subTest(sheet.name, what=what, line=line):
                        ((found, since, until, _),) = told(mistaken)
                        self.assertEqual((found, until), (what, line))
                        self.assertLessEqual(since, line)

    def test_where_the_text_ends(self) -> None:
        self.assertEqual(told(SHEET.removesuffix(b")\n")), [("missing", 2, 14, 14)])
        self.assertEqual(told(SHEET.removesuffix(b")\n") + b"\n" + PLAN), [("missing", 2, 14, 15)])
        self.assertEqual(told(SHEET.removesuffix(b"\n") + b")\n" + PLAN), [])

    def test_several_at_one_place(self) -> None:
        text = altered("HAND))))))\n", "HAND))))\n")
        self.assertEqual([it.missing for it in doubts_on(text)], [2])
        self.assertEqual(told(text), [("missing", 10, 12, 14)])
        self.assertEqual(told(altered("(RANK (1 2 3)))))", "(RANK (1 2 3)))))))")), [("too many", 2, 6, 8)])

    def test_a_slip_is_told_twice(self) -> None:
        text = altered("STOCK))\n    (all", "STOCK)\n    (all").replace(b"HAND))))))\n\n", b"HAND)))))))\n\n")
        self.assertEqual(told(text), [("missing", 9, 9, 10), ("too many", 2, 12, 14)])

    def test_one_in_the_middle_of_a_line(self) -> None:
        self.assertEqual(told(altered("(create players 2)", "(create (players) 2))")), [("too many", 3, 4, 5)])
        self.assertEqual(told(altered("(top (game hloc STOCK))", "(top (game hloc STOCK)")), [("missing", 8, 12, 14)])

    def test_a_comment_that_hides_one(self) -> None:
        self.assertEqual(told(altered("HAND))))))\n", "HAND)))) ; ))\n")), [("missing", 10, 12, 14)])

    def test_tabs(self) -> None:
        text = re.sub(rb"^ +", lambda found: b"\t" * (len(found[0]) // 2), SHEET, flags=re.MULTILINE)
        self.assertEqual(told(text), [])
        self.assertEqual(told(text.replace(b"(create players 2)", b"(create players 2")), [("missing", 4, 4, 5)])

    def test_parts_below_the_head_of_the_sheet(self) -> None:
        text = re.sub(rb"^  ", b"", SHEET, flags=re.MULTILINE)
        self.assertEqual(told(text), [])
        self.assertEqual(told(text.replace(b"HAND))))))\n", b"HAND)))))))\n")), [("too many", 2, 12, 14)])
        self.assertEqual(told(text.replace(b"HAND))))))\n", b"HAND)))))\n")), [("missing", 8, 12, 14)])

    def test_nothing_is_read_behind_a_plan(self) -> None:
        text = b"house 1\nmatch 0 deal 0 seats 0\n" * 9
        self.assertEqual(told(SHEET + PLAN + text), [])
        self.assertEqual(told(SHEET.removesuffix(b")\n") + b"\n" + PLAN + text), [("missing", 2, 14, 15)])


class Sentences(unittest.TestCase):
    def said(self, text: bytes, kind: str, at: bytes, files: tuple[File, ...] = ()) -> str:
        return " ".join(explanation(f"sheet {kind} {text.index(at)}", text, ["sheet"], files))

    def test_a_list_that_doesnt_end(self) -> None:
        said = self.said(altered("HAND))))))\n", "HAND)))))\n"), "Unclosed", b"(game")
        self.assertIn("This list is still open where the source ends", said)
        self.assertIn("line 12, column 62: ", said)
        self.assertIn("a `)` is likely missing between line 8, column 3 and here: the list that begins there is to end before "
                      "line 14, which begins no further right.", said)

    def test_a_list_that_ends_too_early(self) -> None:
        text = altered("HAND))))))\n", "HAND)))))))\n")
        said = self.said(text, "Shape", b"(game\n", (File("a.sheet", 0), File("a.plan", len(text))))
        self.assertIn("a.sheet:2:1: This isn't written as its place asks", said)
        self.assertIn("a.sheet:12:63: By the indentation this `)`, or one before it in this line, is likely too many: it ends the "
                      "list of line 2, column 1, and line 14 is written as if it stood inside.", said)

    def test_it_comes_first(self) -> None:
        text = altered("HAND))))))\n", "HAND)))))\n")
        note = f"sheet Unclosed {text.index(b'(game')}"
        places = [line for line in explanation(note, text, ["sheet"]) if line.startswith("line ")]
        self.assertEqual(places, ["line 12, column 62:", "line 2, column 1:"])
        files = (File("a.sheet", 0),)
        said = [line.partition(": ")[0] for line in explanation(note, text, ["sheet"], files) if line.startswith("a.sheet")]
        self.assertEqual(said, ["a.sheet:12:62", "a.sheet:2:1"])

    def test_several(self) -> None:
        said = self.said(altered("HAND))))))\n", "HAND))))\n"), "Unclosed", b"(game")
        self.assertIn("2 `)` are likely missing between line 10, column 5 and here", said)

    def test_in_one_line(self) -> None:
        said = self.said(altered("(create players 2)", "(create players 2"), "Unclosed", b"(game")
        self.assertIn("likely missing between column 5 and here: the list that begins there is to end before line 5", said)

    def test_where_the_text_ends(self) -> None:
        text = SHEET.removesuffix(b")\n")
        self.assertIn("a `)` is likely missing here, where the text ends.", self.said(text, "Unclosed", b"(game"))
        files = (File("a.sheet", 0), File("a.plan", len(text) + 1))
        said = self.said(text + b"\n" + PLAN, "Unclosed", b"(game", files)
        self.assertIn("a.sheet:14:41: By the indentation a `)` is likely missing here, where the text ends.", said)

    def test_what_stands_behind_a_sheet_that_ends_too_early(self) -> None:
        text = altered("HAND))))))\n", "HAND)))))))\n")
        said = self.said(text, "Stray", b")\n", ())
        self.assertNotIn("By the indentation", said)
        self.assertIn("By the indentation this `)`", " ".join(explanation(f"sheet Stray {len(text) - 2}", text, ["sheet"])))

    def test_a_part_inside_is_told_of_doubts_near_it(self) -> None:
        slip = altered("STOCK))\n    (all", "STOCK)\n    (all").replace(b"HAND))))))\n\n", b"HAND)))))))\n\n")
        self.assertIn("missing between column 5 and here", self.said(slip, "Shape", b"(shuffle"))
        self.assertNotIn("By the indentation", self.said(slip, "Shape", b"(create players"))
        self.assertIn("By the indentation", self.said(altered("players 2)", "players 2))"), "Shape", b"(create deck"))

    def test_other_faults_have_other_causes(self) -> None:
        self.assertNotIn("By the indentation", self.said(altered("HAND))))))\n", "HAND)))))\n"), "Unknown", b"'P"))

    def test_a_plan(self) -> None:
        plan = b"(plan\n  (seats (script)\n    (script))\n  (matches\n    (0 0)\n  (turns 9))\n"
        said = self.said(SHEET + plan, "Unclosed", b"(plan", (File("a.sheet", 0), File("a.plan", len(SHEET))))
        self.assertIn("a.plan:1:1: This list is still open", said)
        self.assertIn("a.plan:5:10: By the indentation a `)` is likely missing between line 4, column 3 and here", said)


if __name__ == "__main__":
    unittest.main()
