"""Tests of what `bench/limits` is made of."""

import unittest
from pathlib import Path

from limits.growth import MOST, READ, Growing, Growth, growing
from limits.looks import games
from limits.measuring import cost
from limits.page import table_of, with_table
from limits.sources import NO_SHEETS, PLANS, SHEETS, TEXTS, Kind, nest, tree
from limits.stacks import KINDS, MOST_OPEN, deepest, most_open

ROOT = Path(__file__).resolve().parent.parent
PARTS = ("memory", "looks", "stacks", "plays")
SIZE = 1 << 14


class Sources(unittest.TestCase):
    def test_a_kind_fills_its_room(self) -> None:
        self.assertEqual(Kind("letters", "ab", "<", ">").source(7), b"<abab>")
        self.assertEqual(Kind("letters", "ab", "<", ">").between("(", ")").source(9), b"(<abab>)")
        self.assertEqual(Kind("numbers", "%x ", "").source(16), b"0 1 ")

    def test_no_kind_is_longer_than_asked_for_or_much_shorter(self) -> None:
        for kind in (*NO_SHEETS, *SHEETS, *PLANS, *TEXTS):
            with self.subTest(kind.name):
                size = len(kind.source(SIZE))
                self.assertLessEqual(size, SIZE)
                self.assertGreater(size, SIZE * 3 // 4)

    def test_all_but_texts_close_what_they_open(self) -> None:
        for kind in (*SHEETS, *PLANS):
            with self.subTest(kind.name):
                text = kind.source(SIZE).decode()
                self.assertEqual(text.count("("), text.count(")"))
                self.assertLessEqual(most_open(text), MOST_OPEN)

    def test_lists_in_lists(self) -> None:
        self.assertEqual(nest("(a", "b", ")", 2), "(a(ab))")
        self.assertEqual(tree("+", " 0", 2), "(+(+ 0 0)(+ 0 0))")


class Deepest(unittest.TestCase):
    def test_each_kind_is_as_deep_as_may_be(self) -> None:
        for name, kind in KINDS.items():
            with self.subTest(name):
                depth = most_open(deepest(kind))
                self.assertLessEqual(depth, MOST_OPEN)
                self.assertGreaterEqual(depth, MOST_OPEN - 3)

    def test_open_lists_are_counted(self) -> None:
        self.assertEqual([most_open(text) for text in ("", "a", "()", "(()(()))")], [0, 0, 1, 3])


class Games(unittest.TestCase):
    def test_sheets_of_looks_close_what_they_open(self) -> None:
        for game in games():
            self.assertEqual(game.sheet.count("("), game.sheet.count(")"))


class Faults(unittest.TestCase):
    what = Growing(("sheet",), SHEETS[0], READ)

    def faults(self, memory: list[float], instructions: list[float]) -> list[str]:
        return list(Growth(self.what, memory, instructions).faults())

    def test_what_stays_the_same_for_each_byte_is_linear(self) -> None:
        self.assertEqual(self.faults([90, 91, 90], [1000, 1010, 1020]), [])
        self.assertEqual(self.faults([90, 80, 70], []), [])

    def test_what_doubles_for_each_byte_is_not(self) -> None:
        self.assertEqual(self.faults([90, 180, 360], []), [f"the memory of {self.what} isn't linear"])
        self.assertEqual(self.faults([90, 90, 90], [1000, 1000, 1000 * MOST]), [f"the time of {self.what} isn't linear"])

    def test_each_command_that_reads_is_measured(self) -> None:
        self.assertEqual({it.words[0] for it in growing()}, {"sheet", "play", "watch", "rival", "check", "migrate", "measure"})


class Measuring(unittest.TestCase):
    def test_a_run_tells_its_status_and_note(self) -> None:
        took = cost("/bin/sh", ["-c", "read -r line; echo $line >&2; exit 3"], b"said\n")
        self.assertEqual((took.status, took.note), (3, "said"))
        self.assertLess(took.memory, 8192)

    def test_a_run_has_the_stack_that_it_is_given(self) -> None:
        self.assertEqual(cost("/bin/sh", ["-c", "ulimit -s >&2"], b"", 256).note, "256")

    def test_a_run_is_ended_in_time(self) -> None:
        self.assertTrue(cost("/bin/sh", ["-c", "while :; do :; done"], b"", seconds=1).was_ended)


class Page(unittest.TestCase):
    def test_a_table_stands_between_its_marks(self) -> None:
        page = (ROOT / "docs/LIMITS.md").read_text("utf-8")
        for part in PARTS:
            changed = with_table(page, part, table_of([("a", "b"), ("1", "2")]))
            self.assertIn("\n\n| a | b |\n|---|---|\n| 1 | 2 |\n\n<!-- to here -->", changed)
            self.assertEqual(with_table(changed, part, "x\n").count("<!-- to here -->"), len(PARTS))

    def test_without_marks_nothing_is_written(self) -> None:
        self.assertRaises(ValueError, with_table, "a page", "memory", "")


if __name__ == "__main__":
    unittest.main()
