"""Tests of docs/PROVED.md: that each sentence of README.md on what is proved stands in its first table, and that each clause which a
row of any of its tables names stands in a file of that row.
"""

import re
import unittest
from pathlib import Path

ROOT = Path(__file__).resolve().parent.parent

# A function at the begin of a part of a row, with the labels behind it: "`read_forms`: `fault`, `only_fault`".
CARRIER = re.compile(r"`(\w+)`(?:: (`\w+`(?:, `\w+`)*))?")

# Where files of rows lie: those that are named alone are in the second folder.
FOLDERS = [ROOT / "crates", ROOT / "crates/rc_play_spec/src/laws"]


def words_of(text: str) -> str:
    """A text without its punctuation."""
    return " ".join(re.sub(r"[.,:;]", " ", text).lower().split())


def sentences() -> list[str]:
    """The sentences of the README, each up to a colon, behind which it is explained."""
    section = (ROOT / "README.md").read_text("utf-8").partition("\n## What is proved\n")[2].partition("\n## ")[0]
    bullets = re.findall(r"^- (.*)$", section, re.MULTILINE)
    return [sentence.partition(":")[0] for bullet in bullets for sentence in re.split(r"(?<=\.) ", bullet)]


def tables() -> list[list[list[str]]]:
    """The rows of each table of the page."""
    found = re.findall(r"^\|---.*\n((?:\|.*\n)+)", (ROOT / "docs/PROVED.md").read_text("utf-8"), re.MULTILINE)
    return [[[cell.strip() for cell in row.strip("|").split("|")] for row in table.splitlines()] for table in found]


def rows() -> list[list[str]]:
    """The rows of the first table of the page."""
    return tables()[0]


def carriers(row: list[str]) -> list[tuple[str, set[str]]]:
    """The functions that a row names, each with the labels of its clauses."""
    found = [CARRIER.match(part.strip()) for part in row[1].split(";")]
    return [(carrier[1], set(re.findall(r"\w+", carrier[2] or ""))) for carrier in found if carrier]


def files(row: list[str]) -> list[Path]:
    """The files that a row names."""
    return [folder / name for name in re.findall(r"`([^`]+)`", row[2]) for folder in FOLDERS if (folder / name).is_file()]


def labels(file: Path, function: str) -> set[str] | None:
    """The labels of the clauses of the functions of this name in a file, if it has one."""
    parts = re.findall(rf"\bfn {function}\b((?:(?!\bfn ).)*)", file.read_text("utf-8"), re.DOTALL)
    return {label for part in parts for label in re.findall(r"\bensures (\w+) \{", part)} if parts else None


class Promises(unittest.TestCase):
    def test_each_sentence_has_a_row(self) -> None:
        told = words_of(" ".join(row[0] for row in rows()))
        self.assertGreater(len(sentences()), 10)
        for sentence in sentences():
            with self.subTest(sentence):
                self.assertIn(words_of(sentence), told)

    def test_a_row_names_what_carries_it_and_where_that_stands(self) -> None:
        for row in rows():
            with self.subTest(row[0]):
                self.assertEqual(len(row), 3)
                self.assertEqual(bool(row[2]), not row[1].startswith(("nothing:", "no law:", "no clause:")))

    def test_a_file_of_the_row_has_each_clause(self) -> None:
        for row in (row for table in tables() for row in table if row[2]):
            for function, named in carriers(row):
                with self.subTest(f"{row[0]}: {function}"):
                    found = [there for file in files(row) if (there := labels(file, function)) is not None]
                    self.assertTrue(any(named <= there for there in found))


if __name__ == "__main__":
    unittest.main()
