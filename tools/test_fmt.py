"""Tests of `fmt`: the lists, their words and the comments of a text stay, twice is once, and how lines are broken."""

from __future__ import annotations

import random
import shutil
import tempfile
import unittest
from contextlib import redirect_stderr, redirect_stdout
from functools import cache
from io import BytesIO, StringIO, TextIOWrapper
from itertools import islice
from pathlib import Path

from built import PROGRAM, ROOT, skip_unless_built
from cases.checking import read_folder
from faults.tokens import tokens
from formatting.layout import WIDTH
from formatting.reading import comments_of
from formatting.running import formatted, main
from linting.trees import Unreadable, read_lists
from started import run

SHEETS = sorted([*ROOT.glob("examples/**/*.sheet"), *ROOT.glob("bench/*.sheet"), *ROOT.glob("docs/*.sheet")])
PLANS = sorted(ROOT.glob("examples/**/*.plan"))

# The folders of cases from whose sources some are drawn: so many, and so many of which the program prints the sheet.
FOLDERS = ("forms", "meaning", "plan", "print", "shape", "sight")
SOURCES, PRINTED = 250, 20

LINE = b"""\
; A game.
(game (setup (create players 2) ; two
; the cards
(create deck (game hloc STOCK) (deck (RANK (1 2 3))))) (do (shuffle (game hloc STOCK)) (repeat 2 (all player 'P (move (top (game hloc STOCK))
 (top ('P iloc HAND)))))) ; dealt


(stage player (end (all player 'P (= (size ('P iloc HAND)) 0)))
(choice (any ((current player) iloc HAND) 'C (do (move 'C (top (game vloc PILE)))))
; nothing else
)) (scoring max 0)
) ; the end
; and more
"""
LAID_OUT = b"""\
; A game.
(game
  (setup
    (create players 2) ; two
    ; the cards
    (create deck (game hloc STOCK) (deck (RANK (1 2 3)))))
  (do
    (shuffle (game hloc STOCK))
    (repeat 2
      (all player 'P
        (move (top (game hloc STOCK))
          (top ('P iloc HAND)))))) ; dealt

  (stage player
    (end (all player 'P (= (size ('P iloc HAND)) 0)))
    (choice
      (any ((current player) iloc HAND) 'C
        (do (move 'C (top (game vloc PILE)))))
      ; nothing else
      ))
  (scoring max 0)) ; the end
; and more
"""

# All in one line, without a comment: the parts of the game stand apart.
FLAT = b"(game(setup(create players 1)(create deck(game hloc S)(deck(R(A)))))(do(cycle reverse))(scoring max 0))"
APART = b"""\
(game
  (setup
    (create players 1)
    (create deck (game hloc S) (deck (R (A)))))

  (do (cycle reverse))

  (scoring max 0))
"""


def words(text: bytes) -> list[str]:
    return [token.text for token in tokens(text)]


def widest(text: bytes) -> int:
    """How wide the widest line is without its comment."""
    return max(len(line.partition(b";")[0].rstrip()) for line in text.splitlines())


@cache
def sources() -> list[bytes]:
    """Sources of the cases whose lists can be read, drawn by chance."""
    cases = [case for folder in FOLDERS for _, of_file in read_folder(ROOT / "cases" / folder) for case in of_file]
    found = list(dict.fromkeys(case.source for case in cases))
    random.Random(1).shuffle(found)
    read = (source for source in map(str.encode, found) if is_of_lists(source))
    return list(islice(read, SOURCES))


def is_of_lists(source: bytes) -> bool:
    try:
        return len(source) < 20_000 and bool(read_lists(source))
    except Unreadable:
        return False


class Same(unittest.TestCase):
    def keeps(self, text: bytes) -> bytes:
        """Asks that words and comments stay, and that twice is once."""
        made = formatted("a", text)
        self.assertEqual(words(made), words(text))
        self.assertEqual(list(comments_of(made)), list(comments_of(text)))
        self.assertEqual(formatted("a", made), made)
        self.assertTrue(made.endswith(b"\n") and not made.endswith(b"\n\n"))
        return made

    def test_texts_that_ship(self) -> None:
        for file in SHEETS + PLANS:
            with self.subTest(file.relative_to(ROOT)):
                text = file.read_bytes()
                made = self.keeps(text)
                self.assertLessEqual(widest(made), WIDTH)
                if widest(text) <= WIDTH:
                    self.assertEqual(made, text)

    def test_texts_that_ship_in_one_line_or_with_a_line_for_each_word(self) -> None:
        for number, file in enumerate(SHEETS):
            text = file.read_bytes()
            for between in (b" ", (b"\n", b" ; a comment\n", b"\n; a comment\n\n\n")[number % 3]):
                with self.subTest(file.relative_to(ROOT), between=between):
                    made = self.keeps(between.join(token.encode() for token in words(text)))
                    if between == b" ":
                        self.assertLessEqual(widest(made), WIDTH)

    def test_texts_of_the_cases(self) -> None:
        self.assertEqual(len(sources()), SOURCES)
        for text in sources():
            with self.subTest(text[-300:]):
                self.keeps(text)

    def test_the_program_prints_the_same(self) -> None:
        skip_unless_built()
        texts = [*(file.read_bytes() for file in SHEETS), *sources()[:PRINTED]]
        for text in texts:
            with self.subTest(text[:300]):
                before, now = (run([PROGRAM, "sheet"], it, seconds=60) for it in (text, formatted("a", text)))
                self.assertEqual(now.stdout, before.stdout)
                self.assertEqual(now.stderr.split()[:2], before.stderr.split()[:2])

    @unittest.skipUnless(shutil.which("vim"), "no Vim on the path")
    def test_vim_indents_it_so(self) -> None:
        with tempfile.TemporaryDirectory() as folder:
            made = [formatted("a", b" ".join(token.encode() for token in words(file.read_bytes()))) for file in SHEETS]
            files = [Path(folder, f"{number}.sheet") for number in range(len(made))]
            for file, text in zip(files, made):
                file.write_bytes(text)
            script = [f"set nocompatible runtimepath^={ROOT}/editors/vim", "filetype plugin on"]
            script += [it for file in files for it in (f"edit {file}", "normal gg=G", "write")] + ["qall!", ""]
            Path(folder, "script.vim").write_text("\n".join(script))
            run(["vim", "-u", "NONE", "-es", "-S", Path(folder, "script.vim")], seconds=300, cwd=folder)
            self.assertEqual([file.read_bytes() for file in files], made)


class Lines(unittest.TestCase):
    def test_a_sheet(self) -> None:
        self.assertEqual(formatted("a", LINE), LAID_OUT)
        self.assertEqual(formatted("a", FLAT), APART)

    def test_a_list_stays_over_lines(self) -> None:
        for text in (b"(a (b c)\n   (d e))\n", b"(a\n  b c)\n", b"(and\n  (a)\n  (b))\n", b"((a b)\n (c d) (e f)\n (g h))\n"):
            self.assertEqual(formatted("a", text), text)

    def test_what_is_too_wide_is_broken(self) -> None:
        test = b"(> (size (game vloc AAAAAAAAAAAAAAAAAAAA)) (size (game vloc BBBBBBBBBBBBBBBBBBBB)))"
        made = formatted("a", b"(if (and %s %s) (cycle reverse) (cycle reverse))" % (test, test))
        self.assertEqual(made, b"(if (and %s\n         %s)\n  (cycle reverse)\n  (cycle reverse))\n" % (test, test))
        values = b" ".join(b"VALUE-%d" % number for number in range(30))
        made = formatted("a", b"(deck (RANK (%s)))" % values)
        self.assertLessEqual(widest(made), WIDTH)
        self.assertEqual(made.count(b"\n"), 4)

    def test_white_space(self) -> None:
        self.assertEqual(formatted("a", b"\t( a,b\r\n,\tc )\r\n\r\n; x \t\r\n"), b"(a b\n   c)\n\n; x\n")

    def test_bytes_of_comments_stay(self) -> None:
        text = "; Kőr \x1b[0m\n(a)\n".encode()
        self.assertEqual(formatted("a", text), text)


class Commands(unittest.TestCase):
    def setUp(self) -> None:
        folder = tempfile.TemporaryDirectory()
        self.addCleanup(folder.cleanup)
        self.root = Path(folder.name)
        self.file = self.root / "a.sheet"
        self.file.write_bytes(LINE)
        self.other = self.root / "b.sheet"
        self.other.write_bytes(LAID_OUT)

    def ran(self, *words: object) -> tuple[int, str, str]:
        out, notes = TextIOWrapper(BytesIO(), write_through=True), StringIO()
        with redirect_stdout(out), redirect_stderr(notes):
            try:
                status = main([str(word) for word in words])
            except SystemExit as ended:
                status = int(ended.code or 0)
        return status, out.buffer.getvalue().decode(), notes.getvalue()  # type: ignore[attr-defined]

    def test_it_is_written_to_standard_output(self) -> None:
        self.assertEqual(self.ran(self.file), (0, LAID_OUT.decode(), ""))
        self.assertEqual(self.file.read_bytes(), LINE)

    def test_check_names_files_that_are_laid_out_otherwise(self) -> None:
        self.assertEqual(self.ran("--check", self.other, self.file), (1, f"{self.file}: laid out otherwise\n", ""))
        self.assertEqual(self.ran("--check", self.other), (0, "", ""))
        self.assertEqual(self.file.read_bytes(), LINE)

    def test_write_writes_what_is_laid_out_otherwise(self) -> None:
        self.file.chmod(0o640)
        link = self.root / "link.sheet"
        link.symlink_to(self.file)
        time = self.other.stat().st_mtime_ns
        self.assertEqual(self.ran("--write", link, self.other), (0, "", ""))
        self.assertEqual((self.file.read_bytes(), self.file.stat().st_mode & 0o777), (LAID_OUT, 0o640))
        self.assertTrue(link.is_symlink())
        self.assertEqual(self.other.stat().st_mtime_ns, time)
        self.assertEqual({it.name for it in self.root.iterdir()}, {"a.sheet", "b.sheet", "link.sheet"})

    def test_no_file_is_written_that_is_longer_than_a_sheet(self) -> None:
        text = b"(game (do " + b"(if (= 0 0) " * 58 + b"(cycle reverse)" * 9000 + b")" * 60
        self.file.write_bytes(text)
        said = f"{self.file}: laid out it has more than 1048576 bytes, which no command reads; nothing is written\n"
        self.assertEqual(self.ran("--write", self.other, self.file), (8, "", said))
        self.assertEqual(self.file.read_bytes(), text)
        self.assertEqual(self.ran("--check", self.file)[0], 1)

    def test_refusals(self) -> None:
        for text, why in ((b"(game", "a `)` is missing"), (b"(game))", "`)` stands outside of all lists"), (b"x", "`x` stands outside of all lists")):
            self.file.write_bytes(text)
            said = f"{self.file} can't be read as lists: {why}; `./cardhouse sheet` tells its fault\n"
            self.assertEqual(self.ran("--write", self.other, self.file), (4, "", said))
            self.assertEqual(self.file.read_bytes(), text)
        self.file.write_bytes(b" " * 1_048_577)
        self.assertEqual(self.ran(self.file)[0], 8)
        self.assertEqual(self.ran(self.root / "none")[0], 6)
        self.assertEqual(self.ran()[0], 2)
        self.assertEqual(self.ran("--check", "--write", self.file)[0], 2)
        self.assertEqual(self.ran(self.file, self.other)[0], 2)


if __name__ == "__main__":
    unittest.main()
