"""Tests of tools/table. What is expected of figures and tables was worked out by hand."""

import json
import math
import re
import subprocess
import tempfile
import unittest
from contextlib import redirect_stdout
from io import StringIO
from pathlib import Path

from cases.rows import read_groups
from cases.texts import altered
from counting import bytes_of, is_linear, steps_of
from faults.tokens import gap_end
from tables import records
from tables.counting import Counts, counts_of, values_of
from tables.ending import Refused
from tables.figure import Figure
from tables.grammar import RANGES, first_fault
from tables.house import Match, Reader
from tables.numbers import up_to
from tables.running import matches_of, players_of_deals, write
from tables.showing import table

ROOT = Path(__file__).resolve().parent.parent
COMMAND = ROOT / "tools/table"

TEXT = """\
house 1
match 0 deal 5 seats 7
choose 0 0 0 2
choose 1 0 1 2
end done 4
score 0 3 2
score 1 1 0
match 1 deal 6 seats 8
choose 0 0 0 1
shuffles 3
end limit 8
score 0 1 0
score 1 4 2
standing 1 strategy 0 points 4
standing 2 strategy 1 points 0
"""

# The same in format 2, by a sheet with three faces of its four cards.
NAMED = """\
house 2
face 0 RANK A
face 1 RANK 2 SUIT -
face 3 RANK 007
match 0 deal 5 seats 7
choose 0 0 0 2
choose 1 0 1 2 p7 c511 g0 c3
end done 4
score 0 3 2
score 1 1 0
match 1 deal 6 seats 8
choose 0 0 0 1 c1
shuffles 3
end limit 8
score 0 1 0
score 1 4 2
standing 1 strategy 0 points 4
standing 2 strategy 1 points 0
"""

# In match 1 strategy 1 sits in seat 0. Two numbers a and b have the mean (a + b) / 2 with the error |a - b| / 2.
TABLE = """\
2 matches, 1 ended by the turn limit

          mean  error  least  most
turns    6.000  2.000      4     8
choices  1.500  0.500      1     2

            rank points  a match  error  wins  a match  error  score  error
strategy 0            4    2.000  0.000     2    1.000  0.000  3.500  0.500
strategy 1            0    0.000  0.000     0    0.000  0.000  1.000  0.000
seat 0                2    1.000  1.000     1    0.500  0.500  2.000  1.000
seat 1                2    1.000  1.000     1    0.500  0.500  2.500  1.500
"""


# Choice 0 stands in a stage of a stage, and choice 1 in a stage behind it.
STAGED = """\
(game (setup (create players 2) (create deck (game hloc S) (deck (R (A)))))
  (stage player (end (= 1 2))
    (stage team (end (= 1 2))
      (choice (do (cycle reverse)))))
  (stage player (end (= 1 2))
    (choice (do (cycle reverse))))
  (scoring max 0))
"""


def match_of(number: int, points: tuple[int, ...], deal: int = 0) -> Match:
    """A match of which all but these is 0."""
    return Match(number, deal, 0, "done", 0, 0, 0, (0,) * len(points), points)


def replaced(number: int, *lines: str, text: str = TEXT) -> str:
    """The text with a line replaced by these."""
    kept = text.splitlines()
    kept[number - 1 : number] = lines
    return "".join(f"{line}\n" for line in kept)


class Figures(unittest.TestCase):
    def check(self, values: list[int], mean: float, error: float | None, matches_of_unit: int = 1) -> Figure:
        figure = Figure(matches_of_unit)
        for value in values:
            figure.add(value)
        self.assertEqual((figure.mean(), figure.error()), (mean, error))
        return figure

    def test_mean_error_least_and_most(self) -> None:
        # The distances are 1, 1, 1 and 3: 12 / 3 is 4, of which a fourth is 1.
        figure = self.check([0, 0, 4, 0], 1, 1)
        self.assertEqual((figure.total, figure.least, figure.most), (4, 0, 4))
        # The distances are 2, 0 and 2: 8 / 2 is 4, of which a third is 4 / 3.
        self.check([1, 3, 5], 3, math.sqrt(4 / 3))
        figure = self.check([-7, -3], -5, 2)
        self.assertEqual((figure.least, figure.most), (-7, -3))

    def test_equal_numbers_have_no_error_and_one_number_has_none_to_tell(self) -> None:
        self.check([6, 6, 6], 6, 0)
        self.check([6], 6, None)

    def test_large_numbers_are_exact(self) -> None:
        self.check([10**9, 10**9, 10**9 + 4, 10**9], 10**9 + 1, 1)
        self.check([10**9, -(10**9)], 0, 10**9)

    def test_errors_by_deal(self) -> None:
        # The means of the deals are 0, 0, 0 and 4, as above.
        figure = self.check([5, -5, 0, 0, 2, -2, 1, 7], 1, 1, matches_of_unit=2)
        self.assertEqual((figure.total, figure.least, figure.most), (8, -5, 7))
        self.check([5, -5], 0, None, matches_of_unit=2)


class Numbers(unittest.TestCase):
    def test_patterns_have_the_numbers_of_their_range_alone(self) -> None:
        for least, most in [(0, 7), (1, 8), (0, 63), (0, 255), (1, 256), (0, 4095), (0, 14), (0, 10), (1, 1)]:
            pattern = re.compile(up_to(most, least))
            taken = [it for it in range(most * 2 + 12) if pattern.fullmatch(str(it))]
            self.assertEqual(taken, list(range(least, most + 1)))
            for spelling in ("", "00", "01", "-1", "+1", " 1", "1.0"):
                self.assertFalse(pattern.fullmatch(spelling))

    def test_the_ranges_are_those_of_the_page(self) -> None:
        page = (ROOT / "docs/FORMATS.md").read_text("utf-8").partition("| numbers | from | to |")[2].partition("\n\n")[0]
        rows = re.findall(r"^\| ([A-Z, ]+) \| (\S+) \| (\S+) \|$", page.replace(",", ""), re.MULTILINE)
        told = {name: (int(least), int(most)) for names, least, most in rows for name in names.split()}
        self.assertEqual(told, RANGES)


class Refusing(unittest.TestCase):
    def fault(self, text: str) -> str:
        with self.assertRaises(Refused) as caught:
            Reader("a", text.encode("latin-1")).matches()
        self.assertEqual(caught.exception.status, 4)
        return str(caught.exception)


class Texts(Refusing):
    def test_matches(self) -> None:
        first, second = Reader("a", TEXT.encode()).matches()
        self.assertEqual(first, Match(0, 5, 7, "done", 4, 2, 0, (3, 1), (2, 0), 0))
        self.assertEqual(second, Match(1, 6, 8, "limit", 8, 1, 3, (1, 4), (0, 2), 0))
        self.assertEqual((first.strategies(), second.strategies()), ((0, 1), (1, 0)))

    def test_the_transcripts_that_ship_are_read(self) -> None:
        for file in [*ROOT.glob("examples/*.transcript"), *ROOT.glob("examples/tutorial/*.transcript")]:
            self.assertTrue(Reader(file.name, file.read_bytes()).matches(), file.name)

    def test_faults_of_the_grammar_are_where_the_judge_has_them(self) -> None:
        count = 0
        for folder in ("transcript", "transcript-of-two", "transcript-of-named"):
            lines = (ROOT / "cases" / folder / "text").read_text("ascii").splitlines()
            legend = [f"{line}\n".encode() for line in lines if line.startswith("face ")] or None
            for group in read_groups(ROOT / "cases" / folder / "lines.texts"):
                with self.subTest(group.heading.place()):
                    changed, expected = altered(group, lines)
                    told = re.fullmatch(r"text (\d+)", expected)
                    text = "".join(f"{line}\n" for line in changed).encode("ascii")
                    fault = first_fault(text[gap_end(text, 0) :], legend)
                    self.assertEqual(fault, int(told[1]) if told else None)
                    count += 1
        self.assertGreater(count, 50)

    def test_no_line_of_a_transcript(self) -> None:
        self.assertEqual(self.fault(""), "a:1: no transcript has this line here")
        self.assertEqual(self.fault("house 3\n"), "a:1: no transcript has this line here")
        self.assertEqual(self.fault(replaced(4, "choose 1 0 01 2")), "a:4: no transcript has this line here")
        self.assertEqual(self.fault(replaced(9, "choose 0 0 0 1\r")), "a:9: no transcript has this line here")
        self.assertEqual(self.fault("".join(TEXT.splitlines(keepends=True)[:13])), "a:14: no transcript has this line here")
        self.assertEqual(self.fault(TEXT + "\n"), "a:16: nothing is to stand behind the standings")
        self.assertEqual(self.fault(TEXT[:-1]), "a:15: 'standing 2 strategy 1 points 0' is to stand here")

    def test_lines_that_do_not_go_together(self) -> None:
        self.assertEqual(self.fault(replaced(8, "match 2 deal 6 seats 8")), "a:8: match 1 is to stand here")
        self.assertEqual(self.fault(replaced(7)), "a:7: this match has 2 players, and the one before 1")
        self.assertIn("a:2: this match is to have one line 'score' for each player", self.fault(replaced(7, "score 0 1 0")))
        self.assertEqual(self.fault(replaced(6, "score 0 3 1")), "a:14: 'standing 1 strategy 0 points 3' is to stand here")
        self.assertEqual(self.fault(replaced(15)), "a:15: 'standing 2 strategy 1 points 0' is to stand here")
        self.assertIn("a:16: nothing", self.fault(replaced(15, *["standing 2 strategy 1 points 0"] * 2)))


class Named(Refusing):
    """Texts of format 2."""

    def test_matches(self) -> None:
        self.assertEqual(Reader("a", NAMED.encode()).matches(), Reader("a", TEXT.encode()).matches())

    def test_marks(self) -> None:
        for line in ("p0", "c0 c0 c0 c0", "g511", "p7 p0"):
            self.assertIsNone(first_fault(replaced(6, f"choose 0 0 0 2 {line}", text=NAMED).encode()))
        for line in ("p8", "c512", "g512", "c00", "c01", "c", "k0", "C0", "c-0", "c0 ", " c0", "p0 p0 p0 p0 p0", "0", "c0,"):
            self.assertEqual(first_fault(replaced(6, f"choose 0 0 0 2 {line}", text=NAMED).encode()), 6, line)
        self.assertEqual(self.fault(replaced(3, "choose 0 0 0 2 c0")), "a:3: no transcript has this line here")

    def test_legends_of_any_sheet(self) -> None:
        for line in ("face 0", "face 0 RANK", "face 1 RANK A", "face 0 RANK A SUIT", "face 0 'R A", "face 0 RANK (A)", "face 00 R A"):
            self.assertEqual(self.fault(replaced(2, line, text=NAMED)), "a:2: no transcript has this line here")
        for line in ("face 0 RANK A", "face 512 RANK A", f"face 1 RANK {'x' * 65}", "face 1  RANK A", "face 1 RANK A "):
            self.assertEqual(self.fault(replaced(3, line, text=NAMED)), "a:3: no transcript has this line here")
        for line in ("face 2 RANK 007", "face 511 RANK 007", "face 3 - :"):
            self.assertIsNone(first_fault(replaced(4, line, text=NAMED).encode()))

    def test_a_legend_is_there_and_stands_first(self) -> None:
        self.assertEqual(self.fault("house 2\n"), "a:2: no transcript has this line here")
        self.assertEqual(self.fault(TEXT.replace("house 1", "house 2")), "a:2: no transcript has this line here")
        self.assertEqual(self.fault(NAMED.replace("house 2", "house 1")), "a:2: no transcript has this line here")
        self.assertEqual(self.fault(replaced(6, "face 4 RANK 8", text=NAMED)), "a:6: no transcript has this line here")
        self.assertEqual(self.fault("house 2\nface 0 RANK A\n"), "a:3: no transcript has this line here")
        self.assertEqual(self.fault("house 2\nface 0 RANK A"), "a:2: no transcript has this line here")
        self.assertEqual(self.fault("house 2 \n"), "a:1: no transcript has this line here")

    def test_the_legend_of_a_sheet(self) -> None:
        legend = [f"{line}\n".encode() for line in NAMED.splitlines()[1:4]]
        self.assertIsNone(first_fault(NAMED.encode(), legend))
        self.assertEqual(first_fault(NAMED.encode(), [*legend, b"face 4 RANK 8\n"]), 5)
        self.assertEqual(first_fault(NAMED.encode(), legend[:2]), 4)
        self.assertEqual(first_fault(replaced(3, text=NAMED).encode(), legend), 3)
        self.assertEqual(first_fault(b"house 2\nface 0 RANK A\n", legend), 3)


class Tables(unittest.TestCase):
    def test_a_table(self) -> None:
        self.assertEqual(table(counts_of(Reader("a", TEXT.encode()).matches())), TABLE)

    def test_one_match_has_no_errors(self) -> None:
        told = table(counts_of([match_of(0, (0, 2))])).splitlines()
        self.assertEqual(told[0], "1 match, 0 ended by the turn limit")
        self.assertRegex(told[-1], r"^seat 1 +2 +2\.000 +- +1 +1\.000 +- +0\.000 +-$")

    def test_a_win_may_be_shared(self) -> None:
        # Seat 2 of match 1 has strategy 0, and seats 0 and 1 have strategies 1 and 2.
        self.assertEqual(values_of(match_of(1, (3, 3, 0)))[3::3], [0, 3, 3, 3, 3, 0])
        self.assertEqual(values_of(match_of(1, (3, 3, 0)))[4::3], [0, 1, 1, 1, 1, 0])
        self.assertEqual(values_of(match_of(0, (0,)))[4::3], [1, 1])

    def test_the_luck_of_deals_cancels(self) -> None:
        # Seat 0 wins the first deal twice, and seat 1 the second: both strategies have the mean 1 in each deal.
        matches = [match_of(number, points, number // 2) for number, points in enumerate([(2, 0), (2, 0), (0, 2), (0, 2)])]
        self.assertEqual(players_of_deals(matches), 2)
        counts = counts_of(matches, 2)
        of_strategies, of_seats = list(counts.sides())[:2], list(counts.sides())[2:]
        self.assertEqual([(it.points.mean(), it.points.error()) for it in of_strategies], [(1, 0), (1, 0)])
        self.assertEqual([(it.points.mean(), it.points.error()) for it in of_seats], [(1, 1), (1, 1)])
        self.assertEqual(table(counts).splitlines()[0], "4 matches of 2 deals, 0 ended by the turn limit")

    def test_deals_that_are_not_played_so_often(self) -> None:
        for deals in ([0, 0, 0, 1], [0, 1], [0, 0, 1]):
            matches = [match_of(number, (1, 1), deal) for number, deal in enumerate(deals)]
            self.assertRaises(Refused, players_of_deals, matches)

    def test_differences_are_counted_as_matches_are(self) -> None:
        counts = Counts(1)
        for turns in (0, 0, 4, 0):
            counts.add([turns, 0, 0] + [0] * 6)
        self.assertEqual((counts.turns.mean(), counts.turns.error()), (1, 1))


class Records(unittest.TestCase):
    def setUp(self) -> None:
        self.matches = Reader("a", TEXT.encode()).matches()

    def test_comma_separated(self) -> None:
        self.assertEqual(
            records.csv(self.matches),
            "match,deal,seats,end,turns,choices,shuffles,strategy_0,score_0,points_0,strategy_1,score_1,points_1\n"
            "0,5,7,done,4,2,0,0,3,2,1,1,0\n1,6,8,limit,8,1,3,1,1,0,0,4,2\n",
        )

    def test_objects(self) -> None:
        first, second = map(json.loads, records.jsonl(self.matches).splitlines())
        self.assertEqual((first["match"], first["deal"], first["seats"], first["end"]), (0, 5, 7, "done"))
        self.assertEqual((second["turns"], second["choices"], second["shuffles"]), (8, 1, 3))
        self.assertEqual((second["strategies"], second["scores"], second["points"]), ([1, 0], [1, 4], [0, 2]))


class Costs(unittest.TestCase):
    """What a table takes grows as its text does, whatever of the text grows."""

    def text(self, matches: int, choices: int, named: bool = False) -> bytes:
        line, house = ("choose 0 0 0 2 c1\n", "house 2\nface 0 R A\nface 1 R K\n") if named else ("choose 0 0 0 2\n", "house 1\n")
        told = (f"match {number} deal 1 seats 1\n{line * choices}end limit 9\nscore 0 1 0\nscore 1 2 2\n" for number in range(matches))
        # Of an even number of matches each strategy has half of the points.
        return f"{house}{''.join(told)}standing 1 strategy 0 points {matches}\nstanding 1 strategy 1 points {matches}\n".encode()

    def costs(self, text: bytes, form: str | None) -> tuple[int, int]:
        """The steps of a table, and the bytes that are read."""

        def call() -> None:
            with redirect_stdout(StringIO()):
                write(matches_of([Path(file.name)]), form, False)

        with tempfile.NamedTemporaryFile() as file:
            file.write(text)
            file.flush()
            return steps_of(call), bytes_of(call)

    def test_they_grow_with_the_matches(self) -> None:
        for named in (False, True):
            for form in (None, "csv", "jsonl"):
                with self.subTest(named=named, form=form):
                    texts = [self.text(matches, 3, named) for matches in (64, 128, 256)]
                    steps, read = zip(*(self.costs(text, form) for text in texts))
                    self.assertEqual(list(read), list(map(len, texts)))
                    self.assertTrue(is_linear(list(steps)), steps)

    def test_choices_are_counted_and_not_looked_at(self) -> None:
        steps = [self.costs(self.text(8, choices), None)[0] for choices in (10, 1000)]
        self.assertEqual(len(set(steps)), 1)

    def test_a_fault_behind_many_lines(self) -> None:
        steps = []
        for matches in (64, 128, 256):
            text = self.text(matches, 3).replace(b"standing 1 strategy 1", b"standing 1  strategy 1")
            steps.append(steps_of(lambda text=text: self.assertRaises(Refused, Reader("a", text).matches)))
            # The lines of the text before the last one are house 1 and seven for each match, and the standing above it.
            with self.assertRaises(Refused) as caught:
                Reader("a", text).matches()
            self.assertTrue(str(caught.exception).startswith(f"a:{1 + 7 * matches + 2}: "), caught.exception)
        self.assertTrue(is_linear(steps), steps)




class Commands(unittest.TestCase):
    def setUp(self) -> None:
        folder = tempfile.TemporaryDirectory()
        self.addCleanup(folder.cleanup)
        self.file = Path(folder.name) / "a.transcript"
        self.file.write_text(TEXT)

    def ran(self, *words: object, given: str = "") -> tuple[int, str, str]:
        ran = subprocess.run([COMMAND, *map(str, words)], input=given, capture_output=True, text=True, timeout=60)
        return ran.returncode, ran.stdout, ran.stderr

    def test_files_and_standard_input(self) -> None:
        self.assertEqual(self.ran(self.file), (0, TABLE, ""))
        self.assertEqual(self.ran(given=TEXT), (0, TABLE, ""))
        self.assertEqual(self.ran(given=NAMED), (0, TABLE, ""))
        status, written, _ = self.ran(self.file, "--csv", self.file)
        self.assertEqual((status, len(written.splitlines())), (0, 5))

    def test_the_stage_that_was_open_at_the_limit(self) -> None:
        sheet = self.file.with_name("a.sheet")
        sheet.write_text(STAGED)
        told = "open at the last choice of it: the team stage of line 3 in 1\n"
        self.assertEqual(self.ran(self.file, "--sheet", sheet), (0, TABLE.replace("limit\n", f"limit\n{told}"), ""))
        unsited = TEXT.replace("choose 0 0 0 1\n", "")
        text = TEXT.replace("choose 0 0 0 1", "choose 0 1 0 1").replace("end done 4", "end limit 4")
        for given, line in (
            (TEXT.replace("end limit", "end done"), ""),
            (text, "open at the last choice of these: the team stage of line 3 in 1, the player stage of line 5 in 1\n"),
            (unsited, "open at the last choice of it: no choice was made in 1\n"),
        ):
            status, written, _ = self.ran("--sheet", sheet, given=given)
            first, _, rest = written.partition("\n")
            self.assertEqual((status, rest.partition("\n\n" if line else "\n")[0]), (0, line.rstrip("\n")))
        refused = f"{sheet}: it has 2 choices, and the matches have one with the number 2\n"
        self.assertEqual(self.ran("--sheet", sheet, given=TEXT.replace("choose 0 0 0 1", "choose 0 2 0 1")), (4, "", refused))
        told = f"{self.file} can't be read as a sheet: `house` stands outside of all lists\n"
        self.assertEqual(self.ran("--sheet", self.file, given=TEXT), (4, "", told))
        self.assertEqual(self.ran("--sheet", f"{sheet}s", self.file)[0], 6)

    def test_refusals(self) -> None:
        self.assertEqual(self.ran(given="house 1\n"), (4, "", "standard input:2: no transcript has this line here\n"))
        closed = subprocess.run(["sh", "-c", '"$0" <&-', COMMAND], capture_output=True, text=True)
        self.assertEqual((closed.returncode, closed.stderr), (6, "standard input: it is closed\n"))
        self.assertEqual(self.ran(f"{self.file}s"), (6, "", f"{self.file}s: No such file or directory\n"))
        shorter = self.file.with_name("b")
        shorter.write_text("house 1\nmatch 0 deal 0 seats 0\nend done 1\nscore 0 0 0\nstanding 1 strategy 0 points 0\n")
        self.assertEqual(self.ran(self.file, shorter), (4, "", f"{shorter}:2: here 1 play, and in {self.file} 2\n"))
        status, written, told = self.ran("--csv", "--jsonl", self.file)
        self.assertEqual((status, written), (2, ""))
        self.assertIn("usage: cardhouse table", told)

    def test_what_reads_the_table_may_end(self) -> None:
        ran = subprocess.run(["sh", "-c", '"$0" "$1" | true; "$0" "$1" >&-', COMMAND, self.file], stderr=subprocess.PIPE, text=True)
        self.assertEqual(ran.returncode, 7)
        self.assertNotIn("Traceback", ran.stderr)


if __name__ == "__main__":
    unittest.main()
