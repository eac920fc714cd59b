"""Tests of the second reading of the rules: it writes what ships with the examples, which the program wrote, and refuses texts as the
cases say."""

import json
import re
import struct
import subprocess
import unittest
from itertools import islice
from pathlib import Path

from cases.checking import read_all
from cases.running import Case, End
from second.commands import Command as Words, command_of
from second.forms import FORM_FAULTS, form_fault
from second.parts import Part, first_list, top_lists
from second.plans import PLAN_FAULTS, plan_fault
from second.playing import played
from second.printing import printed
from second.refusing import FAULTS, sheet_fault
from second.running import LIMITS, ended
from second.sources import lists_of
from second.strategies import hits_of
from second.words import permute, words_of

ROOT = Path(__file__).resolve().parent.parent
COMMAND = ROOT / "bench/second"

# Those whose seats roll out take some seconds.
SLOW = ("magpie", "poker", "staircase")
TRANSCRIPTS = sorted(file for file in ROOT.glob("examples/**/*.transcript") if file.stem not in SLOW)

SHEET = """
(game (setup (put points W ((R (2) -007))) (create deck (game vloc 007) (deck (R (1 (2 (S (x))) 3)))) (create players 02))
(stage player (end (= (game sto N) -0)) (choice (any (game vloc 007) 'C (if (is 'C R 2) (set (game sto N) 03)))))
(scoring min (+ 00 (points (max (game vloc 007) using W) using W))))
"""
PRINTED = (
    "(game (setup (create players 2) (create deck (game vloc 007) (deck (R (1 (2 (S (x))) 3)))) (put points W ((R (2) -7)))) "
    "(stage player (end (= (game sto N) 0)) (choice (any (game vloc 007) 'C (if (is 'C R 2) (set (game sto N) 3))))) "
    "(scoring min (+ 0 (points (max (game vloc 007) using W) using W))))\n"
)

# A player who is shown three cards plays one of them, and what is left may be shuffled.
PEEKED = """
(game (setup (create players 1) (create deck (game hloc STOCK) (deck (RANK (1 2 3))))
(put points WORTH ((RANK (1) 1) (RANK (2) 2) (RANK (3) 3))))
(do (all player 'P (peek (game hloc STOCK) 'P)))
(stage player (end (= (size (game hloc STOCK)) 0))
(choice (any (known (game hloc STOCK)) 'C (do (move 'C (top ((current player) vloc PLAYED))) {shuffle}))))
(scoring max (sum ('SELF vloc PLAYED) using WORTH)))
(plan (seats (script 2)) (matches (0 0)) (turns {turns}))
"""

# Player 0 takes the top of two cards, or the bottom, and player 1 gets the other one.
GUESSED = """
(game (setup (create players 2) (create deck (game hloc PILE) (deck (PIP (3 1)))) (put points WORTH ((PIP (1) 1) (PIP (3) 3))))
(stage player (end (= (game sto ROUNDS) 1)) (do {shown} (inc (game sto ROUNDS) 1)) (choice {alternatives}))
(scoring max (sum ('SELF vloc WON) using WORTH)))
(plan (seats (rollout 1 0) (script)) (matches (0 0)) (turns 20))
"""
TAKEN = """
(do (move ({own} (game hloc PILE)) (top ((current player) vloc WON)))
(all player 'Q (if (!= 'Q (current player)) (move ({other} (game hloc PILE)) (top ('Q vloc WON))))))
"""


def read(file: Path) -> bytes:
    return file.read_bytes()


def end_of_sheet(source: str) -> End:
    """How `sheet` ends of a text whose lists can be read."""
    if fault := sheet_fault(source.encode("latin-1")):
        return End(1, "", "sheet {} {}\n".format(*fault))
    return End(0, printed(lists_of(source.encode("latin-1"), 1)[0][0]), "")


class Keys(unittest.TestCase):
    def test_words_of_the_key_that_is_zero(self) -> None:
        words = struct.pack("<8I", *islice(words_of((0, 0, 0, 0)), 8))
        self.assertEqual(words.hex(), "3e00ef2f895f40d67f5bb8e81f09a5a12c840ec3ce9a7f3b181be188ef711a1e")

    def test_short_lists_stay(self) -> None:
        for cards in ([], [7]):
            permute((1, 2, 3, 4), cards)
            self.assertLess(len(cards), 2)

    def test_a_list_is_permuted(self) -> None:
        cards = list(range(100))
        permute((1, 2, 3, 4), cards)
        self.assertNotEqual(cards, list(range(100)))
        self.assertEqual(sorted(cards), list(range(100)))


class Examples(unittest.TestCase):
    def test_transcripts(self) -> None:
        self.assertGreater(len(TRANSCRIPTS), 20)
        for file in TRANSCRIPTS:
            lists, _ = lists_of(read(file.with_suffix(".sheet")) + b"\n" + read(file.with_suffix(".plan")), 2)
            self.assertEqual(played(*lists)[0].encode(), read(file), file)
            self.assertEqual(played(*lists, named=True)[0].encode(), read(file.with_suffix(".named")), file)

    def test_migrated_transcripts(self) -> None:
        files = sorted(ROOT.glob("examples/**/*.transcript"))
        self.assertGreater(len(files), 30)
        for file in files:
            before = read(file.with_suffix(".sheet")) + b"\n" + read(file.with_suffix(".plan"))
            for suffix in (".transcript", ".named"):
                end = ended(Words("migrate"), before + read(file.with_suffix(suffix)))
                self.assertEqual((end.status, end.text.encode()), (0, read(file.with_suffix(".named"))), file)

    def test_printed_sheets(self) -> None:
        for file in ROOT.glob("examples/**/*.printed"):
            lists, _ = lists_of(read(file.with_suffix(".sheet")), 1)
            self.assertEqual(printed(lists[0]).encode(), read(file), file)

    def test_numbers_are_printed_in_one_spelling_and_names_as_they_are(self) -> None:
        lists, _ = lists_of(SHEET.encode(), 1)
        self.assertEqual(printed(lists[0]), PRINTED)


class Peeked(unittest.TestCase):
    def lines(self, source: str) -> list[str]:
        """The lines of the one match."""
        return played(*lists_of(source.encode(), 2)[0])[0].splitlines()[2:-1]

    def test_a_shuffle_takes_what_was_shown(self) -> None:
        shuffled = PEEKED.format(shuffle="(shuffle (game hloc STOCK))", turns=5)
        self.assertEqual(self.lines(shuffled), ["choose 0 0 2 3", "shuffles 1", "end limit 5", "score 0 3 0"])

    def test_a_move_takes_it_of_the_moved_card_alone(self) -> None:
        chosen = ["choose 0 0 2 3", "choose 0 0 0 2", "choose 0 0 0 1"]
        self.assertEqual(self.lines(PEEKED.format(shuffle="", turns=100)), [*chosen, "end done 6", "score 0 6 0"])

    def test_a_seat_that_was_shown_the_cards_thinks_with_them(self) -> None:
        alternatives = TAKEN.format(own="top", other="bottom") + TAKEN.format(own="bottom", other="top")
        picks = {
            "": "choose 0 0 0 2",
            "(peek (game hloc PILE) (current player))": "choose 0 0 1 2",
            "(all player 'Q (if (!= 'Q (current player)) (peek (game hloc PILE) 'Q)))": "choose 0 0 0 2",
        }
        for shown, pick in picks.items():
            self.assertEqual(self.lines(GUESSED.format(shown=shown, alternatives=alternatives))[0], pick)


class Refusals(unittest.TestCase):
    def of_sheets(self) -> list[Case]:
        """The cases of the command `sheet` whose first list ends, of which no fault of the text is expected."""
        cases = [case for of_file in read_all().values() for case in of_file if case.words == ("sheet",)]
        told = (*FAULTS, "no fault", "prints")
        return [it for it in cases if it.expected.startswith(told) and first_list(it.source.encode("latin-1"))]

    def test_sheets_of_the_cases(self) -> None:
        cases = self.of_sheets()
        self.assertGreater(len(cases), 4000)
        for case in cases:
            end = end_of_sheet(case.source)
            self.assertTrue(case.is_met(end), case.said(str(end)))

    def test_each_kind_has_cases(self) -> None:
        found = {case.expected.split()[0] for case in self.of_sheets()}
        self.assertLessEqual({*FAULTS}, found)

    def test_parts(self) -> None:
        self.assertEqual(first_list(b" ('a (7))b"), Part("(", 1, (Part("'a", 2), Part("(", 5, (Part("7", 6),)))))
        for text in (b"", b"a", b"(a", b") (a)"):
            self.assertIsNone(first_list(text))


class Plans(unittest.TestCase):
    def of_texts(self) -> list[Case]:
        """The cases of `play` and `check` of which a fault of the forms, of the plan or of the length is expected."""
        cases = [case for of_file in read_all().values() for case in of_file if case.words in (("play",), ("check",))]
        told = ("plan ", "too long", *FORM_FAULTS, *(f"play {kind}" for kind in FORM_FAULTS))
        return [it for it in cases if it.expected.startswith(told) and len(it.source) < 2_000_000]

    def test_plans_of_the_cases(self) -> None:
        cases = self.of_texts()
        self.assertGreater(len(cases), 800)
        for case in cases:
            end = ended(Words(case.words[0]), case.source.encode("latin-1"))
            self.assertTrue(case.is_met(End(end.status, end.text, end.note)), case.said(str(end)))

    def test_each_kind_has_cases(self) -> None:
        found = {case.expected.split(" at ")[0].removeprefix("play ") for case in self.of_texts()}
        self.assertLessEqual({*FORM_FAULTS, *(f"plan {kind}" for kind in PLAN_FAULTS)}, found)

    def test_matches_in_a_row(self) -> None:
        def fault(matches: str) -> tuple[str, int] | None:
            (plan,) = top_lists(f"(plan (seats (script)) (matches {matches}) (turns 9))".encode())
            return plan_fault(plan, 1)

        self.assertEqual(fault("(from 1 2 3) x"), ("Shape", 45))
        self.assertEqual(fault("(0 0) (from 1 2 3)"), ("Shape", 38))
        self.assertEqual(fault("(from 1 2 3) (from 1 2 3)"), ("Shape", 32))
        self.assertEqual(fault("(from 1 2 0)"), ("Matches", 32))
        self.assertEqual(fault("(from 1 2)"), ("Shape", 32))
        self.assertIsNone(fault("(from 1 2 3)"))

    def test_forms(self) -> None:
        self.assertIsNone(form_fault(b"(a) (b) )\xff", 2))
        self.assertEqual(form_fault(b"(a) (b) )\xff", 3), ("Stray", 8))
        self.assertEqual(form_fault(b"(a;(\n\xff", 1), ("BadByte", 5))


class Asks(unittest.TestCase):
    def test_hits_where_there_is_less_room(self) -> None:
        asks = [(it,) for it in "abacabcab"]
        self.assertEqual([hits_of(asks, room) for room in (1, 2, 3, 9)], [0, 2, 6, 6])

    def test_two_matches_that_are_alike(self) -> None:
        sheet, plan = read(ROOT / "examples/first.sheet"), b"(plan (seats (rollout 4 9) (rollout 4 9)) (matches (0 7) (0 7)) (turns 100))"
        text, asks = played(*lists_of(sheet + plan, 2)[0])
        self.assertEqual((text.count("choose"), len(asks), hits_of(asks, 8), hits_of(asks, 1)), (8, 8, 4, 0))


# Player 0 takes a card of a player by their suit, or nothing at all.
NAMED = """
(game (setup (create players 2)
(create deck (game vloc POOL) (deck (RANK (3 (2 (SUIT (RED))) 3 4)))) (create deck (game vloc NOTED) (deck (RANK (4)))))
(do (remember (top (game vloc NOTED)) (top (game mem NOTE))) (all player 'P (move (bottom (game vloc POOL)) (top ('P vloc ROW)))))
(stage player (end (= (game sto N) 2)) (do (inc (game sto N) 1))
(choice (any player 'P (any ('P vloc ROW) 'C (any (partition (game vloc POOL) RANK) 'G (do (move 'C (top (game vloc WON)))))))
(any (game mem NOTE) 'R (do (forget 'R))) (do (inc (game sto N) 0))))
(scoring max (size (game vloc WON))))
(plan (seats (script 3) (script 2)) (matches (0 0)) (turns 20))
"""
NAMED_TEXT = """\
house 2
face 0 RANK 3
face 1 RANK 2 SUIT RED
face 3 RANK 4
match 0 deal 0 seats 0
choose 0 0 3 6 p1 c1 g3
choose 1 0 2 4 c3
end done 4
score 0 1 1
score 1 1 1
standing 1 strategy 0 points 1
standing 1 strategy 1 points 1
"""


class Named(unittest.TestCase):
    """Format 2."""

    plain = NAMED_TEXT.replace(" p1 c1 g3", "").replace("4 c3\n", "4\n")
    plain = "house 1\n" + plain.partition("\n")[2].partition("face 3 RANK 4\n")[2]

    def end(self, word: str, text: str) -> tuple[int, str, str]:
        end = ended(Words(word), f"{NAMED}{text}".encode())
        return end.status, end.text, end.note

    def judged(self, line: int, *others: str) -> str:
        """What is noted of the text with these lines in the place of one."""
        lines = NAMED_TEXT.splitlines()
        lines[line - 1 : line] = others
        text = "".join(f"{it}\n" for it in lines)
        end = self.end("check", text)
        self.assertEqual(self.end("migrate", text)[2], end[2])
        return end[1] + end[2]

    def test_play_in_both_formats(self) -> None:
        for number, text in enumerate((self.plain, NAMED_TEXT), 1):
            end = ended(Words("play", format=number), NAMED.encode())
            self.assertEqual((end.status, end.text, end.note), (0, text, "cache looks 0 hits 0\n"))

    def test_both_formats_are_legal_and_migrated(self) -> None:
        for text in (self.plain, NAMED_TEXT):
            self.assertEqual(self.end("check", text), (0, "legal\n", ""))
            self.assertEqual(self.end("migrate", text), (0, NAMED_TEXT, ""))

    def test_marks_of_other_items(self) -> None:
        for marks in ("", " p1 c1", " p1 c1 g1", " p1 g3 c1", " c1 c1 g3", " p0 c1 g3", " p1 c1 g3 c0", " p1 c2 g3"):
            self.assertEqual(self.judged(6, f"choose 0 0 3 6{marks}"), "illegal 6 Named\n")
        for line, why in (("0 0 3 7 c0", "Menu"), ("0 0 6 6", "Item"), ("1 0 3 6 c0", "Seat"), ("0 1 3 6 p1 c1 g3", "Seat")):
            self.assertEqual(self.judged(6, f"choose {line}"), f"illegal 6 {why}\n")
        self.assertEqual(self.judged(8, "choose 0 0 0 1 c0", "end done 5"), "illegal 8 End\n")

    def test_other_items(self) -> None:
        self.assertEqual(self.judged(7, "choose 1 0 3 4"), "legal\n")
        self.assertEqual(self.judged(7, "choose 1 0 1 4 p0 c0 g3"), "illegal 9 Score\n")

    def test_the_grammar_comes_first(self) -> None:
        for line in ("choose 0 0 3 6 p1 c1 g3 c0 c0", "choose 0 0 3 6 p8", "choose 0 0 3 6 c512", "choose 0 0 3 6  c1"):
            self.assertEqual(self.judged(6, line), "text 6\n")
        self.assertEqual(self.judged(11, "standing 9 strategy 0 points 1"), "text 11\n")

    def test_legends(self) -> None:
        self.assertEqual(self.judged(3, "face 1 RANK 2"), "text 3\n")
        self.assertEqual(self.judged(3), "text 3\n")
        self.assertEqual(self.judged(4, "face 3 RANK 4", "face 4 RANK 4"), "text 5\n")
        self.assertEqual(self.judged(1, "house 1"), "text 2\n")
        self.assertEqual(self.judged(1, "house 3"), "text 1\n")


class Page(unittest.TestCase):
    """The table of what format 2 alone refuses, in which a line of a transcript is replaced."""

    ROW = re.compile(r"^\| `([^`]+)` in the place of line (\d+) \| `([^`]+)` \|", re.MULTILINE)

    def test_what_is_refused(self) -> None:
        first = ROOT / "examples/first.sheet"
        before, right = read(first) + read(first.with_suffix(".plan")), read(first.with_suffix(".named")).decode().splitlines()
        rows = self.ROW.findall((ROOT / "docs/REFUSALS.md").read_text("utf-8"))
        self.assertEqual(len(rows), 10)
        for line, number, told in rows:
            lines = [*right]
            lines[int(number) - 1] = line
            text = "".join(f"{it}\n" for it in lines).encode()
            for word in ("check", "migrate"):
                self.assertEqual(ended(Words(word), before + text).note, f"{told}\n", line)


class Others(unittest.TestCase):
    """Commands beside `play`, `check`, `sheet` and `migrate`, of which there are worked plays."""

    def end(self, case: Case) -> End:
        end = ended(command_of([*case.words]), case.source.encode("latin-1"))
        return End(end.status, end.text, end.note)

    def test_worked_plays(self) -> None:
        cases = [case for of_file in read_all().values() for case in of_file]
        for word, least in (("watch", 20), ("measure", 24), ("rival", 40)):
            found = [it for it in cases if it.words[:1] == (word,) and it.row.file.suffix == ".plays"]
            self.assertGreaterEqual(len(found), least, word)
            for case in found:
                self.assertTrue(case.is_met(self.end(case)), case.said(str(self.end(case))))

    def test_a_log_shows_as_many_stops_as_it_may(self) -> None:
        (case,) = (it for of_file in read_all().values() for it in of_file if "stops 1001" in it.expected)
        lines = self.end(case).out.splitlines()
        blocks = [["stop {} turn {} site 0".format(at, 2 * at + 1), f"made {at}", "frame 0 0 forward none", f"numbers {at + 1}", "place 0 -"]
                  for at in range(1000)]
        self.assertEqual(lines, ["log 1", "seat 0 match 0", *(line for block in blocks for line in block), "stops 1001"])

    def test_a_log_tells_no_card_that_its_seat_doesnt_see(self) -> None:
        # The hand of seat 1, in place 2, and that of seat 0, in place 1, as the other seat sees them.
        first = read(ROOT / "examples/first.sheet") + read(ROOT / "examples/first.plan")
        for seat, place, hidden in ((0, "place 2", "- - | - - | - | -"), (1, "place 1", "- - | - | - | ")):
            lines = ended(command_of(["watch", str(seat), "0"]), first).text.splitlines()
            seen = [line.removeprefix(place).strip() for line in lines if line.split(" ")[:2] == place.split(" ")]
            self.assertEqual(" | ".join(seen), hidden)


class Options(unittest.TestCase):
    def test_words_of_the_cases(self) -> None:
        for row in (ROOT / "cases/words.rows").read_text("utf-8").splitlines():
            if row and not row.startswith("#"):
                words, _, expected = row.partition("\t")
                told = command_of(json.loads(words))
                self.assertEqual("usage" if told is None else told.name, expected.split()[0], row)
                if told and told.numbers:
                    self.assertEqual(" ".join(map(str, told.numbers)), expected.partition(" ")[2], row)

    def test_formats(self) -> None:
        self.assertEqual(command_of(["play"]), Words("play", 0, 1024, 1))
        self.assertEqual(command_of(["play", "--format=00002", "--cache", "7", "--workers=64"]), Words("play", 0, 7, 2))
        self.assertEqual(command_of(["bench", "3"]), Words("bench", 3, 1024, 1))
        for words in ("play --format 3", "play --format", "play --format=", "play --format 2 --format 2", "play --form 2", "check --format 2",
                      "migrate x", "migrate --format 2", "bench 3 --format 2", "play --format 000002"):
            self.assertIsNone(command_of(words.split()), words)

    def test_lengths(self) -> None:
        for word, limit in LIMITS.items():
            source = b";".ljust(limit, b"x")
            self.assertEqual((ended(Words(word), source).note, ended(Words(word), source + b"x").note), (f"sheet Shape {limit}\n", "too long\n"))


class Command(unittest.TestCase):
    def run_on(self, word: str, *files: str, more: bytes = b"", note: bytes = b"") -> tuple[int, bytes]:
        source = b"".join(read(ROOT / f"examples/{file}") for file in files) + more
        ran = subprocess.run([COMMAND, word], input=source, capture_output=True)
        self.assertEqual(ran.stderr, note)
        return ran.returncode, ran.stdout

    def test_commands(self) -> None:
        end = self.run_on("play", "draws.sheet", "draws.plan", note=b"cache looks 0 hits 0\n")
        self.assertEqual(end, (0, read(ROOT / "examples/draws.transcript")))
        self.assertEqual(self.run_on("sheet", "draws.sheet", "draws.plan"), (0, read(ROOT / "examples/draws.printed")))
        self.assertEqual(self.run_on("check", "draws.sheet", "draws.plan", "draws.transcript"), (0, b"legal\n"))

    def test_a_sheet_that_is_refused(self) -> None:
        for word in ("sheet", "play", "check"):
            self.assertEqual(self.run_on(word, more=b" (game)", note=b"sheet Shape 1\n"), (1, b""))

    def test_transcripts_that_are_illegal(self) -> None:
        text = read(ROOT / "examples/draws.transcript")
        whys = [b"illegal 12 End\n", b"illegal 5 Item\n", b"illegal 6 Seat\n"]
        for lawful, other in ((b"end done 16", b"end done 17"), (b"choose 0 0 0 3", b"choose 0 0 3 3"), (b"choose 1 0 0 1\n", b"")):
            told = text.replace(lawful, other, 1)
            self.assertEqual(self.run_on("check", "draws.sheet", "draws.plan", more=told, note=whys.pop(0)), (4, b""))

    def test_words_that_are_no_command(self) -> None:
        ran = subprocess.run([COMMAND, "play", "--format", "3"], input=b"", capture_output=True)
        self.assertEqual((ran.returncode, ran.stdout), (2, b""))
        self.assertEqual(ran.stderr, b"usage: cardhouse play, check, sheet, bench, migrate, watch, measure or rival\n")

    def test_a_bench(self) -> None:
        ran = subprocess.run([COMMAND, "bench", "1"], input=b"", capture_output=True)
        self.assertEqual((ran.returncode, ran.stderr), (0, b"cache looks 12 hits 0\n"))
        self.assertTrue(ran.stdout.startswith(b"bench 1\nmatches 1\ndecisions 24\nlimits 0\nstanding 1 "))


if __name__ == "__main__":
    unittest.main()
