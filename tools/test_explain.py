"""Tests of what is said beside the line of a refusal."""

import os
import pty
import re
import subprocess
import sys
import time
import unittest
from collections.abc import Iterator
from dataclasses import dataclass
from pathlib import Path
from unittest.mock import patch

from built import PROGRAM, ROOT, Built
from cases.language import read_page
from cases.sheets import read_frames
from faults import kinds
from faults.explaining import explanation
from faults.forms import FORMS, MEANINGS, forms_of, forms_with, is_fixed, is_plural, meant_behind, parts_of
from faults.places import Lines, picture, place_of, shown
from faults.sources import File
from faults.tokens import end_of, lists_around, rest_of
from scripted import SECONDS, Scripted
from started import run

PAGES = [ROOT / "docs/LANGUAGE.md", ROOT / "docs/REFUSALS.md", ROOT / "docs/FORMATS.md"]

# A sheet of three lines, with more lines of the setup in the second and the items in the third.
SHEET = "(game (setup (create players 1)\n(create deck (game hloc S) (deck (R (A)))){})\n{} (scoring max 0))\n"
GAME = SHEET.format("", "(stage player (end (= (game sto N) 1)) (choice (do (inc (game sto N) 1))))")
PLAN = "(plan (seats (script)) (matches (0 0)) (turns 9))\n"
# One round and one decision are two turns.
TEXT = "house 1\nmatch 0 deal 0 seats 0\nchoose 0 0 0 1\nend done 2\nscore 0 0 0\nstanding 1 strategy 0 points 0\n"
NAMED_TEXT = TEXT.replace("house 1\n", "house 2\nface 0 R A\n")

# Two players take cards of four of each other, or a group of cards. Seat 0 is to take item 3: of player 1 the second card.
TAKING = """(game (setup (create players 2) (create deck (game hloc S) (deck (R (A B C (D (T (X Y))))))))
(do (repeat 2 (all player 'P (move (top (game hloc S)) (top ('P vloc H))))) (move (top (game hloc S)) (top (game vloc H2))))
(stage player (end (= (game sto N) 1)) (do (inc (game sto N) 1))
(choice (any player 'P (any ('P vloc H) 'C (do (forget 'C)))) (any (partition (game vloc H2) R) 'G (do (forget (top 'G))))))
(scoring max 0)) (plan (seats (script 3) (script)) (matches (0 0)) (turns 9))
"""
TAKEN = """\
house 2
face 0 R A
face 1 R B
face 2 R C
face 3 R D T X
face 4 R D T Y
match 0 deal 0 seats 0
choose 0 0 3 5 p1 c1
end done 2
score 0 0 1
score 1 0 1
standing 1 strategy 0 points 1
standing 1 strategy 1 points 1
"""


@dataclass(frozen=True)
class Refused:
    """A source with `^` before the faulty byte, what is told of it, and where that byte stands."""

    told: str
    source: str
    line: int
    column: int
    under: str

    def given(self) -> bytes:
        return self.source.replace("^", "").encode("latin-1")

    def note(self) -> str:
        return f"{self.told} {self.source.index('^')}"


def items(text: str) -> str:
    return SHEET.format("", text)


SHEETS = [
    Refused("sheet BadByte", "(game\n^\xe9)", 2, 1, "\\"),
    Refused("sheet Stray", "; a comment\n ^)\n", 2, 2, ")"),
    Refused("sheet TooDeep", "(" * 60 + "\n((((^(", 2, 5, "("),
    Refused("sheet AtomLong", "(game\n\t ^" + "a" * 65 + ")", 2, 3, "a"),
    Refused("sheet Unclosed", "(game (setup)\n ^(do", 2, 2, "("),
    Refused("sheet Shape", "; nothing\n^", 2, 1, ""),
    Refused("sheet Shape", items("(do ^(discard 'C))"), 3, 5, "("),
    Refused("sheet Number", "(game\n(setup (create players ^9)) (do (cycle reverse)) (scoring max 0))", 2, 24, "9"),
    Refused("sheet Twice", SHEET.format("\n^(create players 1)", "(do (shuffle (game hloc S)))"), 3, 1, "("),
    Refused("sheet Unknown", items("(do (forget ^'C))"), 3, 13, "'"),
    Refused("sheet WrongKind", items("(do (all player 'P (forget ^'P)))"), 3, 28, "'"),
    Refused("sheet TooMany", items("(do (repeat 1 (repeat 1 ^(repeat 1 (shuffle (game hloc S))))))"), 3, 25, "("),
    Refused("sheet NoCards", "(game\n^(setup (create players 1))\n(do (cycle reverse)) (scoring max 0))", 2, 1, "("),
    Refused("sheet Unseen", items("(stage player (end (= 0 1)) (choice (any ^(game hloc S) 'C (do (forget 'C)))))"), 3, 42, "("),
]

PLANS = [
    Refused("plan Shape", GAME + "; no plan\n^", 5, 1, ""),
    Refused("plan Shape", GAME + "(plan (seats ^(greedy 3)) (matches (0 0)) (turns 9))", 4, 14, "("),
    Refused("plan Number", GAME + "(plan (seats (script ^x)) (matches (0 0)) (turns 9))", 4, 22, "x"),
    Refused("plan Seats", GAME + "(plan ^(seats (script) (script)) (matches (0 0)) (turns 9))", 4, 7, "("),
    Refused("plan Matches", GAME + "(plan (seats (script))\n(matches ^(from 0 0 0)) (turns 9))", 5, 10, "("),
    Refused("plan Turns", GAME + "(plan (seats (script)) (matches (0 0))\r\n(turns ^0))", 5, 8, "0"),
    Refused("plan TooLarge", GAME + "^(plan (seats (script)) (matches (from 0 0 3)) (turns 100000))", 4, 1, "("),
    Refused("plan Rest", GAME + PLAN + " ^x\n", 5, 2, "x"),
]


def altered(number: int, *lines: str) -> str:
    """The text with a line replaced by these."""
    kept = TEXT.splitlines()
    kept[number - 1 : number] = lines
    return "".join(f"{line}\n" for line in kept)


# What is told, the transcript, and the line that is shown.
TEXTS = [
    ("text 5", altered(5, "score 0 00 0"), "score 0 00 0"),
    ("text 6", TEXT.removesuffix("\n"), "standing 1 strategy 0 points 0"),
    ("text 1", "", None),
    ("illegal 2 Match", altered(2, "match 0 deal 1 seats 0"), "match 0 deal 1 seats 0"),
    ("illegal 4 Shuffle", altered(4, "shuffles 1", "end done 2"), "shuffles 1"),
    ("illegal 3 Seat", altered(3, "choose 0 1 0 1"), "choose 0 1 0 1"),
    ("illegal 3 Menu", altered(3, "choose 0 0 0 2"), "choose 0 0 0 2"),
    ("illegal 3 Item", altered(3, "choose 0 0 1 1"), "choose 0 0 1 1"),
    ("illegal 4 Named", NAMED_TEXT.replace("0 1\n", "0 1 c0\n"), "choose 0 0 0 1 c0"),
    ("illegal 4 End", altered(4, "end done 3"), "end done 3"),
    ("illegal 5 Score", altered(5, "score 0 1 0"), "score 0 1 0"),
    ("illegal 6 Standing", altered(6, "standing 1 strategy 0 points 1"), "standing 1 strategy 0 points 1"),
    ("illegal 7 Standing", altered(6, *["standing 1 strategy 0 points 0"] * 2), "standing 1 strategy 0 points 0"),
]

# The transcript begins at line 6 of the source, behind a comment.
BEFORE_TEXT = GAME + PLAN + "; as it was played\n"


def command_of(refused: Refused) -> str:
    return "play" if refused.told.startswith("plan") else "sheet"


class Explanations(unittest.TestCase):
    def check(self, refused: Refused) -> None:
        said = explanation(refused.note(), refused.given(), [command_of(refused)])
        ends = ", where the text ends" if not refused.under else ""
        behind = f" (line {refused.line - 3} behind the sheet)" if refused.told.startswith("plan") else ""
        self.assertEqual(said[0], f"line {refused.line}, column {refused.column}{ends}{behind}:")
        if refused.under:
            self.assertEqual(said[2].strip(), "^")
            self.assertEqual(said[1][said[2].index("^")], refused.under)

    def test_each_kind_of_a_sheet(self) -> None:
        self.assertEqual({it.told.split()[1] for it in SHEETS}, kinds.SHEET.keys())
        for refused in SHEETS:
            with self.subTest(refused.told):
                self.check(refused)

    def test_each_kind_of_a_plan(self) -> None:
        self.assertEqual({it.told.split()[1] for it in PLANS}, kinds.PLAN.keys())
        for refused in PLANS:
            with self.subTest(refused.told):
                self.check(refused)

    def test_each_reason_of_a_transcript(self) -> None:
        self.assertEqual({note.split()[2] for note, *_ in TEXTS if note.startswith("illegal")}, kinds.ILLEGAL.keys())
        for note, text, line in TEXTS:
            with self.subTest(note):
                said = explanation(note, (BEFORE_TEXT + text).encode(), ["check"])
                number = int(note.split()[1])
                where = f"line {number} of the transcript, line {number + 5} of the source"
                self.assertTrue(said[0].startswith(where), said)
                if line is None:
                    self.assertIn("where the text ends", said[0])
                else:
                    self.assertEqual(said[1:3], [f"    {line}", "    ^"])

    def named(self, note: str, *replaced: str) -> str:
        """What is said of a transcript whose line of this note was replaced by these."""
        lines, number = TAKEN.splitlines(), int(note.split()[1])
        lines[number - 1 : number] = replaced
        said = explanation(note, (TAKING + "".join(f"{it}\n" for it in lines)).encode(), ["check"], (File("a", 0),))
        return said[0].partition(": ")[2].partition(": ")[2]

    def test_what_an_item_takes(self) -> None:
        right = "Here belong `p1 c1`: `p1`, player 1; `c1`, the card B. The line "
        for marks, told in (
            (" p1 c2", "tells `p1 c2`: `c2` is the card C."),
            (" p0 c3", "tells `p0 c3`: `p0` is player 0; `c3` is the card D X."),
            (" c1 p1", "tells `c1 p1`."),
            (" p7 g4 c9 p1", "tells `p7 g4 c9 p1`: `p7` is player 7, who isn't there; `g4` is a group that begins with the card D Y; `c9` is "
             "no face of this sheet."),
            ("", "has no mark."),
        ):  # fmt: skip
            self.assertEqual(self.named("illegal 8 Named", f"choose 0 0 3 5{marks}"), right + told)
        right = "Here belongs `g0`: `g0`, a group that begins with the card A. The line tells `c0`: `c0` is the card A."
        self.assertEqual(self.named("illegal 8 Named", "choose 0 0 4 5 c0"), right)

    def test_where_the_play_is_another(self) -> None:
        self.assertEqual(self.named("illegal 8 Named", "choose 0 0 5 6 c0"), kinds.ILLEGAL["Named"])
        self.assertEqual(self.named("illegal 9 Named", "choose 0 0 0 5 c0"), kinds.ILLEGAL["Named"])

    def test_a_match_that_takes_too_long(self) -> None:
        with patch("faults.naming.SECONDS", 0.001), patch("faults.naming.marks_of", lambda *_: time.sleep(20)):
            self.assertEqual(self.named("illegal 8 Named", "choose 0 0 3 5 c0"), kinds.ILLEGAL["Named"])

    def test_lines_that_no_transcript_has(self) -> None:
        for note, line, said in (
            ("text 1", "house 3", kinds.FIRST_LINE),
            ("text 1", "house 2 ", kinds.FIRST_LINE),
            ("text 3", "face 1 R", kinds.LEGEND.format("face 1 R B")),
            ("text 6", "match 0 deal 0 seats 0", kinds.LEGEND.format("face 4 R D T Y")),
            ("text 7", "face 5 R E", kinds.FACE_TOO_MANY.format(5)),
            ("text 9", "face 5 R E", kinds.FACE_TOO_MANY.format(5)),
            ("text 8", "choose 0 0 3 5 p1 c512", kinds.MARKS),
            ("text 8", "choose 0 0 3 5 p1  c1", kinds.MARKS),
            ("text 8", "choose 0 0 3", kinds.GRAMMAR),
            ("text 9", "end done", kinds.GRAMMAR),
        ):
            self.assertEqual(self.named(note, line), said)

    def test_lines_of_format_2_in_a_text_of_format_1(self) -> None:
        def said(line: str) -> str:
            text = altered(3, line)
            return " ".join(explanation("text 3", (BEFORE_TEXT + text).encode(), ["check"])[3:])

        self.assertEqual(said("choose 0 0 0 1 c0"), kinds.MARKS_IN_PLAIN)
        self.assertEqual(said("face 0 R A"), kinds.FACE_IN_PLAIN)
        self.assertEqual(said("choose 0 0 0 1 "), kinds.GRAMMAR)

    def test_a_text_that_ends_in_its_legend(self) -> None:
        said = explanation("text 3", (BEFORE_TEXT + "house 2\nface 0 R A\n").encode(), ["check"])
        self.assertIn("where the text ends", said[0])
        said = explanation("text 2", (BEFORE_TEXT + "house 2\n").encode(), ["check"])
        self.assertIn("`face 0 R A`", " ".join(said))

    def test_standings_that_are_missing(self) -> None:
        text = "".join(f"{line}\n" for line in TEXT.splitlines()[:5])
        said = explanation("illegal 6 Standing", (BEFORE_TEXT + text).encode(), ["check"])
        self.assertTrue(said[0].startswith("line 6 of the transcript, line 11 of the source, where the text ends"))

    def test_a_line_that_ends_with_a_carriage_return_shows_it(self) -> None:
        said = explanation("text 1", (BEFORE_TEXT + TEXT.replace("\n", "\r\n")).encode(), ["check"])
        self.assertEqual(said[1], "    house 1\\x0d")

    def test_the_match_of_a_line(self) -> None:
        for number, ends in ((1, "source:"), (2, "in match 0:"), (5, "in match 0:"), (6, "source:")):
            said = explanation(f"text {number}", (BEFORE_TEXT + TEXT).encode(), ["check"])
            self.assertTrue(said[0].endswith(ends), said[0])

    def test_a_list_is_shown_as_it_is_written(self) -> None:
        source = items("(do (forget))")
        said = explanation(f"sheet Shape {source.index('(forget')}", source.encode(), ["sheet"])
        self.assertIn("    (forget CARD)", said)
        self.assertIn("    (do EFFECT+)", said)

    def test_what_belongs_there_is_shown(self) -> None:
        for item, fault, lines in (
            ("(do (shuffle STOCK))", "STOCK", ["Here belongs LOC.", "LOC is `(HOLDER KIND NAME)`, as `(game hloc STOCK)`"]),
            ("(do (cycle next (team of (current team))))", "team))", ["Here belongs `player`."]),
            ("(do (forget (max (game vloc S) by W)))", "by", ["Here belongs `using`."]),
        ):
            source = items(item)
            said = explanation(f"sheet Shape {source.index(fault)}", source.encode(), ["sheet"])
            for line in lines:
                self.assertTrue([it for it in said if it.startswith(line)], said)

    def test_lists_without_a_fixed_word(self) -> None:
        for line, fault, shown in (
            ("(create deck (game hloc S) (deck ((R) (A))))", "(R)", ["    (ATTR (BRANCH+))", "Here belongs ATTR."]),
            ("(create deck (game hloc S) (deck (R A)))", "A)", ["    (ATTR (BRANCH+))", "Here belongs (BRANCH+)."]),
            ("(put points W ((R (A))))", "(R (A))", ["    (ATTR (VALUE+) N)", "    (ENTRY+)", "ENTRY is `(ATTR (VALUE+) N)`"]),
            ("(create teams ((0)))", "(0)", ["    (N+)", "Here belongs N."]),
        ):
            source = f"(game (setup (create players 1) {line}) (do (cycle reverse)) (scoring max 0))"
            said = explanation(f"sheet Shape {source.index(fault)}", source.encode(), ["sheet"])
            for it in shown:
                self.assertTrue([found for found in said if found.startswith(it)], said)
            self.assertFalse([found for found in said if found.startswith("No list")], said)

    def test_names_that_arent_known(self) -> None:
        source = items("(do (if (is 'C COLOR RED) (forget 'C)))")
        for name, kind in (("COLOR", "attribute"), ("RED", "value"), ("'C C", "variable")):
            said = " ".join(explanation(f"sheet Unknown {source.index(name)}", source.encode(), ["sheet"])[3:])
            self.assertIn(f"this {kind}", said)

    def test_a_head_that_no_list_has(self) -> None:
        said = explanation(SHEETS[6].note(), SHEETS[6].given(), ["sheet"])
        self.assertIn("No list begins with `discard` here.", said)
        source = SHEET.format("", "").replace("(R (A))", "(R)")
        said = explanation(f"sheet Shape {source.index('(R)')}", source.encode(), ["sheet"])
        self.assertFalse([line for line in said if line.startswith("No list")])

    def test_whole_lines(self) -> None:
        for note in ("too long", "no memory", "read fault", "write fault"):
            with self.subTest(note):
                self.assertTrue(explanation(note, b"", ["play"]))
        self.assertEqual(explanation("cache looks 0 hits 0", b"", ["play"]), [])

    def test_what_is_absent(self) -> None:
        for words, said in (
            ("watch 1 0", ["There is no seat 1: there is one alone, with the number 0."]),
            ("watch 00 7", ["There is no match 7: there is one alone, with the number 0."]),
            ("watch 7 00002", ["There is no seat 7: there is one alone, with the number 0. There is no match 2: there is one alone,", "with the number 0."]),
        ):
            self.assertEqual(explanation("absent", (GAME + PLAN).encode(), words.split()), said)
        said = explanation("absent", (GAME + PLAN.replace("(0 0)", "(from 1 1 30)")).encode(), ["watch", "0", "30"])
        self.assertEqual(said, ["There is no match 30: they are numbered from 0 to 29."])
        said = explanation("absent", (GAME + PLAN).encode(), ["rival", "3", "4", "1", "0"])
        self.assertEqual(said, ["There is no strategy 3: there is one alone, with the number 0."])

    def test_words_that_name_a_file(self) -> None:
        note = "usage: cardhouse play, check, sheet or bench"
        self.assertNotIn("GAME.plan", " ".join(explanation(note, b"", ["plays"])))
        self.assertIn("play GAME.sheet GAME.plan", " ".join(explanation(note, b"", [str(ROOT / "README.md")])))

    def test_what_isnt_known_is_left_alone(self) -> None:
        self.assertEqual(explanation("sheet Other 3", b"(game)", ["sheet"]), [])
        self.assertEqual(explanation("illegal 3 Other", b"(game)", ["check"]), [])

    def test_each_kind_of_the_program_has_a_sentence(self) -> None:
        for file, name, sentences in (
            ("rc_house/src/status.rt", "SourceKind", kinds.SHEET),
            ("rc_play_spec/src/plan_fault.rt", "PlanKind", kinds.PLAN),
            ("rc_judge/src/verdict.rt", "Why", kinds.ILLEGAL),
        ):
            with self.subTest(name):
                self.assertEqual(variants(ROOT / "crates" / file, name), sentences.keys())

    def test_each_kind_on_the_pages_has_a_sentence(self) -> None:
        texts = [page.read_text("utf-8") for page in PAGES]
        told = {found for text in texts for found in re.findall(r"`(sheet|plan) ([A-Z][a-z]\w+)\b", text)}
        self.assertTrue(told)
        for what, kind in told:
            self.assertIn(kind, kinds.SHEET if what == "sheet" else kinds.PLAN)

    def test_each_refusal_on_the_pages_is_explained(self) -> None:
        frames = read_frames(ROOT / "cases/language")
        refused = [case for page in PAGES for case in read_page(page, frames) if " at " in case.expected]
        self.assertGreater(len(refused), 90)
        for case in refused:
            with self.subTest(case.row.text):
                kind, _, at = case.expected.partition(" at ")
                note = f"{kind} {at}" if kind.startswith("plan") else f"sheet {kind} {at}"
                where, above, below, *said = explanation(note, case.source.encode(), [*case.words])
                self.assertTrue(where.startswith("line 1, column "), where)
                self.assertEqual(above[below.index("^")], case.source[int(at)])
                self.assertTrue(said)


def variants(file: Path, name: str) -> set[str]:
    """The variants of an enumeration of the program."""
    body = re.search(rf"^pub enum {name} {{\n(.*?)^}}", file.read_text("utf-8"), re.MULTILINE | re.DOTALL)
    return set(re.findall(r"^    (\w+),$", body[1], re.MULTILINE)) if body else set()


class Places(unittest.TestCase):
    def test_lines_and_columns(self) -> None:
        text = b"ab\n\n\tc\r\nd"
        for at, line, column in ((0, 1, 1), (2, 1, 3), (3, 2, 1), (4, 3, 1), (5, 3, 2), (6, 3, 3), (8, 4, 1), (9, 4, 2)):
            place = place_of(text, at)
            self.assertEqual((place.line, place.column, place.is_end), (line, column, at == 9))
            self.assertEqual(Lines(text).place_of(at), place)

    def test_a_tab_is_one_column_wide(self) -> None:
        self.assertEqual(picture(b"\t\tx", 3), ["      x", "      ^"])

    def test_bytes_that_a_terminal_would_take_for_a_command(self) -> None:
        self.assertEqual(shown(b"\x1b[2J\x07\xff\xc2\x9b"), "\\x1b[2J\\x07\\xff\\xc2\\x9b")
        self.assertEqual(shown("Kőr".encode()), "Kőr")

    def test_long_lines_are_cut(self) -> None:
        line = b"a" * 500 + b"X" + b"b" * 500
        above, below = picture(line, 501)
        self.assertLess(len(above), 120)
        self.assertEqual(above[below.index("^")], "X")
        self.assertTrue(above.strip().startswith(".. a") and above.endswith("b .."))
        above, below = picture(line, 1)
        self.assertEqual((above[below.index("^")], above[:5]), ("a", "    a"))
        above, below = picture(line, 1001)
        self.assertEqual((above[below.index("^") - 1], above[-1]), ("b", "b"))

    def test_where_a_transcript_begins(self) -> None:
        self.assertEqual(rest_of(b"(a (b)) ; (c)\n (d),\n;e\n f", 2), 24)
        self.assertEqual(rest_of(b"(a)", 2), 3)
        self.assertEqual(rest_of(b"(a)(b);x", 2), 8)
        self.assertEqual(rest_of(b"(a;)\n)(b) x", 2), 10)
        self.assertEqual([end_of(b" (a (b)) (c)", lists) for lists in (1, 2, 3)], [8, 12, 12])

    def test_lists_around(self) -> None:
        found = [(begin, [(part.text, part.at) for part in parts]) for begin, parts in lists_around(b"(a (b) (c ; (\n d", 15)]
        self.assertEqual(found, [(0, [("a", 1), ("(", 3)]), (7, [("c", 8)])])
        self.assertEqual(lists_around(b") (a) ) b", 8), [])


# What the grammar calls the places that the words in capitals stand for, or the forms that are parts of others.
PLACES = {
    "Sheet": "SHEET",
    "Setup": "(setup LINE+)",
    "Line": "LINE",
    "Deck": "(deck GROUP+)",
    "Group": "GROUP",
    "Branches": "(BRANCH+)",
    "Branch": "BRANCH",
    "Entries": "(ENTRY+)",
    "Entry": "ENTRY",
    "Values": "(VALUE+)",
    "Team": "(N+)",
    "Scoring": "(scoring BEST INT)",
    "Item": "ITEM",
    "End": "(end BOOL)",
    "Alternative": "ALT",
    "Domain": "DOMAIN",
    "Effect": "EFFECT",
    "Spot": "SPOT",
    "Location": "LOC",
    "Counter": "NUM",
    "Holder": "HOLDER",
    "Owner": "OWNER",
    "Player": "PLAYER",
    "Card": "CARD",
    "Collection": "COLL",
    "Members": "COLL",
    "Integer": "INT",
    "Test": "BOOL",
    "Side": "SIDE",
}


class Forms(unittest.TestCase):
    """The forms are those of the table of the grammar."""

    def setUp(self) -> None:
        specs = ROOT / "crates/rc_check/specs"
        self.words = dict(re.findall(r'^text_of keyword\.(\w+) = codes "(.+)"$', (specs / "Keyword.antt").read_text(), re.MULTILINE))
        # A row goes on in lines that are indented.
        grammar = re.sub(r"\n +", " ", (specs / "Grammar.antt").read_text())
        rows = re.findall(r"^(\w+)_of (?:symbol|rule)\.(\w+) = (.+)$", grammar, re.MULTILINE)
        self.table = {(what, name): cells.removesuffix("[]").split(" ∷ ")[:-1] for what, name, cells in rows}
        self.more = {name: cells != "None" for what, name, cells in rows if what == "more"}

    def fronts(self, rule: str) -> Iterator[tuple[list[str], bool]]:
        """The first parts of a form of the grammar, each a fixed word or nothing, and whether more may follow. Members are the
        word `player` or a collection."""
        symbols = self.table["front", rule]
        for members in {"player", ""} if "symbol.Members" in symbols else {""}:
            known = {"symbol.Members": members}
            yield [known.get(it) or self.words.get(it.removeprefix("symbol.Word keyword."), "") for it in symbols], self.more[rule]

    def test_each_symbol_has_the_lists_of_the_grammar(self) -> None:
        symbols = {name: rules for (what, name), rules in self.table.items() if what == "forms" and rules}
        self.assertEqual(symbols.keys(), PLACES.keys())
        for name, rules in symbols.items():
            written = [parts_of(form) for form in forms_of(PLACES[name])]
            fronts = [front for rule in rules for front in self.fronts(rule.removeprefix("rule."))]
            # A sheet holds two more parts than its row has: items, and the scoring behind them.
            if name == "Sheet":
                written = [parts[:2] + parts[-2:-1] for parts in written]
            with self.subTest(name):
                self.assertTrue(all(any(is_form_of(parts, *front) for front in fronts) for parts in written), written)
                self.assertTrue(all(any(is_form_of(parts, *front) for parts in written) for front in fronts), fronts)

    def test_what_belongs_in_a_place(self) -> None:
        for words, place, meant in (
            (["shuffle"], "EFFECT", ["LOC"]),
            (["peek"], "EFFECT", ["COLL"]),
            (["peek", "("], "EFFECT", ["OWNER"]),
            (["known"], "COLL", ["LOC"]),
            (["known"], "DOMAIN", ["LOC"]),
            (["all"], "EFFECT", ["player", "COLL"]),
            (["all", "player", "'P"], "EFFECT", ["EFFECT"]),
            (["all", "player", "'P"], "BOOL", ["BOOL"]),
            (["all", "players", "'P"], "BOOL", []),
            (["any"], "ALT", ["DOMAIN"]),
            (["top"], "SPOT", ["LOC"]),
            (["top"], "CARD", ["COLL"]),
            (["max", "("], "CARD", ["using"]),
            (["cycle"], "EFFECT", ["next", "reverse"]),
            (["cycle", "next"], "EFFECT", ["OWNER"]),
            (["cycle", "reverse"], "EFFECT", []),
            (["and", "(", "(", "("], "BOOL", ["BOOL"]),
            (["move"], "EFFECT", ["CARD", "all"]),
            (["move", "all"], "EFFECT", ["COLL"]),
            (["move", "'C"], "EFFECT", ["SPOT"]),
            (["+", "1"], "INT", ["INT"]),
            (["game"], "LOC", ["KIND"]),
            (["game"], "SIDE", ["sto"]),
            (["'P", "iloc"], "LOC", ["NAME"]),
            (["size"], "GROUP", ["(BRANCH+)"]),
            (["game", "(", "("], "SHEET", ["ITEM", "(scoring BEST INT)"]),
            (["matches"], "(matches MATCH+)", ["MATCH"]),
            (["from"], "MATCH", ["DEAL"]),
            (["0"], "MATCH", ["SEATS"]),
        ):
            with self.subTest(words=words, place=place):
                self.assertEqual(meant_behind(words, forms_with(words, [place])), meant)

    def test_words_in_capitals_have_a_meaning(self) -> None:
        forms = [form for of_place in FORMS.values() for form in of_place]
        words = {word for form in forms for word in re.findall(r"'V|[A-Z]+", form)}
        cited = r"\b(?:COLL|LOC|NUM|INT|CARD|OWNER|PLAYER)\b"
        words |= {word for meaning in MEANINGS.values() for word in re.findall(cited, meaning)}
        self.assertEqual(words - MEANINGS.keys(), set())


def is_form_of(parts: list[str], words: list[str], goes_on: bool) -> bool:
    """Whether these parts have the fixed words of a rule, as many places, and a last `X+` where it goes on."""
    fixed = [part if is_fixed(part) else "" for part in parts]
    return fixed[: len(words)] == words and len(parts) == len(words) + goes_on and is_plural(parts[-1]) == goes_on


class Program(Built):
    """The program by itself and explained ends alike, but for what is said below its line."""

    def run_both(self, words: list[str], source: bytes) -> tuple[int, str, str]:
        alone = run([PROGRAM, *words], source, seconds=SECONDS)
        explained = run([ROOT / "tools/explain", PROGRAM, *words], source, seconds=SECONDS)
        self.assertEqual((explained.returncode, explained.stdout), (alone.returncode, alone.stdout))
        self.assertTrue(explained.stderr.startswith(alone.stderr))
        return alone.returncode, alone.stderr.decode(), explained.stderr[len(alone.stderr) :].decode()

    def test_sheets_and_plans(self) -> None:
        for refused in SHEETS + PLANS:
            with self.subTest(refused.told):
                status, note, said = self.run_both([command_of(refused)], refused.given())
                self.assertEqual(note, refused.note() + "\n")
                self.assertEqual(status, 3 if refused.told.startswith("plan") else 1)
                self.assertIn(f"line {refused.line}, column {refused.column}", said)

    def test_transcripts(self) -> None:
        for told, text, _ in TEXTS:
            with self.subTest(told):
                status, note, said = self.run_both(["check"], (BEFORE_TEXT + text).encode())
                self.assertEqual((status, note), (4, told + "\n"))
                self.assertIn("of the transcript", said)

    def test_nothing_is_said_where_all_is_well(self) -> None:
        self.assertEqual(self.run_both(["play"], (GAME + PLAN).encode()), (0, "cache looks 0 hits 0\n", ""))
        self.assertEqual(self.run_both(["check"], (BEFORE_TEXT + TEXT).encode()), (0, "", ""))

    def test_a_source_that_is_too_long(self) -> None:
        status, note, said = self.run_both(["sheet"], b"; " + b"x" * 1048576)
        self.assertEqual((status, note), (8, "too long\n"))
        self.assertIn("1048576", said)


class Script(Scripted):
    """The script `cardhouse` with a program that writes what it reads, a note and ends as it is told."""

    def test_without_a_terminal_nothing_is_explained(self) -> None:
        ran = self.run_script("sheet")
        self.assertEqual((ran.returncode, ran.stdout, ran.stderr), (1, b"\n )\n", b"sheet Stray 2\n"))

    def test_explain_stands_first_and_is_taken_off(self) -> None:
        ran = self.run_script("--explain", "sheet")
        self.assertEqual((ran.returncode, ran.stdout), (1, b"\n )\n"))
        self.assertTrue(ran.stderr.startswith(b"sheet Stray 2\n\nline 2, column 2:\n     )\n     ^\n"), ran.stderr)

    def test_a_file_is_read_once_more(self) -> None:
        source = self.root / "source"
        source.write_bytes(b"read before\n\n )\n")
        with source.open("rb") as file:
            os.lseek(file.fileno(), 12, os.SEEK_SET)
            ran = self.run_script("--explain", "sheet", given=None, stdin=file)
        self.assertEqual(ran.stdout, b"\n )\n")
        self.assertIn(b"line 2, column 2:", ran.stderr)

    def test_a_terminal_is_enough(self) -> None:
        leader, follower = pty.openpty()
        ran = self.run_script("sheet", stdout=subprocess.PIPE, stderr=follower)
        os.close(follower)
        said = os.read(leader, 4096)
        os.close(leader)
        self.assertEqual(ran.returncode, 1)
        self.assertIn(b"line 2, column 2:", said)

    def test_words_are_judged_before_anything_is_read(self) -> None:
        reading, writing = os.pipe()
        note = "usage: cardhouse play, check, sheet or bench"
        ran = self.run_script("--explain", "words", note=note, status=2, given=None, stdin=reading, seconds=20)
        os.close(reading)
        os.close(writing)
        self.assertEqual(ran.returncode, 2)
        self.assertIn(b"bench N", ran.stderr)

    def test_a_folder_is_left_to_the_program(self) -> None:
        folder = os.open(self.root, os.O_RDONLY)
        ran = self.run_script("--explain", "sheet", note="read fault", status=6, given=None, stdin=folder)
        os.close(folder)
        self.assertEqual(ran.returncode, 6)
        self.assertTrue(ran.stderr.endswith(b"read fault\n"))

    def test_input_that_cant_be_read(self) -> None:
        reading, writing = os.pipe()
        ran = self.run_script("--explain", "sheet", given=None, stdin=writing, seconds=20)
        self.assertEqual((ran.returncode, ran.stdout, ran.stderr.splitlines()[0]), (6, b"", b"read fault"))
        os.close(reading)
        os.close(writing)
        with open(self.root / "out", "wb") as out:
            ran = self.run_script("--explain", "sheet", note="read fault", status=6, given=None, stdin=out, seconds=20)
        self.assertEqual((ran.returncode, ran.stderr.splitlines()[-1][:9]), (6, b"Standard "), ran.stderr)

    def test_nothing_is_said_of_what_went_well(self) -> None:
        ran = self.run_script("--explain", "play", note="cache looks 0 hits 0", status=0)
        self.assertEqual((ran.returncode, ran.stderr), (0, b"cache looks 0 hits 0\n"))

    def test_a_note_that_cant_be_written(self) -> None:
        with open("/dev/full", "wb") as full:
            how = {"stdout": subprocess.PIPE, "stderr": full}
            done = self.run_script("--explain", "play", note="cache looks 0 hits 0", status=0, **how)
            refused = self.run_script("--explain", "play", **how)
        self.assertEqual((done.returncode, refused.returncode), (7, 1))


if __name__ == "__main__":
    sys.exit(unittest.main())
