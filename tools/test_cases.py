"""Tests of how files of cases are read, and of what is asked of a run."""

import io
import re
import shutil
import tempfile
import unittest
from collections.abc import Callable
from contextlib import redirect_stderr, redirect_stdout
from dataclasses import replace
from itertools import islice
from pathlib import Path
from unittest.mock import patch

from cases import bench, checking, side_by_side, tricks
from cases.book import hits
from cases.expected import KINDS, PLAN_FAULTS, PLAN_KINDS
from cases.lengths import FIRST, LIMIT, lengthened, read_longest
from cases.language import frame_of, read_page
from cases.notes import NO_LOOKS, any_hits, is_note
from cases.plays import Play, lines_match, read_play, read_plays
from cases.rows import Mistake, Row, copied, is_limit, marked, only_last_marker, read_groups, read_rows, unescaped
from cases.running import ENDING, OF_PLANS, Case, End, fault_case, run
from cases.sheets import read_frames, read_sheets
from cases.texts import altered, read_texts
from cases.words import NO_SHEET, USAGE, words_case
from faults import kinds

ROW = Row(Path("file.cases"), 7, "")


class InFolder(unittest.TestCase):
    """Tests that write files into a folder of their own."""

    def setUp(self) -> None:
        self.folder = Path(tempfile.mkdtemp())
        self.addCleanup(shutil.rmtree, self.folder)

    def write(self, name: str, text: str) -> Path:
        file = self.folder / name
        file.write_text(text)
        return file

    def mistake(self, what: str, read: Callable[[], object]) -> None:
        with self.assertRaisesRegex(Mistake, what):
            read()


class Rows(InFolder):
    def test_comments_and_empty_lines_mean_nothing(self) -> None:
        rows = read_rows(self.write("a", "# one\n\nfirst  \n\n# two\nsecond\n"))
        self.assertEqual([(row.number, row.text) for row in rows], [(3, "first"), (6, "second")])

    def test_a_line_with_a_space_goes_on_with_the_row_above(self) -> None:
        rows = read_rows(self.write("a", "first\n  more \n# a comment between\n and more\nsecond\n"))
        self.assertEqual([(row.number, row.text) for row in rows], [(1, "first\nmore\nand more"), (5, "second")])

    def test_groups(self) -> None:
        groups = read_groups(self.write("a", "[one: x]\na\nb\n[two] in [one]\nc\n"))
        self.assertEqual([(it.heading.text, it.behind, [row.text for row in it.rows]) for it in groups],
                         [("one: x", "", ["a", "b"]), ("two", "in [one]", ["c"])])

    def test_mistakes_of_groups(self) -> None:
        self.mistake(r":1: this row stands below no heading", lambda: read_groups(self.write("a", "x\n[one]\ny\n")))
        self.mistake(r":1: no row stands below this heading", lambda: read_groups(self.write("a", "[one]\n[two]\ny\n")))
        self.mistake(r"it has no rows", lambda: read_groups(self.write("a", "# nothing\n")))

    def test_escapes(self) -> None:
        self.assertEqual(unescaped(ROW, r"a\nb\tc\\d\xe9\r"), "a\nb\tc\\d\xe9\r")
        self.mistake("file.cases:7: an escape that isn't known", lambda: unescaped(ROW, r"a\xg"))

    def test_copies(self) -> None:
        self.assertEqual(copied("a {3 (b#) }c"), "a (b0) (b1) (b2) c")
        self.assertEqual(copied("{2 x}{0 y}{2+ z}"), "xxzz")
        self.assertEqual(copied("{2 x}{2+ z#}", 1), "xxz0z1z2")
        self.assertTrue(is_limit("{2+ z}"))
        self.assertFalse(is_limit("{2 z}"))

    def test_markers(self) -> None:
        self.assertEqual(marked("ab^cd^"), ("abcd", 2))
        self.assertEqual(marked("abcd"), ("abcd", -1))
        self.assertEqual(only_last_marker("^a^b^c"), "ab^c")


class Sheets(InFolder):
    def cases(self, frames: str, text: str) -> list[tuple[tuple[str, ...], str, str]]:
        self.write("frames", frames)
        file = self.write("a.cases", text)
        return [(case.words, case.source, case.expected) for case in read_sheets(file, read_frames(self.folder))]

    def test_frames_with_several_places(self) -> None:
        cases = self.cases("[f]\n(@ (@) @)\n", "[f: Unseen]\na^b\n")
        self.assertEqual(cases, [(("sheet",), "(ab (ab) ab)", "Unseen at 2")])

    def test_frames_in_frames_and_with_several_texts(self) -> None:
        self.write("frames", "[out]\n1 @\n2 @ @\n[in] in [out]\n(@)\n")
        self.assertEqual(read_frames(self.folder)["in"], ["1 (@)", "2 (@) (@)"])

    def test_several_frames_of_a_group(self) -> None:
        cases = self.cases("[f]\n(@)\n[g]\n<@>\n", "[f, g: no fault]\na\nb\n")
        self.assertEqual([source for _, source, _ in cases], ["(a)", "<a>", "(b)", "<b>"])

    def test_a_limit_is_met_and_passed(self) -> None:
        cases = self.cases("[f]\n(@)\n", "[f: TooMany]\n{2+ ^a# }\n")
        self.assertEqual(cases, [(("sheet",), "(a0 a1 )", "no fault of meaning"), (("sheet",), "(a0 a1 a2 )", "TooMany at 7")])

    def test_faults_of_plans(self) -> None:
        cases = self.cases("[f]\n(@)\n", "[f: plan Seats]\n^a\n[f: play Stray]\n^b\n[f: no fault of plan]\nc\n")
        plan, sheet = ([(words, f"({part})", f"{told} at 1") for words in OF_PLANS]
                       for part, told in (("a", "plan Seats"), ("b", "play Stray")))
        self.assertEqual(cases, [*plan, *sheet, (("play",), "(c)", "no fault of plan"), (("check",), "(c)", "text 1")])

    def test_what_follows_a_plan_is_a_fault_for_play_alone(self) -> None:
        cases = self.cases("[f]\n(@)\n", "[f: plan Rest]\n^a\n")
        self.assertEqual(cases, [*((words, "(a)", "plan Rest at 1") for words in ENDING), (("check",), "(a)", "text 1")])

    def test_mistakes(self) -> None:
        self.mistake("no frame 'g'", lambda: self.cases("[f]\n(@)\n", "[g: no fault]\na\n"))
        self.mistake("a frame has no '@'", lambda: self.cases("[f]\n()\n", "[f: no fault]\na\n"))
        self.mistake("a frame of this name", lambda: self.cases("[f]\n@\n[f]\n@\n", "[f: no fault]\na\n"))
        self.mistake("no frame above", lambda: self.cases("[f] in [g]\n@\n", "[f: no fault]\na\n"))
        self.mistake("'Unsene' is nothing", lambda: self.cases("[f]\n@\n", "[f: Unsene]\n^a\n"))
        self.mistake("has 1 of the marker", lambda: self.cases("[f]\n@\n", "[f: Unseen]\na\n"))
        self.mistake("has 0 of the marker", lambda: self.cases("[f]\n@\n", "[f: no fault]\n^a\n"))

    def test_what_meets_an_expectation(self) -> None:
        self.write("frames", "[f]\n@\n")
        file = self.write("a.cases", "[f: Unseen]\n^a\n[f: no fault of shape]\na\n[f: prints itself]\na\n[f: prints b]\na\n")
        fault, shape, itself, other = read_sheets(file, read_frames(self.folder))
        unseen, unclosed = End(1, "", "sheet Unseen 0\n"), End(1, "", "sheet Shape 0\n")
        printed = End(0, "a\n", "")
        self.assertEqual([fault.is_met(end) for end in (unseen, unclosed, printed)], [True, False, False])
        self.assertEqual([shape.is_met(end) for end in (unseen, unclosed, printed)], [True, False, True])
        self.assertEqual([itself.is_met(printed), other.is_met(printed), other.is_met(End(0, "b\n", ""))], [True, False, True])
        self.assertFalse(fault.is_met(End(1, "x", "sheet Unseen 0\n")))
        self.assertFalse(fault.is_met(End(3, "", "sheet Unseen 0\n")))


class Plays(InFolder):
    SOURCE = "(game @a @b)"

    def plays(self, text: str) -> list[tuple[tuple[str, ...], str, str]]:
        return [(case.words, case.source, case.expected) for case in read_plays(self.write("a.plays", text), self.SOURCE)]

    def test_later_plays_take_over_from_the_first(self) -> None:
        cases = self.plays("[one]\na: 1\nb: {2 x}\n> house 1\n[two]\na: ^2\nNumber\n")
        self.assertEqual({source for _, source, _ in cases[:3]}, {"(game 1 xx)"})
        self.assertEqual(cases[3], (("check",), "(game 1 xx)\nhouse 1\n", "legal"))
        self.assertEqual(cases[4:], [((word,), "(game 2 xx)", "Number at 6") for word in ("sheet", "play", "check", "migrate")])

    def test_lines_of_format_2(self) -> None:
        cases = self.plays("[one]\na: 1\nb: 2\n> house 2\n> face 0\n--cache 1: looks 3 hits 0\n")
        options = ((), ("--cache", "1"), ("--workers", "2"), ("--workers", "4"))
        self.assertEqual([words for words, _, _ in cases[:4]], [("play", "--format", "2", *its) for its in options])
        text = "(game 1 2)\nhouse 2\nface 0\n"
        self.assertEqual([it[:2] for it in cases[4:]], [(("check",), text), (("migrate",), text)])

    def test_lines_that_are_left_out(self) -> None:
        cases = self.plays("[one]\na: 1\nb: 2\n> house 1\n> ..\n")
        self.assertEqual({words[0] for words, _, _ in cases}, {"play"})
        self.assertTrue(lines_match(["a", "..", "b"], "a\nb\n"))
        self.assertTrue(lines_match(["a", "..", "b"], "a\nx\ny\nb\n"))
        self.assertFalse(lines_match(["a", "..", "b"], "a\nx\nb\nc\n"))
        self.assertFalse(lines_match(["a."], "ab\n"))

    def test_what_is_noted(self) -> None:
        text = "[one]\na: 1\nb: 2\n> house 1\n> ..\nlooks 3 hits 1\n--cache 1: looks 3 hits 0\n[two]\n> house 1\n> ..\n"
        cases = list(read_plays(self.write("a.plays", text), self.SOURCE))
        options = ((), ("--cache", "1"), ("--workers", "2"), ("--workers", "4"))
        others = (options[0], *options[2:])
        self.assertEqual([case.words for case in cases], [("play", *option) for option in options + others])
        notes = ("cache looks 3 hits 1\n", "cache looks 3 hits 0\n", "cache looks 0 hits 0\n")
        met = [[number for number, note in enumerate(notes) if case.is_met(End(0, "house 1\nmore\n", note))] for case in cases]
        self.assertEqual(met, [[0], [1], [0, 1], [0, 1], [2], [2], [2]])
        self.assertFalse(cases[0].is_met(End(0, "house 2\n", notes[0])))
        self.assertFalse(cases[2].is_met(End(0, "house 2\n", notes[0])))

    def test_any_hits(self) -> None:
        self.assertEqual(any_hits("cache looks 600 hits 12\n"), "cache looks 600 hits *\n")
        found = ("600 hits 0", "600 hits 599", "600 hits 600", "600 hits 05", "600 hits ", "601 hits 0", "600 hits *", "600 hits 1 ")
        met = [is_note("cache looks 600 hits *\n", f"cache looks {it}\n") for it in found]
        self.assertEqual(met, [True, True] + [False] * 6)
        self.assertEqual([is_note(any_hits(NO_LOOKS), f"cache looks 0 hits {hits}\n") for hits in (0, 1)], [True, False])
        self.assertFalse(is_note("cache looks 600 hits *\n", "cache looks 600 hits 0"))
        self.assertFalse(is_note("cache looks 600 hits 1\n", "cache looks 600 hits 2\n"))

    def test_other_commands(self) -> None:
        ends = [End(0, "log 1\nstops 0\n", ""), End(10, "", "absent\n"), End(1, "", "sheet Number 6\n"), End(3, "", "plan Turns 6\n")]
        others = End(0, "log 1\nstops 0\n", "cache looks 0 hits 0\n"), End(0, "log 2\n", ""), End(0, "", "absent\n")
        text = "[one]\na: 1\nb: 2\n$ watch 0 1\n> log 1\n> ..\n[two]\n$ watch 7 1\nabsent\n[three]\na: ^3\n$ watch 0 0\nNumber\n"
        cases = list(read_plays(self.write("a.plays", text + "[four]\na: ^3\n$ watch 0 0\nplan Turns\n"), self.SOURCE))
        self.assertEqual([case.words for case in cases], [("watch", *numbers) for numbers in ("01", "71", "00", "00")])
        self.assertEqual([[case.is_met(end) for end in (*ends, *others)] for case in cases],
                         [[at == number for at in range(7)] for number in range(4)])

    def test_lines_that_are_read(self) -> None:
        text = "[one]\na: 1\nb: 2\n< house 1\n<- end\n$ measure\ntext 2\n[two]\n< house 2\n$ measure\n> measure 1\n[three]\n$ measure\nillegal 1 Seat\n"
        cases = list(read_plays(self.write("a.plays", text), self.SOURCE))
        self.assertEqual([case.source.removeprefix("(game 1 2)") for case in cases], ["house 1\nend", "house 2\n", ""])
        ends = End(4, "", "text 2\n"), End(0, "measure 1\n", ""), End(4, "", "illegal 1 Seat\n")
        self.assertEqual([[case.is_met(end) for end in ends] for case in cases], [[at == number for at in range(3)] for number in range(3)])

    def test_other_refusals(self) -> None:
        self.assertEqual(self.plays("[one]\na: 1\nb: 2\ntoo long\n"), [(("play",), "(game 1 2)", "too long")])
        self.assertEqual(
            self.plays("[one]\na: ^1\nb: 2\nplan Seats\n"),
            [(words, "(game 1 2)", "plan Seats at 6") for words in OF_PLANS],
        )

    def test_mistakes(self) -> None:
        self.mistake("lines, or one refusal", lambda: self.plays("[one]\na: 1\nb: 2\n"))
        self.mistake("lines, or one refusal", lambda: self.plays("[one]\na: 1\nb: 2\nNumber\n> house 1\n"))
        self.mistake("neither a place", lambda: self.plays("[one]\nsomething\n> house 1\n"))
        self.mistake("aren't those of the source", lambda: self.plays("[one]\na: 1\n> house 1\n"))
        self.mistake("has 1 of the marker", lambda: self.plays("[one]\na: 1\nb: 2\nNumber\n"))
        for row in ("looks 3", "looks 3 hits", "cache 1: looks 3 hits 0", "--cache 1 looks 3 hits 0"):
            self.mistake("neither a place|aren't those", lambda: self.plays(f"[one]\na: 1\nb: 2\n> house 1\n{row}\n"))

    def test_a_place_of_several_lines(self) -> None:
        group = read_groups(self.write("a", "[one]\na: 1\n 2\n> x\n"))[0]
        self.assertEqual(read_play(group, {"b": "3"}), Play({"b": "3", "a": "1\n2"}, ["x"], {(): NO_LOOKS}))


class Texts(InFolder):
    def test_alterations(self) -> None:
        text = "[as it is]\nlegal\n[altered]\n2: B\n1-\n1+ x\n4+ d\nillegal 2 Match\n"
        groups = read_groups(self.write("a.texts", text))
        self.assertEqual(altered(groups[0], ["a", "b", "c"]), (["a", "b", "c"], "legal"))
        self.assertEqual(altered(groups[1], ["a", "b", "c"]), (["x", "B", "c", "d"], "illegal 2 Match"))

    def test_what_is_expected(self) -> None:
        cases = list(read_texts(self.write("a.texts", "[one]\nlegal\n[two]\n1: b\ntext 1\n"), "(s)", "a\n"))
        self.assertEqual([case.source for case in cases], ["(s)\na\n", *["(s)\nb\n"] * 3])
        self.assertEqual([case.words for case in cases], [("check",), ("check",), ("migrate",), ("measure",)])
        self.assertTrue(cases[0].is_met(End(0, "legal\n", "")))
        self.assertTrue(cases[2].is_met(End(4, "", "text 1\n")))
        self.assertTrue(cases[3].is_met(End(4, "", "text 1\n")))
        self.assertTrue(cases[1].is_met(End(4, "", "text 1\n")))
        self.assertFalse(cases[1].is_met(End(4, "legal\n", "text 1\n")))
        self.mistake("what is expected of a text", lambda: list(read_texts(self.write("b.texts", "[one]\n1: x\n"), "", "")))

    def test_what_migrate_writes(self) -> None:
        cases = list(read_texts(self.write("a.texts", "[one]\n1: b\nlegal\n> c\n> d\n"), "(s)", "a\n"))
        self.assertEqual([(case.words, case.source) for case in cases], [((word,), "(s)\nb\n") for word in ("check", "migrate")])
        self.assertTrue(cases[1].is_met(End(0, "c\nd\n", "")))
        self.assertFalse(cases[1].is_met(End(0, "b\n", "")))
        cases = list(read_texts(self.write("a.texts", "[one]\n1+ ; more\nlegal\n"), "(s)", "house 2\na\n"))
        self.assertTrue(cases[1].is_met(End(0, "house 2\na\n", "")))


class Pages(InFolder):
    FRAMES = {"EFFECT": ["<@>"], "first EFFECT": ["1 @"], "second LINE": ["2 @"], "second EFFECT": ["3 @"],
              "plan PLAN": ["4 @"]}

    def test_tables(self) -> None:
        page = self.write(
            "PAGE.md",
            "| EFFECT | example | does |\n|---|---|---|\n| `(x)` | `(y)` | it |\n\n"
            "### The first round: shapes\n\n| EFFECT | line | since |\n|---|---|---|\n| `(a)` | `sheet Shape 2` | so |\n\n"
            "## The second round\n\n| LINE or EFFECT | line | since |\n|---|---|---|\n"
            "| `(create a)` | `sheet Twice 2` | so |\n| `(b)` | `sheet Unknown 3` | so |\n\n"
            "## Of a plan\n\n| PLAN | line | since |\n|---|---|---|\n| `(c)` | `plan Seats 3` | so |\n\n"
            "| other | table |\n|---|---|\n| `x` | `y` |\n",
        )
        cases = [(case.source, case.expected) for case in read_page(page, self.FRAMES)]
        self.assertEqual(cases, [("<(y)>", "no fault of shape"), ("1 (a)", "Shape at 2"), ("2 (create a)", "Twice at 2"),
                                 ("3 (b)", "Unknown at 3"), *[("4 (c)", "plan Seats at 3")] * 6])

    def test_where_a_part_stands(self) -> None:
        self.assertEqual(frame_of("second", "EFFECT, LINE or ITEM", "(choice (do))"), "second ITEM")
        self.assertEqual(frame_of("second", "EFFECT, LINE or ITEM", "(put points)"), "second LINE")
        self.assertEqual(frame_of("second", "EFFECT, LINE or ITEM", "(forget 'C)"), "second EFFECT")
        self.assertEqual(frame_of("first", "sheet", "(game)"), "first sheet")


class Words(unittest.TestCase):
    def case(self, text: str) -> tuple[tuple[str, ...], Callable[[End], bool]]:
        case = words_case(Row(Path("words.rows"), 1, text))
        self.assertEqual(case.source, "")
        return case.words, case.is_met

    def test_no_command(self) -> None:
        words, is_met = self.case('["play", "--", ""]\tusage')
        self.assertEqual(words, ("play", "--", ""))
        self.assertTrue(is_met(USAGE))
        self.assertFalse(is_met(End(2, "x", USAGE.notes)))
        self.assertFalse(is_met(NO_SHEET))

    def test_commands_on_an_empty_input(self) -> None:
        for row in ('["play"]\tplay workers 1 cache 1024', '["check"]\tcheck', '["sheet"]\tsheet'):
            self.assertTrue(self.case(row)[1](End(1, "", "sheet Shape 0\n")))
        self.assertTrue(self.case('["play", "--workers=2"]\tplay workers 2 cache 1024')[1](NO_SHEET))

    def test_benches(self) -> None:
        end = End(0, tricks.summary(2), "cache looks 24 hits 0\n")
        self.assertTrue(self.case('["bench", "2", "--cache=3"]\tbench 2 workers 1 cache 3')[1](end))
        self.assertTrue(self.case('["bench", "002"]\tbench 2 workers 1 cache 1024')[1](end))
        self.assertFalse(self.case('["bench", "1"]\tbench 1 workers 1 cache 1024')[1](end))
        self.assertTrue(self.case('["bench", "2", "--workers=4"]\tbench 2 workers 4 cache 1024')[1](end))

    def test_larger_benches(self) -> None:
        words, is_met = self.case('["bench", "01000"]\tbench 1000 workers 1 cache 1024')
        self.assertEqual(words, ("bench", "01000"))
        head, note = "bench 1000\nmatches 1000\ndecisions 24000\nlimits 0\n", "cache looks 12000 hits 0\n"
        standings = [f"standing {place} strategy {place - 1} points 3000\n" for place in (1, 2, 3, 4)]
        self.assertTrue(is_met(End(0, head + "".join(standings), note)))
        for end in (
            End(0, head + "".join(standings), "cache looks 12000 hits 1\n"),
            End(0, head + "".join(standings[:3]), note),
            End(0, head + "".join(standings).replace("3000", "3001"), note),
            End(0, head.replace("24000", "24001") + "".join(standings), note),
            End(9, head + "".join(standings), note),
            End(0, "", note),
        ):
            self.assertFalse(is_met(end))

    def test_mistakes(self) -> None:
        for row in ('play\tusage', '["play"]', '[1]\tusage', '["play"]\tplays'):
            with self.assertRaises(Mistake):
                self.case(row)


class Ends(unittest.TestCase):
    def test_faults(self) -> None:
        self.assertEqual(End(1, "", "sheet Unseen 338\n").fault(), ("Unseen", 338))
        self.assertEqual(End(3, "", "plan Seats 3\n").plan_fault(), ("Seats", 3))
        for end in (End(3, "", "sheet Unseen 338\n"), End(1, "x", "sheet Unseen 338\n"), End(1, "", "sheet Unseen 338")):
            self.assertIsNone(end.fault())

    def test_how_they_are_said(self) -> None:
        self.assertEqual(str(End(1, "", "sheet Unseen 338\n")), "Unseen at 338")
        self.assertEqual(str(End(3, "", "plan Seats 3\n")), "plan Seats at 3")
        self.assertEqual(str(End(0, "x\n", "")), "accepted, with the text 'x\\n'")
        self.assertEqual(str(End(8, "", "too long\n")), "status 8 with the note 'too long\\n'")


class Runs(InFolder):
    def program(self, script: str) -> None:
        file = self.write("program", f"#!/bin/sh\n{script}\n")
        file.chmod(0o755)
        patched = patch("cases.running.PROGRAM", file)
        patched.start()
        self.addCleanup(patched.stop)

    def test_how_a_run_ends(self) -> None:
        self.program('cat; echo "$1-$2" >&2; exit 3')
        self.assertEqual(run(("a", "\u0661"), "x\xe9\n"), End(3, "x\xe9\n", "a-\u0661\n".encode().decode("latin-1")))

    def test_what_is_said_of_a_case_that_fails(self) -> None:
        self.program("echo sheet Stray 3 >&2; exit 1")
        self.assertIsNone(fault_case(ROW, "sheet", "(x)", ("Stray", 3)).run())
        said = fault_case(ROW, "sheet", "(x)", ("Unseen", 3)).run()
        self.assertEqual(said, "file.cases:7: expected Unseen at 3, found Stray at 3\n    (x)")

    def test_a_case_that_takes_too_long(self) -> None:
        self.program("exec sleep 30")
        with patch("cases.running.SECONDS", 0.1):
            said = fault_case(ROW, "sheet", "(x)", ("Unseen", 3)).run() or ""
        self.assertIn("no end within 0.1 seconds", said)


class Tricks(unittest.TestCase):
    """The trick game, by what its rules say and by words of the generator that are known."""

    def test_words(self) -> None:
        # The first block of ChaCha with eight rounds and a key of zeros.
        known = (
            "3e00ef2f895f40d67f5bb8e81f09a5a12c840ec3ce9a7f3b181be188ef711a1e"
            "984ce172b9216f419f445367456d5619314a42a3da86b001387bfdb80e0cfe42"
        )
        self.assertEqual(b"".join(word.to_bytes(4, "little") for word in tricks.block((0,) * 8, 0)).hex(), known)
        self.assertEqual(list(islice(tricks.words(1, 1, 0, 0), 4)), [1489600331, 1011583306, 2319271736, 3563607617])

    def test_draws(self) -> None:
        self.assertEqual(tricks.permuted([1, 2, 3, 4, 5], 1, 1, 0, 0), [4, 3, 5, 1, 2])
        self.assertEqual(tricks.pick(256, 0, 2, 0, 1), 109)
        self.assertEqual([tricks.pick(7, 0, 2, 0, turn) for turn in (1, 3, 5)], [2, 6, 4])

    def test_cards(self) -> None:
        self.assertEqual([tricks.worth(card) for card in (0, 3, 4, 31, 32, 34)], [3, 3, 4, 10, 11, 11])
        self.assertEqual([tricks.suit(card) for card in (0, 3, 4, 31, 32, 34)], [0, 3, 0, 3, 0, 2])

    def test_a_trick(self) -> None:
        # Seat 1 leads the 4 of the first suit. Seat 2 has to follow, seat 3 can't, and seat 0 takes the trick with the ace.
        table = tricks.Table([], [[32, 1], [4, 2], [3, 0], [6, 7]], mover=1)
        self.assertEqual(table.menu(), [4, 2])
        table.play(0)
        self.assertEqual(table.menu(), [0])
        table.play(0)
        self.assertEqual(table.menu(), [6, 7])
        table.play(1)
        self.assertEqual(table.menu(), [32])
        table.play(0)
        self.assertEqual((table.last, table.mover, table.lead, table.menu()), (0, 0, None, [1]))
        self.assertEqual([table.points(seat) for seat in range(4)], [6, 2, 2, 2])

    def test_what_is_seen_stays_in_a_redraw(self) -> None:
        table = tricks.dealt(1)
        table.play(0)
        drawn = tricks.redrawn(table, 1, 5, 6, 7, 8)
        self.assertEqual((drawn.hands[1], drawn.tricks, drawn.lead), (table.hands[1], table.tricks, table.lead))
        self.assertEqual([len(hand) for hand in drawn.hands], [5, 6, 6, 6])
        self.assertEqual(sorted(drawn.stock + sum(drawn.hands, [])), sorted(table.stock + sum(table.hands, [])))
        self.assertNotEqual(drawn.hands[2], table.hands[2])

    def test_matches(self) -> None:
        text = tricks.transcript(tricks.in_a_row(1, 1000, 2)).splitlines()
        self.assertEqual(len(text), 1 + 2 * 31 + 4)
        self.assertEqual(text[1], "match 0 deal 1 seats 1000")
        self.assertEqual(text[26:28], ["shuffles 1", "end done 54"])
        self.assertEqual(sum(int(line.split()[-1]) for line in text if line.startswith("standing")), 24)
        named = tricks.transcript(tricks.in_a_row(1, 1000, 2), named=True).splitlines()
        self.assertEqual((named[0], named[1], named[35]), ("house 2", "face 0 RANK 3 SUIT C", "face 34 RANK A SUIT H"))
        self.assertEqual([line.split(" c")[0] for line in named[36:]], text[1:])
        self.assertEqual(len({line.split()[5] for line in named[37:61]}), 24)
        self.assertTrue(tricks.summary(2).startswith("bench 2\nmatches 2\ndecisions 48\nlimits 0\nstanding 1 "))

    def test_what_is_seen(self) -> None:
        # Seat 1 is to follow with one of its two cards. It doesn't see which cards the others hold, or which are left.
        table = tricks.Table([8, 9], [[1], [4, 2], [3, 0], [6, 7]], [5, 10, 11, 12], [32, None, None, None], 32, 1, 9, 2)
        other = tricks.Table([3, 7], [[6], [4, 2], [8, 0], [9, 1]], [5, 10, 11, 12], [32, None, None, None], 32, 1, 9, 2)
        self.assertEqual(table.seen(), other.seen())
        seen = {table.seen()}
        for change in (
            {"stock": [8]}, {"hands": [[], [4, 2], [3, 0], [6, 7]]}, {"hands": [[1], [2, 4], [3, 0], [6, 7]]},
            {"used": [10, 5, 11, 12]}, {"tricks": [33, None, None, None]}, {"lead": 33}, {"mover": 2}, {"turn": 10}, {"last": 3},
        ):
            seen.add(replace(table, **change).seen())
        self.assertEqual(len(seen), 10)

    def test_looks(self) -> None:
        # Six of each of two seats, and in matches of different seeds all different.
        self.assertEqual([tricks.note(tricks.of_bench(3), entries) for entries in (1, 1024)], ["cache looks 36 hits 0\n"] * 2)
        for entries, found in bench.FOUND.items():
            with self.subTest(entries):
                self.assertEqual(tricks.note(bench.AGAIN, entries), f"cache looks 144 hits {found}\n")

    def test_looks_of_several_workers(self) -> None:
        self.assertEqual(bench.note_of(tricks.of_bench(3), 1024, 4), "cache looks 36 hits 0\n")
        self.assertEqual(bench.note_of(bench.AGAIN, 1, 1), "cache looks 144 hits 0\n")
        self.assertEqual(bench.note_of(bench.AGAIN, 1, 2), "cache looks 144 hits *\n")


class Book(unittest.TestCase):
    def test_what_was_asked_for_is_found(self) -> None:
        self.assertEqual([hits(looks, 9) for looks in ("", "a", "ab", "aa", "aba", "aabbab")], [0, 0, 0, 1, 1, 4])

    def test_who_wasnt_asked_for_longest_leaves(self) -> None:
        self.assertEqual([hits("abacab", capacity) for capacity in (1, 2, 3)], [0, 2, 3])
        self.assertEqual([hits("abcabc", capacity) for capacity in (1, 2, 3)], [0, 0, 3])
        self.assertEqual([hits("abba", capacity) for capacity in (1, 2)], [1, 2])


class Lengths(unittest.TestCase):
    def test_sources_are_as_long_as_they_may_be_or_longer_by_a_byte(self) -> None:
        cases = [(len(case.source) - LIMIT, case.expected) for case in read_longest(FIRST)]
        self.assertEqual([more for more, _ in cases], [0, 1, 1, 0, 1, 0])
        self.assertEqual([expected for more, expected in cases if more], ["too long"] * 3)

    def test_a_first_choice_is_made_again(self) -> None:
        text = ["house 1", "match 0 deal 0 seats 0", "choose 0 0 1 2", "end done 8", *["score 0 0 0"] * 2, *["standing"] * 2]
        room = sum(len(line) + 1 for line in text)
        self.assertEqual(lengthened(text, room), text)
        self.assertEqual(lengthened(text, room + 31), [*text[:3], "choose 0 0 1 20", "choose 0 0 1 2", *text[3:]])


class SideBySide(InFolder):
    TEXT = "house 1\nmatch 0 deal 0 seats 0\nchoose 0 0 0 1\nchoose 1 0 0 1\nend done 2\nscore 0 1 2\n"

    def met(self, source: str) -> list[bool]:
        case = side_by_side.paired_case(ROW, source, self.TEXT, self.folder)
        ends = (End(0, "3 stops agree\n", ""), End(0, "4 stops agree\n", ""), End(0, "", ""), End(1, "", "Memory\n"))
        return [case.is_met(end) for end in ends]

    def test_there_are_as_many_stops_as_choices_and_ends(self) -> None:
        self.assertEqual(side_by_side.stops_in(self.TEXT), 3)
        self.assertEqual(self.met("(plan (seats (script) (random 1)))"), [True, False, False, False])

    def test_seats_that_roll_out_may_make_more_choices_or_fewer(self) -> None:
        self.assertEqual(self.met("(plan (seats (script) (rollout 4 9)))"), [True, True, False, False])

    def test_plays_with_a_whole_text(self) -> None:
        first = "[one]\na: 1\nb: 2\n> house 1\n> end done 0\n[more]\nb: 3\n> house 2\n> face 0 A B\n> end done 0\n"
        others = "[two]\n> house 1\n> ..\n[three]\na: ^2\nNumber\n"
        plays = read_plays(self.write("a.plays", first + others), Plays.SOURCE)
        cases = [(case.source, case.expected) for case in side_by_side.of_plays(plays, self.folder)]
        self.assertEqual(cases, [("(game 1 2)", "that 1 stops agree"), ("(game 1 3)", "that 1 stops agree")])

    def test_examples_with_a_plan(self) -> None:
        for name, text in (("a.sheet", "(game)\n"), ("a.plan", "(plan)\n"), ("a.transcript", self.TEXT), ("b.sheet", "(")):
            self.write(name, text)
        cases = [(case.source, case.expected) for case in side_by_side.of_examples(self.folder, self.folder)]
        self.assertEqual(cases, [("(game)\n(plan)\n", "that 3 stops agree")])

    def test_the_libraries_of_the_program_are_those_that_it_names(self) -> None:
        self.assertEqual(set(side_by_side.LIBRARIES.split()), set(re.findall(r"\brc_\w+", side_by_side.SOURCE.read_text("utf-8"))))


class Asked(InFolder):
    def asked(self, *words: str) -> tuple[int | None, str]:
        """How `cases/check` ends by these words where it comes to no case, and what it says."""
        told = io.StringIO()
        with redirect_stdout(told), redirect_stderr(told), self.assertRaises(SystemExit) as ended:
            checking.main([*words])
        return ended.exception.code, told.getvalue()

    def test_help_is_no_run(self) -> None:
        with patch.object(checking, "build") as build:
            status, told = self.asked("--help")
        build.assert_not_called()
        self.assertEqual(status, 0)
        self.assertIn("PROGRAM", told)

    def test_a_program_that_is_none(self) -> None:
        status, told = self.asked(str(self.folder / "none"))
        self.assertEqual(status, 2)
        self.assertIn("none can't be run", told)

    def test_another_program_is_run_and_none_is_built(self) -> None:
        program = self.folder / "program"
        program.write_text("#!/bin/sh\necho done\n", "utf-8")
        program.chmod(0o755)
        case = Case(Row(self.folder / "rows", 1, "row"), ("play",), "", "done", lambda end: end.out == "done\n")
        with patch.object(checking, "build") as build, patch.object(checking, "read_all", return_value={case.row.file: [case]}):
            with redirect_stdout(io.StringIO()) as told:
                status = checking.main([str(program)])
        build.assert_not_called()
        self.assertEqual(status, 0, told.getvalue())


class Files(unittest.TestCase):
    def setUp(self) -> None:
        self.cases = [case for of_file in checking.read_all().values() for case in of_file]

    def test_all_files_of_cases_can_be_read(self) -> None:
        self.assertGreater(len(self.cases), 5000)

    def test_each_kind_of_fault_and_each_reason_is_expected_somewhere(self) -> None:
        expected = {case.expected.partition(" at ")[0] for case in self.cases}
        self.assertEqual(KINDS | PLAN_FAULTS, expected & (KINDS | PLAN_FAULTS))
        reasons = {told.split()[2] for told in expected if told.startswith("illegal ")}
        self.assertEqual((KINDS, PLAN_KINDS, reasons), (kinds.SHEET.keys(), kinds.PLAN.keys(), kinds.ILLEGAL.keys()))


if __name__ == "__main__":
    unittest.main()
