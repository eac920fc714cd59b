"""Tests of `report`: what it counts, when it says something, and its page."""

import csv
import re
import sys
import tempfile
import unittest
from concurrent.futures import Future
from contextlib import redirect_stderr
from functools import cache
from html import unescape
from io import StringIO
from pathlib import Path
from urllib.parse import unquote

import browser
from built import ROOT, name_program
from markup import faults_of
from pieces.program import Program
from replays.gathering import gather
from replays.playing import PLAY, called
from replays.sources import Sheet, plan_of
from reports.charts import bins, ticks
from reports.findings import sections
from reports.gathering import tell
from reports.intervals import of_mean, of_share, quantile
from reports.matches import remarkable
from reports.page import report_page
from reports.records import write_records
from reports.report import Report
from reports.running import main
from reports.section import Section
from reports.sites import sites_of
from tables.counting import counts_of
from tables.figure import Figure
from tables.house import Reader
from tables.showing import table

EXAMPLES = ROOT / "examples"
THREE = b"(plan (seats (random 1) (random 2) (random 3)) (matches (from 1 1 40)) (turns 150))\n"

# Seat 0 ends each match by its first choice. One alternative is never offered, one never taken, and a test never holds.
PLANTED = b"""(game
  (setup (create players 2) (create deck (game hloc STOCK) (deck (RANK (1 2)))))
  (do (all player 'P (move (top (game hloc STOCK)) (top ('P iloc HAND)))))
  (stage player
    (end (= (game sto WON) 1))
    (choice
      ; End it.
      (do (set (game sto WON) 1) (inc ((current player) sto BEST) 1) (if (> (game sto WON) 7) (set (game sto LOST) 1)))
      ; =Never offered.
      (if (> (game sto WON) 7) (set (game sto WON) 1))
      ; Never taken.
      (any ((current player) iloc HAND) 'C (do (set (game sto WON) 1)))))
  (scoring max ('SELF sto BEST)))
"""
# An alternative without an item, one whose items are more than a menu has, of all triples of 512 cards, and one behind them.
FULL = b"""(game
  (setup (create players 1) (create deck (game vloc PILE) (deck (TENS (%s)) (ONES (%s)))))
  (stage player
    (end (= 0 1))
    (choice
      (any (game vloc NONE) 'A (do (inc (game sto N) 1)))
      (any (game vloc PILE) 'A (any (game vloc PILE) 'B (any (game vloc PILE) 'C (do (inc (game sto N) 1)))))
      (do (inc (game sto N) 1))))
  (scoring max (game sto N)))
""" % tuple(" ".join(map(str, range(it))).encode() for it in (16, 32))
ALWAYS_THE_FIRST = b"(plan (seats (script) (script)) (matches (from 1 1 40)) (turns 9))\n"

# A round never leaves its stage, since what its end reads is never set.
ENDLESS = PLANTED.replace(b"(end (= (game sto WON) 1))", b"(end (= (game sto GONE) 1))")


# What a browser tells of a report once it has drawn it, which it does while other tests run.
DRAWN: list[Future[tuple[list[browser.Drawn], list[str]]]] = []


def setUpModule() -> None:
    name_program()
    if browser.browser():
        page = report_page(eights(), "x", {}, "./cardhouse show x.sheet x.plan")
        begun = browser.drawing([([(page, 1280), (page, 390)], "dark")])
        DRAWN.extend(begun.__enter__())
        unittest.addModuleCleanup(begun.__exit__, None, None, None)


def sheet_of(game: str) -> Sheet:
    return Sheet((EXAMPLES / f"{game}.sheet").read_bytes() + b"\n")


def report_of(sheet: Sheet, plan: bytes, courses: int = 12) -> Report:
    return Report(tell(Program(), sheet, plan_of(plan), courses))


@cache
def eights() -> Report:
    return report_of(sheet_of("crazy-eights"), THREE, 40)


@cache
def planted() -> Report:
    return report_of(Sheet(PLANTED), ALWAYS_THE_FIRST, 40)


def found(report: Report) -> dict[str, Section]:
    return {it.key: it for it in sections(report)}


class Intervals(unittest.TestCase):
    def test_quantiles_are_those_of_tables(self) -> None:
        for freedom, value in ((9, 2.262), (19, 2.093), (99, 1.984), (999, 1.962)):
            self.assertAlmostEqual(quantile(freedom, 0.025), value, 2)

    def test_few_matches_have_none(self) -> None:
        figure = Figure()
        for value in (0, 2) * 4:
            figure.add(value)
        self.assertIsNone(of_mean(figure))

    def test_a_share_of_nothing_isnt_known_to_be_nothing(self) -> None:
        self.assertEqual(of_share(0, 100).low, 0.0)
        self.assertAlmostEqual(of_share(0, 100).high, 0.037, 3)


class Charts(unittest.TestCase):
    def test_ticks_are_round_values_of_the_range(self) -> None:
        self.assertEqual(ticks(0, 1), [0, 0.2, 0.4, 0.6, 0.8, 1])
        self.assertEqual(ticks(3, 42), [10, 20, 30, 40])

    def test_bins_hold_each_value_once(self) -> None:
        made = bins([0, 3, 3, 99], [True, False, True, False])
        self.assertEqual([(it.low, it.high, it.count, it.marked) for it in made if it.count], [(0, 4, 3, 2), (95, 99, 1, 0)])
        self.assertEqual(len(made), 20)


class Counts(unittest.TestCase):
    def test_the_table_has_the_same_numbers(self) -> None:
        report = eights()
        text = called(Program(), PLAY, report.sheet.text + THREE)
        written = table(counts_of(Reader("text", text).matches()))
        page = report_page(report, "x", {}, "")
        self.assertEqual(unescape(re.findall("<pre>(.*?)</pre>", page, re.DOTALL)[0]), written)
        points = dict(re.findall(r"^(seat \d) +\d+ +(\d\.\d\d)", written, re.MULTILINE))
        for seat, mean in re.findall(r'<th scope="row">Seat (\d)</th><td>(\d\.\d\d)', page):
            self.assertAlmostEqual(float(points[f"seat {seat}"]), float(mean), delta=0.011)
        self.assertEqual(len(points), 3)

    def test_the_measures_are_the_programs(self) -> None:
        report = eights()
        forced = sum(it.forced for it in sites_of(report))
        self.assertEqual(report.told.measures["forced"][0][0], f"{forced}/{sum(it.decisions for it in sites_of(report))}")

    def test_alternatives_are_those_of_the_tags(self) -> None:
        report = eights()
        replay = gather(Program(), report.sheet, report.plan, 3, [0], 0)
        assert report.told.alternatives
        self.assertEqual(report.told.alternatives[3], [it.alternative for it in replay.items])

    def test_what_is_offered_is_what_the_menus_have(self) -> None:
        for game in ("crazy-eights", "go-fish"):
            with self.subTest(game):
                sheet = sheet_of(game)
                seats = "".join(f"(random {it})" for it in range(sheet.players)).encode()
                report = report_of(sheet, b"(plan (seats %s) (matches (1 1)) (turns 24))" % seats)
                replay = gather(Program(), report.sheet, report.plan, 0, list(range(sheet.players)), 1000)
                offers = report.told.courses[0].offers
                self.assertEqual(len(offers), len(replay.record.picks))
                for told, menu in zip(offers, replay.menus):
                    assert menu
                    offered = {at for at, is_offered in told.items() if is_offered}
                    self.assertEqual(offered, {it.alternative for it in menu} & told.keys())
                self.assertTrue(any(offers))


    def test_what_stands_behind_a_full_menu_isnt_offered(self) -> None:
        report = report_of(Sheet(FULL), b"(plan (seats (random 1)) (matches (1 1)) (turns 4))")
        self.assertEqual(report.told.courses[0].offers, [{0: False, 1: True, 2: False}] * 2)
        self.assertEqual({it.item < 256 for record in report.told.records for it in record.picks}, {True})

    def test_of_a_partition_the_first_item_is_looked_for(self) -> None:
        groups = FULL.replace(b"(any (game vloc PILE) 'A (any", b"(any (partition (game vloc PILE) TENS) 'A (any")
        report = report_of(Sheet(groups), b"(plan (seats (random 1)) (matches (1 1)) (turns 2))")
        self.assertEqual(report.told.courses[0].offers[0] | {2: None}, {0: False, 1: True, 2: None})


class Findings(unittest.TestCase):
    def test_nothing_is_said_of_few_matches(self) -> None:
        told = found(report_of(sheet_of("whist"), (EXAMPLES / "whist.plan").read_bytes()))
        self.assertEqual(told["fair"].verdict, "too few matches to tell")

    def test_a_game_in_which_seat_0_always_wins_is_told(self) -> None:
        told = found(planted())["fair"].sentences
        self.assertEqual(told[0], "Seat 0 gets 1.00 of the rank points; 0.50 would be even. Going first helps.")

    def test_what_is_never_offered_taken_or_held_is_told(self) -> None:
        told = " ".join(found(planted())["choice"].sentences)
        self.assertIn("“=Never offered” was never offered in 40 decisions at its choice.", told)
        self.assertIn("“Never taken” was never taken in 40 decisions at its choice.", told)
        self.assertNotIn("“Never offered” was never taken", told)
        self.assertIn("This test never held in the 40 matches that were followed: line 8 (if it applies: LOST = 1).", told)

    def test_tests_that_held_once_are_not_told(self) -> None:
        self.assertNotIn("never held", " ".join(found(eights())["choice"].sentences))

    def test_the_stage_that_was_open_at_the_limit_is_told(self) -> None:
        told = found(report_of(Sheet(ENDLESS), ALWAYS_THE_FIRST))["ends"]
        self.assertEqual(told.mood, "bad")
        self.assertIn("40 of 40 matches (100 %) hit the turn limit of 9", told.sentences[0])
        said = "Which stage was open at the last decision of 20 of them: the player stage of line 4 in 20."
        self.assertEqual(told.sentences[1], said)

    def test_thinking_needs_somebody_who_thinks_and_somebody_who_doesnt(self) -> None:
        self.assertEqual(found(eights())["thinking"].verdict, "nobody thinks here")

    def test_matches_to_look_at(self) -> None:
        report = eights()
        told = {what: number for what, number, _ in remarkable(report)}
        turns = [it.turns for it in report.told.matches]
        self.assertEqual((turns[told["Longest"]], turns[told["Shortest"]]), (max(turns), min(turns)))
        self.assertIn("Closest", told)


class Pages(unittest.TestCase):
    def test_each_game_has_a_report(self) -> None:
        for sheet in sorted([*EXAMPLES.glob("*.sheet"), *EXAMPLES.glob("tutorial/step*.sheet")]):
            with self.subTest(sheet.name):
                plan = sheet.with_suffix(".plan").read_bytes()
                page = report_page(report_of(Sheet(sheet.read_bytes() + b"\n"), plan, 2), sheet.stem, {}, "show")
                self.assertEqual(faults_of(page), [])
                self.assertNotRegex(page, r"\bnan\b|inf |None")

    def test_a_page_is_sound_and_loads_nothing(self) -> None:
        page = report_page(eights(), "x", {0: "x-0.html"}, "./cardhouse show x.sheet x.plan")
        self.assertEqual(faults_of(page), [])
        self.assertNotRegex(page, r"\bnan\b|inf |None")
        self.assertNotIn("<script", page)

    def test_one_match_is_one(self) -> None:
        for plan in (b"(plan (seats (script) (script)) (matches (1 1)) (turns 9))", b"(plan (seats (script) (script)) (matches (1 1)) (turns 2))"):
            page = report_page(report_of(Sheet(PLANTED), plan), "x", {}, "show")
            self.assertNotRegex(page, r"\b1 (matches|deals)|In half of")
            self.assertIn("over 1 match;", page)

    def test_markup_is_shown_as_text(self) -> None:
        text = PLANTED.replace(b"=Never offered", b"<img src=x onerror=alert(1)>").replace(b"End it", b"</table><script>x</script>")
        page = report_page(report_of(Sheet(text), ALWAYS_THE_FIRST), "<b>T</b>", {}, "show '<i>'")
        self.assertEqual(faults_of(page), [])
        for word in ("<img", "<script", "<b>T", "<i>"):
            self.assertNotIn(word, page)

    def test_a_browser_draws_it(self) -> None:
        if not browser.browser():
            print("\nthe reports aren't drawn: no browser is installed", file=sys.stderr)
            self.skipTest("no browser is installed")
        shown, said = DRAWN[0].result()
        self.assertEqual(said, [])
        for it in shown:
            self.assertEqual((it.fault, it.is_dark, it.is_wide), ("", True, False))
            self.assertIn("Does it end?", it.text)


class Commands(unittest.TestCase):
    def setUp(self) -> None:
        folder = tempfile.TemporaryDirectory()
        self.addCleanup(folder.cleanup)
        self.root = Path(folder.name)

    def rows(self, name: str) -> list[dict[str, str]]:
        with (self.root / "csv" / name).open(newline="") as file:
            return list(csv.DictReader(file))

    def test_records_are_those_of_the_matches(self) -> None:
        report = planted()
        write_records(self.root / "csv", report)
        self.assertEqual(len(self.rows("matches.csv")), 40)
        self.assertEqual(len(self.rows("decisions.csv")), sum(it.choices for it in report.told.matches))
        last = [it for it in self.rows("scores.csv") if it["match"] == "0"][-1]
        self.assertEqual((last["score_0"], last["score_1"]), ("1", "0"))
        choices = self.rows("choices.csv")
        self.assertEqual([it["taken"] for it in choices], ["", "40", "0", "0"])
        self.assertEqual(choices[2]["words"], "'=Never offered")

    def test_a_page_its_replays_and_its_records_are_written(self) -> None:
        sheet, plan, out = EXAMPLES / "tutorial/step3.sheet", self.root / "it's \x1b\udcff.plan", self.root / "out #.html"
        plan.write_bytes(b"(plan (seats (random 1) (random 2)) (matches (from 1 1 3)) (turns 60))")
        self.assertEqual(main([*map(str, (sheet, plan, "-o", out, "--csv", self.root / "csv", "--replays"))]), 0)
        page = out.read_text("utf-8")
        links = set(re.findall(r'href="(out%20%23-\d\.html)"', page))
        self.assertTrue(links)
        self.assertTrue(all((self.root / unquote(it)).is_file() for it in links))
        self.assertIn("it&#x27;&quot;&#x27;&quot;&#x27;s \\x1b\\xff.plan&#x27; --match", page)
        self.assertEqual(len(self.rows("matches.csv")), 3)

    def test_refusals(self) -> None:
        files = [str(EXAMPLES / "whist.sheet"), str(EXAMPLES / "whist.plan")]
        (self.root / "file").touch()
        for status, *words in ((2, "--replays"), (7, "--csv", self.root / "file"), (7, "--csv", self.root / "no/csv")):
            with self.subTest(words), redirect_stderr(StringIO()) as told:
                self.assertEqual(main([*files, *map(str, words)]), status)
                self.assertTrue(told.getvalue().endswith("\n"))


if __name__ == "__main__":
    unittest.main()
