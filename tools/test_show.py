"""Tests of `show`: what its pages and lines hold, what they hide, and that a browser draws all of it."""

import json
import re
import sys
import tempfile
import unittest
from concurrent.futures import Future
from contextlib import redirect_stderr
from functools import cache
from io import StringIO
from pathlib import Path
from typing import Any

import browser
from built import ROOT, name_program
from markup import faults_of
from pieces.program import Program
from replays.deriving import Piece, derived
from replays.encoding import page_data
from replays.faces import Looks
from replays.gathering import ATTEMPTS, Replay, compare, gather
from replays.lines import replay_lines
from replays.page import replay_page
from replays.playing import PLAY, longer, played, scripted, scripts
from replays.running import main
from replays.sources import Plan, Sheet, plan_of
from replays.texts import transcript_of
from reports.gathering import ATTEMPTS as FOLLOWING

EXAMPLES = ROOT / "examples"
PLANNED = (it.with_suffix("") for it in EXAMPLES.rglob("*.sheet") if it.with_suffix(".plan").exists())
SHEETS = sorted(str(it.relative_to(EXAMPLES)) for it in PLANNED)

# Those of which a seat's page tells the menus.
WITH_MENUS = ("golf", "go-fish", "poker", "whist")

# The games, without the idioms of the cookbook, which are drawn by the same script: each takes a browser a moment.
GAMES = [it for it in SHEETS if not it.startswith("cookbook/")]

PAIR = b"(plan (seats (random 1) (random 2)) (matches (1 1)) (turns 40))\n"

# Each turn a card is played, and one is to be drawn: from STOKC, which is always empty. So no hand is refilled.
NEVER_REFILLED = b"""(game
  (setup (create players 2) (create deck (game hloc STOCK) (deck (NUMBER (1 2 3 4 5 6 7 8 9 10 11 12)))))
  (do (shuffle (game hloc STOCK)) (repeat 4 (all player 'P (move (top (game hloc STOCK)) (top ('P iloc HAND))))))
  (stage player
    (end (all player 'P (= (size ('P iloc HAND)) 0)))
    ; Play a card.
    (choice (any ((current player) iloc HAND) 'C (do
      (move 'C (top (game vloc PILE)))
      (move (top (game hloc STOKC)) (top ((current player) iloc HAND)))))))
  (scoring max (size ('SELF iloc HAND))))
"""

# Each card has a word of its own. Two are played openly, one by each; the others stay in hands and in the stock.
WORDS = "ALDER BIRCH CEDAR DOGWOOD ELDER FIRTREE HAZEL JUNIPER LARCH MAPLE".split()
OWN_WORDS = b"""(game
  (setup (create players 2) (create deck (game hloc STOCK) (deck (TREE (%s)))))
  (do (shuffle (game hloc STOCK)) (repeat 3 (all player 'P (move (top (game hloc STOCK)) (top ('P iloc HAND))))))
  (stage player
    (end (= (size (game vloc PILE)) 2))
    (choice (any ((current player) iloc HAND) 'C (do (move 'C (top (game vloc PILE)))))))
  (scoring max (size ('SELF iloc HAND))))
""" % " ".join(WORDS).encode()

# Words that would be markup, or end a script or an attribute, where they weren't shown as text.
IMAGE, CLOSING = "<img/src=x/onerror=alert`1`>", "</script><script>alert`1`</script>"
QUOTED = "\"onmouseover=alert`1`"
MARKUP = f"""; <b>A game</b> of "markup".
(game
  (setup (create players 2) (create deck (game vloc {IMAGE}) (deck ({CLOSING} (1 2 {QUOTED} {IMAGE})))))
  ; <script>alert(1)</script>
  (stage player
    (end (= (game sto {QUOTED}) 3))
    ; <img src=x onerror=alert(1)>
    (choice
      ; <i>Take</i>.
      (any (game vloc {IMAGE}) 'C (do (move 'C (top ((current player) iloc {CLOSING}))) (inc (game sto {QUOTED}) 1)))
      (any player 'P (do (inc (game sto {QUOTED}) 1)))))
  (scoring max (size ('SELF iloc {CLOSING}))))
""".encode()


# How the pages of all games are drawn: in which scheme, and how wide.
WAYS = (("light", 1280), ("dark", 390))

# What the browsers tell of these pages once they have drawn them, which they do while other tests run.
DRAWN: list[Future[tuple[list[browser.Drawn], list[str]]]] = []


def setUpModule() -> None:
    name_program()
    if browser.browser():
        pages = [replay_page(whole(game)) for game in GAMES] + [replay_page(of_seat("whist")[0])]
        begun = browser.drawing([([(page, width) for page in pages], scheme) for scheme, width in WAYS])
        DRAWN.extend(begun.__enter__())
        unittest.addModuleCleanup(begun.__exit__, None, None, None)


@cache
def program() -> Program:
    return Program()


@cache
def sources(game: str) -> tuple[Sheet, Plan]:
    file = EXAMPLES / game
    return Sheet(file.with_suffix(".sheet").read_bytes() + b"\n"), plan_of(file.with_suffix(".plan").read_bytes())


@cache
def replay(game: str, items: int = 0) -> Replay:
    """The first match of a game, as all its seats see it."""
    sheet, plan = sources(game)
    return gather(program(), sheet, plan, 0, list(range(sheet.players)), items)


def data_of(sheet: Sheet, plan: Plan, only: int | None = None, items: int = 0, title: str = "x") -> dict[str, Any]:
    seats = list(range(sheet.players)) if only is None else [only]
    return page_data(gather(program(), sheet, plan, 0, seats, items), sheet, plan, title, only)


@cache
def whole(game: str, items: int = 0) -> dict[str, Any]:
    return page_data(replay(game, items), *sources(game), game)


@cache
def of_seat(game: str) -> tuple[dict[str, Any], Replay]:
    """What the last seat may know, and all that the program told of it."""
    sheet, plan = sources(game)
    seat = sheet.players - 1
    known = gather(program(), sheet, plan, 0, [seat], 60 if game in WITH_MENUS else 0)
    return page_data(known, sheet, plan, game, seat), known


def tables(data: dict[str, Any]) -> list[list[list[Any]]]:
    """The places of each stop, put together again from what differs."""
    places: list[list[Any]] = [[] for _ in data["locations"]]
    found = []
    for stop in data["stops"]:
        for at, low, high, middle in stop["places"]:
            put = [place for it in middle for place in ([None] * -it if isinstance(it, int) and it < 0 else [it])]
            old = places[at]
            places[at] = old[:low] + put + old[len(old) - high :]
        found.append([list(it) for it in places])
    return found


def words_of(data: dict[str, Any], place: Any) -> Any:
    """The pairs of the face at a place; None where it isn't seen."""
    return None if place is None else data["faces"][place[0] if isinstance(place, list) else place]["pairs"]


class Pages(unittest.TestCase):
    def test_a_page_holds_what_the_logs_tell(self) -> None:
        for game in SHEETS:
            with self.subTest(game):
                (sheet, _), told, data = sources(game), replay(game), whole(game)
                names = [(it.name, it.owner, it.number) for it in told.sheet.locations]
                for at, table in enumerate(tables(data)):
                    for owned, cards in zip(sheet.locations, table):
                        place = names.index((owned.name, owned.owner, owned.number))
                        rows = [log.stops[at].places[place] for log in told.logs.values()]
                        seen = [next((it for it in spot if it is not None), None) for spot in zip(*rows)]
                        wanted = [None if it is None else told.faces[told.places[it]] for it in seen]
                        self.assertEqual([words_of(data, it) for it in cards], wanted)

    def test_the_last_table_is_shown(self) -> None:
        data = whole("crazy-eights")
        self.assertTrue(data["closed"])
        hands = [at for at, it in enumerate(data["locations"]) if it[0] == "HAND"]
        self.assertIn(0, [len(tables(data)[-1][at]) for at in hands])

    def test_a_match_that_the_limit_ends(self) -> None:
        sheet, plan = sources("crazy-eights")
        for turns in (11, 12):
            data = data_of(sheet, Plan(plan.text, plan.strategies, plan.matches, turns))
            self.assertEqual((data["end"]["word"], data["closed"]), ("limit", turns % 2 == 1))

    def test_menus_are_those_of_the_match(self) -> None:
        for game, items in (("golf", 300), ("whist", 600)):
            data = whole(game, items)
            for stop in data["stops"][: data["decisions"]]:
                if stop["size"] > 1:
                    self.assertEqual((len(stop["menu"]), stop["menu"][stop["item"]]), (stop["size"], stop["choice"]))

    def test_each_page_is_sound_loads_nothing_and_is_small(self) -> None:
        for game in SHEETS:
            with self.subTest(game):
                page = replay_page(whole(game))
                self.assertEqual(faults_of(page), [])
                told = json.loads(page.split('id="data">')[1].split("</script>")[0])
                self.assertEqual(len(told["end"]["scores"]), told["players"])
                self.assertLess(len(page.encode()), 300_000)

    def test_a_page_with_all_menus_of_a_match_of_52_cards_is_small(self) -> None:
        data = whole("whist", 600)
        self.assertEqual(data["decisions"], 52)
        self.assertTrue(any("menu" in it for it in data["stops"]))
        self.assertLess(len(replay_page(data).encode()), 300_000)

    def test_a_page_of_1000_decisions_is_small_and_says_what_it_lacks(self) -> None:
        sheet = Sheet(
            b"(game (setup (create players 4) (create deck (game hloc STOCK) (deck (SUIT (A B C D)) (RANK (%s)))))"
            b" (do (shuffle (game hloc STOCK)) (repeat 25 (all player 'P (move (top (game hloc STOCK)) (top ('P iloc HAND))))))"
            b" (stage player (end (= 0 1)) (choice (any ((current player) iloc HAND) 'C (do"
            b" (move 'C (bottom ((current player) iloc HAND))) (inc ((current player) sto TAKEN) 1)))))"
            b" (scoring max ('SELF sto TAKEN)))\n" % " ".join(map(str, range(1, 26))).encode()
        )
        plan = b"(plan (seats (random 1) (random 2) (random 3) (random 4)) (matches (1 1)) (turns 2100))"
        data = data_of(sheet, plan_of(plan))
        self.assertEqual((len(data["stops"]), data["decisions"]), (1000, 1050))
        self.assertLess(len(replay_page(data).encode()), 3_000_000)
        self.assertIn("a log shows no more: 50 choices followed\n", replay_lines(data))

    def test_a_hand_that_is_never_refilled_is_seen(self) -> None:
        data = data_of(Sheet(NEVER_REFILLED), plan_of(PAIR))
        hand = next(at for at, it in enumerate(data["locations"]) if it[0] == "HAND" and it[2] == "p0")
        sizes = [len(table[hand]) for stop, table in zip(data["stops"], tables(data)) if stop.get("seat") == 0]
        self.assertEqual(sizes, [4, 3, 2, 1])
        told = re.findall(r"player 0: \d+, from a menu of (\d)", replay_lines(data))
        self.assertEqual(told, ["4", "3", "2", "1"])


class Deriving(unittest.TestCase):
    """`gather` and `report` compare what they use; here each way of deriving is played on every game that ships."""

    SETS = (ATTEMPTS[0], FOLLOWING[0], tuple(Piece), (Piece.TAGS,))

    def test_derived_sheets_play_the_same(self) -> None:
        for game in SHEETS:
            (sheet, plan), record = sources(game), replay(game).record
            again = scripted(record, scripts(record.picks, sheet.players), longer(plan.turns))
            for pieces in self.SETS:
                with self.subTest(game, pieces=[it.name for it in pieces]):
                    attempt = derived(sheet, *pieces)
                    ended = program().call(PLAY, attempt.text + again)
                    self.assertEqual((ended.returncode, ended.stderr[:5]), (0, b"cache"))
                    compare(record, transcript_of(ended.stdout).matches[0], attempt)

    def test_a_match_alone_is_the_one_of_the_plan(self) -> None:
        for game in GAMES:
            sheet, plan = sources(game)
            told = transcript_of((EXAMPLES / f"{game}.named").read_bytes())
            for number in range(1, min(3, len(plan.matches))):
                with self.subTest(game, match=number):
                    alone = played(program(), sheet.text + plan.alone(number)).matches[0]
                    alone.number = number
                    self.assertEqual(alone, told.matches[number])
            self.assertEqual(replay(game).record, told.matches[0])

    def test_a_comment_is_that_of_the_lines_above(self) -> None:
        setup, effect = b"(setup (create players 1) (create deck (game vloc P) (deck (A (1)))))", b"(set (game sto N) 1)"
        above, one = b"\n;; Of\n ; all. \n(game ", b"\n; other\n\n; One\n"
        text = b"%s%s%s(do %s) (do\n%s) (scoring max 0))" % (above, setup, one, effect, effect)
        sheet = Sheet(text)
        nodes = [sheet.tree, *sheet.tree.parts[1:]]
        self.assertEqual([sheet.comment(it) for it in nodes], ["Of all.", "Of all.", "One", "One", ""])
        self.assertEqual([sheet.line(it) for it in nodes], [text.count(b"\n", 0, it.at) + 1 for it in nodes])

    def test_names_that_are_put_in_begin_no_name_of_the_sheet(self) -> None:
        sheet = Sheet(NEVER_REFILLED.replace(b"STOCK", b"HELD0").replace(b"HAND", b"OFFERED0-0"))
        names = derived(sheet, Piece.TESTS, Piece.OFFERS).names
        self.assertEqual(names, {Piece.TESTS: "HELD-", Piece.OFFERS: "OFFERED-"})

    def test_alternatives_that_touch_are_told_apart(self) -> None:
        text = b"(choice (do (inc (game sto A) 1))(do (inc (game sto B) 1)))"
        sheet = Sheet(NEVER_REFILLED.replace(b"(choice (any", b"%s (choice (any" % text))
        data = data_of(sheet, plan_of(PAIR))
        self.assertEqual({it["choice"][0] for it in data["stops"] if it.get("site") == 0}, {0, 1})

    def test_a_sheet_at_its_limits_is_shown_without_the_last_table(self) -> None:
        sheet, plan = sources("golf")
        full = "(choice (do (set (game sto DONE) 1)))" * 63
        full_sheet = Sheet(sheet.text.replace(b"(scoring", f"(stage player (end (= 0 0)) {full}) (scoring".encode()))
        told = gather(program(), full_sheet, plan, 0, [0], 0)
        self.assertEqual(set(told.derived.names), {Piece.TAGS})
        self.assertFalse(page_data(told, full_sheet, plan, "x")["closed"])


class Seats(unittest.TestCase):
    """The pages that are handed to one player."""

    def test_they_hold_what_the_log_of_the_seat_tells_and_nothing_else(self) -> None:
        for game in SHEETS:
            with self.subTest(game):
                data, told = of_seat(game)
                seat = data["views"][0]
                for at, (stop, table) in enumerate(zip(data["stops"], tables(data))):
                    log = told.logs[seat].stops[at]
                    tag = told.derived.names.get(Piece.TAGS, "\0")
                    places = zip((it.name for it in told.sheet.locations), log.places)
                    seen = [it for name, row in places if not name.startswith(tag) for it in row if it is not None]
                    self.assertEqual(sum(it is not None for row in table for it in row), len(seen))
                    self.assertNotIn("scores", stop)
                    if stop.get("seat", seat) != seat:
                        self.assertFalse({"choice", "item", "size", "menu"} & set(stop))
                self.assertFalse({"deal", "seats"} & set(data))
                self.assertEqual([bool(it) for it in data["strategies"]], [it == seat for it in range(data["players"])])

    def test_they_have_no_face_that_the_log_lacks(self) -> None:
        for game in SHEETS:
            with self.subTest(game):
                data, told = of_seat(game)
                stops = told.logs[data["views"][0]].stops
                seen = {face for stop in stops for row in stop.places for face in row if face is not None}
                known = [told.faces[told.places[it]] for it in seen]
                self.assertEqual([it["pairs"] for it in data["faces"] if it["pairs"] not in known], [])

    def test_they_have_no_word_of_a_card_that_the_log_lacks(self) -> None:
        for game in SHEETS:
            with self.subTest(game):
                (data, told), text = of_seat(game), sources(game)[0].text.decode()
                page = replay_page(data)
                shown = {value for it in data["faces"] for _, value in it["pairs"]}
                values = {value for face in told.faces for _, value in face if not value.isdigit()}
                comments = " ".join(re.findall(r";.*", text)).upper()
                for word in values - shown:
                    if len(word) > 2 and word not in comments:
                        self.assertNotRegex(page, rf"(?i)(?<![\w-]){re.escape(word)}(?![\w-])")
                for face in told.faces:
                    if list(map(list, face)) not in [list(map(list, it["pairs"])) for it in data["faces"]]:
                        self.assertNotIn(json.dumps(face, separators=(",", ":")), page)

    def test_words_of_unseen_cards_are_nowhere_in_the_file(self) -> None:
        sheet = Sheet(OWN_WORDS)
        told = gather(program(), sheet, plan_of(PAIR), 0, [1], 100)
        seen = {face for stop in told.logs[1].stops for row in stop.places for face in row if face is not None}
        known = {told.faces[told.places[it]][0][1] for it in seen} & set(WORDS)
        data = page_data(told, sheet, plan_of(PAIR), "x", 1)
        self.assertEqual(len(known), 4)
        for text in (replay_page(data), replay_lines(data)):
            self.assertEqual({it for it in WORDS if it.lower() in text.lower()} - known, set())
        everything = replay_page(data_of(sheet, plan_of(PAIR)))
        self.assertEqual(sum(it in everything for it in WORDS), 6)


class Cards(unittest.TestCase):
    def test_suits_have_signs_where_all_values_are_suits(self) -> None:
        cards = [[("RANK", "Q"), ("SUIT", "SPADES"), ("LADY", "BLACK")], [("RANK", "10"), ("SUIT", "HEARTS")]]
        queen, ten = Looks(cards).all()
        self.assertEqual((queen.big, queen.small, queen.said), ("Q", "♠", "Q of spades, black"))
        self.assertEqual((ten.big, ten.small, ten.said), ("10", "♥", "10 of hearts"))

    def test_the_clubs_of_other_cards_are_none(self) -> None:
        looks = Looks([[("RANK", "2"), ("SUIT", "CLUBS")], [("RANK", "2"), ("SUIT", "CUPS")]]).all()
        self.assertEqual([(it.small, it.is_suited) for it in looks], [("Clubs", False), ("Cups", False)])

    def test_colours_that_are_named_are_used(self) -> None:
        looks = Looks([[("NUMBER", "6"), ("COLOUR", "RED")], [("NUMBER", "7"), ("COLOUR", "BLUE")]]).all()
        self.assertEqual([(it.big, it.small, it.colour) for it in looks], [("6", "Red", "red"), ("7", "Blue", "blue")])


class Lines(unittest.TestCase):
    def test_a_line_tells_a_choice(self) -> None:
        lines = replay_lines(whole("crazy-eights")).splitlines()
        self.assertEqual(len(lines), 1 + whole("crazy-eights")["decisions"] + 1 + 3)
        self.assertEqual(lines[0], "crazy-eights, match 0, deal 15, seats 1")
        self.assertEqual(lines[6], " 6  player 2: 3 of clubs → PILE; if it applies: turn the direction, from a menu of 4")
        self.assertRegex(lines[-4], r"^done after \d+ turns$")
        self.assertRegex(lines[-1], r"^player 2: score \d+, rank points \d$")

    def test_a_seat_isnt_told_what_others_chose(self) -> None:
        lines = replay_lines(of_seat("whist")[0]).splitlines()[1:53]
        self.assertEqual(sum(it.endswith(" chooses") for it in lines), 39)
        self.assertTrue(all("player 3: " in it for it in lines if not it.endswith(" chooses")))

    def test_what_an_alternative_does_is_cut(self) -> None:
        other = b"(choice (do (move all (union %s) (top (game vloc PILE)))) (any" % (b"(game vloc PILE) " * 99)
        told = replay_lines(data_of(Sheet(NEVER_REFILLED.replace(b"(choice (any", other)), plan_of(PAIR)))
        self.assertLess(max(map(len, told.splitlines())), 300)

    def test_control_bytes_are_escaped(self) -> None:
        other = b"(choice ; \x1b[31mRed\n; \x1b[31mRed\n(do (inc (game sto X) 1)) (any"
        told = replay_lines(data_of(Sheet(NEVER_REFILLED.replace(b"(choice (any", other)), plan_of(PAIR)))
        self.assertIn("\\x1b[31mRed", told)
        self.assertNotIn("\x1b", told)


class Commands(unittest.TestCase):
    def setUp(self) -> None:
        folder = tempfile.TemporaryDirectory()
        self.addCleanup(folder.cleanup)
        self.root = Path(folder.name)

    def ran(self, *words: object) -> tuple[int, str]:
        told = StringIO()
        with redirect_stderr(told):
            return main(list(map(str, words))), told.getvalue()

    def test_a_page_is_written(self) -> None:
        page = self.root / "a.html"
        sheet, plan = EXAMPLES / "tutorial/step1.sheet", EXAMPLES / "tutorial/step1.plan"
        self.assertEqual(self.ran(sheet, plan, "--seat", 1, "-o", page), (0, ""))
        self.assertIn("<title>Step1, match 0</title>", page.read_text("utf-8"))

    def test_refusals(self) -> None:
        sheet, plan, faulty = EXAMPLES / "whist.sheet", EXAMPLES / "whist.plan", self.root / "faulty\x1b.sheet"
        faulty.write_bytes(b"\n (game)")
        for status, said, words in (
            (10, "absent: the plan has the matches 0 to 1\n", (sheet, plan, "--match", 2)),
            (10, "absent: the sheet has the seats 0 to 3\n", (sheet, plan, "--seat", 4)),
            (1, "faulty\\x1b.sheet:2:2: sheet Shape 2\n", (faulty, plan)),
            (3, f"whist.sheet:8:1: plan Shape {sheet.stat().st_size + 1 + sheet.read_bytes().index(b'(game')}\n", (sheet, sheet)),
            (1, ": sheet and plan are exchanged\n", (plan, sheet)),
            (6, "it is a folder\n", (sheet, self.root)),
            (7, "No such file or directory\n", (sheet, plan, "-o", self.root / "no/a.html")),
        ):  # fmt: skip
            with self.subTest(said):
                ended, told = self.ran(*words)
                self.assertEqual((ended, told[-len(said) :]), (status, said))


class Drawing(unittest.TestCase):
    """What a browser draws. Without one the pages are looked at by their structure alone, which the other tests do."""

    @classmethod
    def setUpClass(cls) -> None:
        if not browser.browser():
            print("\nthe pages aren't drawn: no browser is installed", file=sys.stderr)
            raise unittest.SkipTest("no browser is installed")

    def test_all_games_in_both_schemes_and_on_a_phone(self) -> None:
        for (scheme, width), begun in zip(WAYS, DRAWN):
            found, said = begun.result()
            self.assertEqual(said, [])
            for name, it in zip([*GAMES, "a seat"], found):
                with self.subTest(name, scheme=scheme, width=width):
                    self.assertRegex(it.checked, r"^\d+ drawn, 0 faults$")
                    self.assertEqual((it.fault, it.is_dark, it.is_wide), ("", scheme == "dark", False))
                    count = sum("seat" in stop for stop in whole(name if name in GAMES else "whist")["stops"])
                    self.assertEqual(it.place, f"2 / {count}" if count > 1 else "the end")

    def test_markup_is_shown_as_text(self) -> None:
        sheet = Sheet(MARKUP)
        page = replay_page(data_of(sheet, plan_of(PAIR), items=100, title="<b>T</b>"))
        self.assertEqual(faults_of(page), [])
        (it,), said = browser.drawn([(page, 1280)], "light")
        self.assertEqual((it.checked[-8:], it.fault, it.images, said), ("0 faults", "", 0, []))
        for word in ("<b>T</b>", IMAGE, CLOSING):
            self.assertIn(word, it.text)


class Picture(unittest.TestCase):
    def test_the_pages_have_it_and_it_is_small(self) -> None:
        picture = (ROOT / "docs/show.png").read_bytes()
        self.assertEqual(picture[:8], b"\x89PNG\r\n\x1a\n")
        self.assertLess(len(picture), 200_000)
        self.assertIn("](docs/show.png)", (ROOT / "README.md").read_text("utf-8"))


class Markup(unittest.TestCase):
    def test_no_word_of_a_sheet_is_an_element(self) -> None:
        sheet = Sheet(MARKUP)
        page = replay_page(data_of(sheet, plan_of(PAIR), items=100, title="<b>T</b>"))
        self.assertEqual(faults_of(page), [])
        self.assertEqual(page.count("<script"), 2)
        self.assertNotIn("<img", page.split('id="data">')[1].split("</script>")[0])
        self.assertNotIn("<b>T</b>", page)


if __name__ == "__main__":
    unittest.main()
