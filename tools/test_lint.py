"""Tests of what is told of a sheet that is allowed and likely a mistake."""

import subprocess
import tempfile
import unittest
from pathlib import Path

from faults.mentions import STORED
from linting.names import SUSPECTED, distance, nearest
from linting.running import findings
from linting.trees import Unreadable, read_sheet
from linting.uses import is_location, is_number

ROOT = Path(__file__).resolve().parent.parent
LINT = ROOT / "tools/lint"
SHIPPED = sorted([*(ROOT / "examples").glob("**/*.sheet"), *(ROOT / "bench").glob("*.sheet")])

DECK = "(create deck (game hloc STOCK) (deck (RANK (ACE KING 10)) (SUIT (CLUBS HEARTS))))"
FRAME = f"(game (setup (create players 2) {DECK} {{}}) {{}} (scoring max (size ('SELF iloc HAND))))"
DEAL = "(do (all player 'P (move (top (game hloc STOCK)) (top ('P iloc HAND)))))"
STAGE = "(stage player (end (= (size (game hloc STOCK)) 0)) {} (do (move (top (game hloc STOCK)) (top (game vloc PILE)))))"


def sheet(item: str, line: str = "") -> str:
    """A sheet in which each player is dealt a card, and then comes this item."""
    return FRAME.format(line, f"{DEAL} {item}")


def staged(item: str) -> str:
    """A sheet with a stage in which this item stands."""
    return sheet(STAGE.format(item))


def ended(test: str, item: str) -> str:
    """A sheet with a stage that ends so and has this item alone."""
    return sheet(f"(stage player ^(end {test}) {item})")


def told(source: str) -> list[tuple[int, str]]:
    return [(it.at, it.said) for it in findings(read_sheet(source.encode("latin-1")))]


class Telling(unittest.TestCase):
    def check(self, source: str, *said: str) -> None:
        """These sentences are told, each at a marker `^`, in order."""
        pieces = source.split("^")
        places = [len("".join(pieces[: number + 1])) for number in range(len(pieces) - 1)]
        self.assertEqual(told("".join(pieces)), list(zip(places, said, strict=True)))

    def silent(self, source: str) -> None:
        self.assertEqual(told(source.replace("^", "")), [])


class Locations(Telling):
    def test_one_that_is_read_and_never_filled(self) -> None:
        said = "`STOK` is read and never filled, so that it is always empty. Is `STOCK` meant?"
        self.check(sheet("(do (move (top (game hloc ^STOK)) (top (game vloc PILE))))"), said)
        said = "`TALON` is read and never filled, so that it is always empty."
        self.check(sheet("(do (move (top (game hloc ^TALON)) (top (game vloc PILE))))"), said)

    def test_one_that_is_only_shuffled(self) -> None:
        said = "`STOKC` is shuffled and never filled, so that it is always empty. Is `STOCK` meant?"
        self.check(sheet("(do (shuffle (game hloc ^STOKC)))"), said)

    def test_it_is_told_once_where_it_is_first_read(self) -> None:
        said = "`HEAP` is read and never filled, so that it is always empty."
        shuffle = "(shuffle (game vloc HEAP))"
        self.check(sheet(f"(do {shuffle} (move (top (game vloc ^HEAP)) (top (game vloc USED))) {shuffle})"), said)

    def test_a_size_and_a_guard_read(self) -> None:
        said = "`LEAD` is read and never filled, so that it is always empty."
        self.check(staged("(choice (if (= (size (game mem ^LEAD)) 0) (cycle reverse)))"), said)

    def test_what_is_remembered_fills_a_mem(self) -> None:
        remember = "(if (= (size (game mem LEAD)) 0) (remember (top (game hloc STOCK)) (top (game mem LEAD))))"
        self.silent(staged(f"(choice {remember} (do (forget (top (game mem LEAD)))))"))

    def test_the_place_from_which_is_moved_is_read(self) -> None:
        self.silent(sheet("(do (move (top ('P iloc HAND)) (top (game vloc PILE))))"))

    def test_cards_may_be_put_away(self) -> None:
        for location in ("(game vloc USED)", "(game hloc USED)", "('P vloc USED)", "('P hloc USED)", "(game iloc USED)"):
            with self.subTest(location):
                self.silent(sheet(f"(do (all player 'P (move (top ('P iloc HAND)) (bottom {location}))))"))

    def test_what_one_player_is_shown_is_to_be_used(self) -> None:
        said = "`CRIB` is filled and never read, so that the cards there have no use."
        self.check(sheet("(do (all player 'P (move (top ('P iloc HAND)) (top ('P iloc ^CRIB)))))"), said)

    def test_a_deck_is_to_be_used(self) -> None:
        said = "`BOX` is filled and never read, so that the cards there have no use."
        box = "(create deck (game vloc ^BOX) (deck (RANK (ACE))))"
        self.check(sheet("(do (shuffle (game vloc BOX)))", box), said)

    def test_a_game_of_numbers_has_a_deck_too(self) -> None:
        self.silent(f"(game (setup (create players 2) {DECK}) (do (inc (game sto N) 1)) (scoring max (game sto N)))")

    def test_one_that_is_filled_is_told_where_its_name_is_that_of_another(self) -> None:
        said = "`PIEL` is filled and never read, so that the cards there have no use. Is `PILE` meant?"
        draw = "(move (top (game vloc PILE)) (top ('P iloc HAND)))"
        put = "(do (all player 'P (move (top ('P iloc HAND)) (top ({} {}))) {} {}))"
        lay = "(move (top ('P iloc HAND)) (top (game vloc PILE)))"
        self.check(sheet(put.format("game vloc", "^PIEL", lay, draw)), said)
        self.silent(sheet(put.format("'P vloc", "PIEL", lay, draw)))
        self.silent(sheet(put.format("game hloc", "PIEL", lay, draw)))

    def test_what_stands_in_a_list_without_a_form_may_be_anything(self) -> None:
        self.silent(sheet("(do (move (top (game vloc PILE)) (top ('P iloc HAND))) (put (game vloc PILE)))"))
        self.silent(sheet("(do (inc (game sto N) 1 2) (set (game sto M) (game sto N)) (dec (game sto M)))"))


class Numbers(Telling):
    def test_one_that_is_never_set(self) -> None:
        said = "`ROUDN` is read and never set, so that it is always 0. Is `ROUND` meant?"
        item = "(do (inc (game sto ROUND) (game sto ^ROUDN)) (repeat (game sto ROUND) (shuffle (game hloc STOCK))))"
        self.check(sheet(item), said)

    def test_one_that_is_never_read(self) -> None:
        said = "`TRICKS` is set and never read, so that nothing comes of it."
        self.check(sheet("(do (all player 'P (inc ('P sto ^TRICKS) 1)))"), said)

    def test_who_reads_it_to_set_it_doesnt_use_it(self) -> None:
        said = "`TRICKS` is set and never read, so that nothing comes of it."
        self.check(sheet("(do (all player 'P (set ('P sto ^TRICKS) (+ ('P sto TRICKS) 1))))"), said)

    def test_a_test_reads_it(self) -> None:
        self.silent(sheet("(do (inc (game sto N) 1) (if (= (game sto N) 1) (shuffle (game hloc STOCK))))"))

    def test_a_location_of_the_same_name_is_something_else(self) -> None:
        said = "`HAND` is read and never set, so that it is always 0."
        self.check(sheet("(do (repeat ('P sto ^HAND) (shuffle (game hloc STOCK))))"), said)


class Values(Telling):
    def asked(self, test: str) -> str:
        return sheet(f"(do (all (game hloc STOCK) 'C (if {test} (move 'C (top (game vloc PILE))))))")

    def test_one_that_no_card_has(self) -> None:
        self.check(self.asked("(is 'C SUIT ^HERATS)"), "No card has the value `HERATS` of `SUIT`. Is `HEARTS` meant?")
        self.check(self.asked("(is 'C RANK ^9)"), "No card has the value `9` of `RANK`.")

    def test_one_of_another_attribute(self) -> None:
        self.check(self.asked("(is 'C SUIT ^ACE)"), "No card has the value `ACE` of `SUIT`. It is a value of `RANK`.")

    def test_it_is_told_once(self) -> None:
        said = "No card has the value `ACE` of `SUIT`. It is a value of `RANK`."
        self.check(self.asked("(or (is 'C SUIT ^ACE) (is 'C SUIT ACE))"), said)

    def test_an_attribute(self) -> None:
        said = "No card has the attribute `SIUT`. Is `SUIT` meant?"
        self.check(self.asked("(is 'C ^SIUT ACE)"), said)
        self.check(self.asked("(= (attr 'C ^SIUT) (attr 'C RANK))"), said)
        self.check(staged("(choice (any (partition ((current player) iloc HAND) ^SIUT) 'G (do (forget (top 'G)))))"), said)

    def test_cards_of_groups_inside_of_groups(self) -> None:
        deck = "(create deck (game hloc STOCK) (deck (KIND ((PIP (N (1 2))) (FACE (N (J)))))))"
        for test in ("(is 'C N J)", "(is 'C KIND PIP)", "(is 'C RANK 10)"):
            with self.subTest(test):
                self.silent(self.asked(test).replace("(create players 2)", f"(create players 2) {deck}"))

    def test_a_point_map_may_name_more(self) -> None:
        self.silent(sheet("", "(put points WORTH ((RANK (QUEEN 9 11) 2) (JOKER (RED) 3)))"))

    def test_a_point_map_with_a_misspelling(self) -> None:
        said = "No card has the value `KNIG` of `RANK`. Is `KING` meant?"
        self.check(sheet("", "(put points WORTH ((RANK (ACE ^KNIG) 2)))"), said)
        said = "No card has the attribute `RNAK`. Is `RANK` meant?"
        self.check(sheet("", "(put points WORTH ((^RNAK (ACE) 2)))"), said)
        said = "No card has the value `ACE` of `SUIT`. It is a value of `RANK`."
        self.check(sheet("", "(put points WORTH ((SUIT (^ACE) 2)))"), said)

    def test_nothing_is_told_of_decks_that_cant_be_read(self) -> None:
        self.silent(self.asked("(is 'C SUIT ACE)").replace("(SUIT (CLUBS HEARTS))", "(SUIT CLUBS HEARTS)"))


class Variables(Telling):
    def test_in_tests(self) -> None:
        said = "`'Q` isn't used behind this place, so that the test is the same for each."
        for test in (
            "(all player ^'Q (= (size ((current player) iloc HAND)) 0))",
            "(any ((current player) iloc HAND) ^'Q (is (top (game vloc PILE)) RANK ACE))",
        ):
            with self.subTest(test):
                self.check(staged(f"(choice (if {test} (cycle reverse)))"), said)

    def test_in_filters(self) -> None:
        said = "`'Q` isn't used behind this place, so that either all cards are kept or none."
        move = "(do (all (game vloc PILE) 'C (move all (filter (game vloc PILE) ^'Q {}) (top (game hloc STOCK)))))"
        self.check(staged(move.format("(is 'C RANK ACE)")), said)
        self.check(staged(move.format("(= 'C (top (game vloc PILE)))")), said)

    def test_a_filter_may_switch_an_amount(self) -> None:
        amount = "(size (filter (game vloc PILE) 'C (> (size (game hloc STOCK)) 1)))"
        self.silent(staged(f"(do (repeat {amount} (shuffle (game hloc STOCK))))"))

    def test_in_menus(self) -> None:
        said = "`'P` isn't used behind this place, so that all items that it gives are alike."
        draw = "(do (move (top (game hloc STOCK)) (top ((current player) iloc HAND))))"
        play = "(any ((current player) iloc HAND) 'C (do (move 'C (top (game vloc PILE)))))"
        for item in (draw, play):
            with self.subTest(item):
                self.check(staged(f"(choice (any player ^'P {item}))"), said)

    def test_in_loops(self) -> None:
        said = "`'P` isn't used behind this place, so that the effects come to the same each time."
        self.check(staged("(do (all player ^'P (shuffle (game hloc STOCK))))"), said)
        self.check(staged("(do (all (game vloc PILE) ^'P (cycle next (current player))))"), said)

    def test_a_loop_in_which_the_current_player_stands_for_each(self) -> None:
        said = "`'P` isn't used behind this place, so that the effects are those of the current player each time."
        draw = "(move (top (game hloc STOCK)) (top ((current player) iloc HAND)))"
        self.check(staged(f"(do (all player ^'P {draw}))"), said)
        self.silent(staged(f"(do (all player 'P (if (!= 'P (current player)) {draw})))"))

    def test_a_loop_may_repeat_its_effects(self) -> None:
        deal = "(move (top (game hloc STOCK)) (top (game vloc PILE)))"
        for effect in (deal, f"(if (= (size (game vloc PILE)) 0) {deal})", "(cycle reverse)", "(put it)"):
            with self.subTest(effect):
                self.silent(staged(f"(do (all player 'P {effect}))"))
        count = "(all player 'P (set (game sto N) (+ (game sto N) 1)))"
        self.silent(staged(f"(do {count} (repeat (game sto N) (shuffle (game hloc STOCK))))"))

    def test_what_stands_before_the_variable_doesnt_use_it(self) -> None:
        said = "`'D` isn't used behind this place, so that the test is the same for each."
        test = "(any (filter (game vloc PILE) 'D (is 'D RANK ACE)) ^'D (is (top (game vloc PILE)) RANK ACE))"
        self.check(staged(f"(choice (if {test} (cycle reverse)))"), said)


class Stages(Telling):
    SAID = "The end of this stage reads nothing that its items change, so that it has no round, or goes on to the turn limit."
    TAKE = "(do (move (top (game hloc STOCK)) (top ((current player) iloc HAND))))"

    def test_an_end_that_nothing_changes(self) -> None:
        for test in ("(= (size (game hloc STOCK)) 0)", "(all player 'P (= (size ('P iloc HAND)) 3))", "(= 1 2)"):
            with self.subTest(test):
                self.check(ended(test, "(do (cycle reverse))"), self.SAID)

    def test_a_number_that_another_item_sets(self) -> None:
        self.check(sheet(f"(do (inc (game sto N) 1)) (stage player ^(end (= (game sto N) 1)) {self.TAKE})"), self.SAID)

    def test_what_moves_changes(self) -> None:
        for test in ("(= (size (game hloc STOCK)) 0)", "(any player 'P (> (size ('P iloc HAND)) 3))"):
            with self.subTest(test):
                self.silent(ended(test, self.TAKE))

    def test_a_card_is_moved_from_where_its_variable_found_it(self) -> None:
        end = "(all player 'P (= (size ('P iloc HAND)) 0))"
        play = "(choice (any {} 'G (any 'G 'C (do (move 'C (top (game vloc PILE)))))))"
        self.silent(ended(end, "(choice (any ((current player) iloc HAND) 'C (do (move 'C (top (game vloc PILE))))))"))
        self.silent(ended(end, play.format("(partition ((current player) iloc HAND) SUIT)")))
        self.silent(ended(end, "(do (all ((current player) iloc HAND) 'C (move 'C (top (game vloc PILE)))))"))

    def test_a_card_that_stays_changes_nothing(self) -> None:
        end = "(all player 'P (= (size ('P iloc HAND)) 0))"
        look = "(remember 'C (top (game mem SEEN)))"
        self.check(ended(end, f"(choice (any ((current player) iloc HAND) 'C (do {look})))"), self.SAID)
        self.silent(ended("(> (size (game mem SEEN)) 3)", f"(choice (any ((current player) iloc HAND) 'C (do {look})))"))

    def test_a_reference_that_is_forgotten(self) -> None:
        see = "(remember (top (game hloc STOCK)) (top (game mem SEEN)))"
        forget = "(do (all (game mem SEEN) 'C (forget 'C)))"
        self.silent(sheet(f"(do {see}) (stage player (end (= (size (game mem SEEN)) 0)) {forget})"))

    def test_what_is_shuffled_lies_otherwise(self) -> None:
        self.silent(ended("(is (top (game hloc STOCK)) RANK ACE)", "(do (shuffle (game hloc STOCK)))"))

    def test_numbers(self) -> None:
        for effect in ("set", "inc", "dec"):
            with self.subTest(effect):
                self.silent(ended("(= (game sto N) 1)", f"(do ({effect} (game sto N) 1))"))

    def test_each_round_has_another_current_member(self) -> None:
        wait = "(do (cycle reverse))"
        for test in ("(= (size ((current player) iloc HAND)) 0)", "(any player 'P (= 'P (current player)))"):
            with self.subTest(test):
                self.silent(ended(test, wait))

    def test_each_round_has_another_player_who_knows_something(self) -> None:
        show = "(do (all player 'P (peek (game hloc STOCK) 'P)))"
        self.silent(sheet(f"{show} (stage player (end (= (size (known (game hloc STOCK))) 0)) (do (cycle reverse)))"))

    def test_stages_inside_change_too(self) -> None:
        inner = f"(stage player (end (= (size (game hloc STOCK)) 0)) {self.TAKE})"
        self.silent(ended("(> (size (game hloc STOCK)) 9)", inner))

    def test_nothing_is_told_where_an_item_cant_be_read(self) -> None:
        self.silent(ended("(= (size (game hloc STOCK)) 0)", "(do (draw (game hloc STOCK)))"))


class Peeks(Telling):
    SAID = "Whoever this `peek` names sees all of these cards without it, so that it shows nothing."
    UNKNOWN = "Nobody sees the cards of `STOCK`, and no `peek` shows them, so that nobody knows one of them."

    def shown(self, effect: str) -> str:
        return staged(f"(do (all player 'P {effect} (if (= 'P (current player)) (move (top (game vloc PILE)) (top ('P iloc HAND))))))")

    def test_cards_that_are_seen_in_any_case(self) -> None:
        for cards, owner in (
            ("(game vloc PILE)", "'P"),
            ("('P iloc HAND)", "'P"),
            ("((current player) iloc HAND)", "(current player)"),
            ("(filter ('P iloc HAND) 'C (is 'C RANK ACE))", "'P"),
            ("(union (game vloc PILE) ('P iloc HAND))", "'P"),
            ("(known ('P iloc HAND))", "'P"),
            ("(known (game hloc STOCK))", "(current player)"),
        ):
            with self.subTest(cards):
                self.check(self.shown(f"^(peek {cards} {owner})"), self.SAID)

    def test_references(self) -> None:
        see = "(remember (top (game hloc STOCK)) (top (game mem SEEN)))"
        self.check(self.shown(f"{see} ^(peek (game mem SEEN) 'P)"), self.SAID)

    def test_cards_of_a_team(self) -> None:
        deal = "(move (top (game hloc STOCK)) (top ((team of 'P) iloc KITTY)))"
        for owner in ("'P", "(team of 'P)"):
            with self.subTest(owner):
                self.check(self.shown(f"{deal} ^(peek ((team of 'P) iloc KITTY) {owner})"), self.SAID)
        self.silent(self.shown(f"{deal} (peek ((team of 'P) iloc KITTY) (current player))"))

    def test_cards_that_may_be_new(self) -> None:
        for cards, owner in (
            ("(game hloc STOCK)", "'P"),
            ("('P iloc HAND)", "(current player)"),
            ("('P iloc HAND)", "(team of 'P)"),
            ("(union (game vloc PILE) (game hloc STOCK))", "'P"),
            ("(known (game hloc STOCK))", "'P"),
            ("(known ('P iloc HAND))", "(team of 'P)"),
        ):
            with self.subTest(cards):
                self.silent(self.shown(f"(peek {cards} {owner}) (peek (game hloc STOCK) 'P)"))

    def test_a_group_may_lie_elsewhere_by_then(self) -> None:
        hide = "(move all 'G (top (game hloc STOCK))) (peek 'G (current player))"
        self.silent(staged(f"(choice (any (partition ((current player) iloc HAND) SUIT) 'G (do {hide})))"))

    def test_a_location_at_which_nobody_looks(self) -> None:
        take = "(move 'C (top ((current player) iloc HAND)))"
        known = f"(choice (any (known (game hloc ^STOCK)) 'C (do {take})) (any (known (game hloc STOCK)) 'C (do {take})))"
        self.check(staged(known), self.UNKNOWN)
        self.check(staged(f"(do (all player 'Q (peek ('Q iloc HAND) (current player)))) {known}"), self.UNKNOWN)

    def test_a_location_at_which_somebody_looks(self) -> None:
        known = "(choice (if (> (size (known (game hloc STOCK))) 0) (cycle reverse)))"
        for cards in (
            "(game hloc STOCK)",
            "(filter (game hloc STOCK) 'C (is 'C RANK ACE))",
            "(union ((current player) iloc HAND) (game hloc STOCK))",
            "(known (game hloc STOCK))",
        ):
            with self.subTest(cards):
                self.silent(staged(f"(do (all player 'P (peek {cards} 'P))) {known}"))

    def test_a_group_at_which_somebody_looks_may_lie_anywhere(self) -> None:
        known = "(if (> (size (known (game hloc STOCK))) 0) (cycle reverse))"
        hide = "(move all 'G (top (game hloc STOCK))) (peek 'G (current player))"
        self.silent(staged(f"(choice {known} (any (partition ((current player) iloc HAND) SUIT) 'G (do {hide})))"))

    def test_what_the_player_may_see(self) -> None:
        for location in ("((current player) iloc HAND)", "('P iloc HAND)", "(game vloc PILE)"):
            with self.subTest(location):
                self.silent(staged(f"(choice (any player 'P (if (> (size (known {location})) 0) (cycle next 'P))))"))

    def test_an_empty_location_is_told_as_such(self) -> None:
        said = "`TALON` is read and never filled, so that it is always empty."
        self.check(staged("(choice (if (= (size (known (game hloc ^TALON))) 0) (cycle reverse)))"), said)

    def test_nothing_is_told_where_a_list_has_no_form(self) -> None:
        known = "(choice (if (> (size (known (game hloc STOCK))) 0) (cycle reverse)))"
        self.silent(staged(f"(do (look (game hloc STOCK) (current player))) {known}"))
        self.silent(staged("(do (peek (game vloc PILE) (current team player)))"))


class Maps(Telling):
    """The decks have ranks ACE, KING and 10, and suits CLUBS and HEARTS."""

    LOOK = "(do (set (game sto N) {}) (if (> (game sto N) 0) (cycle reverse)))"

    def mapped(self, entries: str, used: str = "(sum (game hloc STOCK) using W)") -> str:
        return sheet(self.LOOK.format(used), f"(put points ^W ({entries}))")

    def test_the_one_value_that_has_no_entry(self) -> None:
        said = "`W` has no entry for `10` of `RANK`, and one for each other value."
        self.check(self.mapped("(RANK (ACE) 11) (RANK (KING) 4)"), said)
        self.check(self.mapped("(RANK (ACE KING) 11) (SUIT (CLUBS) 1)"), said)

    def test_where_several_have_none_or_there_are_two_values_nothing_is_told(self) -> None:
        for entries in ("(RANK (ACE) 11)", "(SUIT (CLUBS) 1)", "(RANK (ACE KING 10) 1)", "(RANK (ACE KING) 2) (RANK (10) 0)"):
            self.silent(self.mapped(entries))

    def test_a_value_that_stands_twice(self) -> None:
        said = "`ACE` of `RANK` has an entry of `W` before, and such a card is worth both together."
        self.check(self.mapped("(RANK (ACE KING 10) 11) (RANK (^ACE) 4)").replace("^W", "W"), said)
        said = "`KING` stands twice in this entry of `W`, and counts once."
        self.check(self.mapped("(RANK (KING ^KING) 11)").replace("^W", "W"), said)
        self.silent(self.mapped("(RANK (ACE) 11) (SUIT (CLUBS) 1)"))

    def placed(self, use: str, more: str = "") -> str:
        """A sheet with tokens of a GEM beside the cards, of which one goes to SHOWN, and the cards to HANDs."""
        tokens = "(create deck (game vloc GEMS) (deck (GEM (1 2)))) (put points W ((GEM (1) 1) (GEM (2) 2)))"
        item = f"(do (move (top (game vloc GEMS)) (top (game vloc SHOWN))) {more} (set (game sto N) {use}))"
        return sheet(item + "(do (if (> (game sto N) 0) (cycle reverse)))", tokens)

    def test_a_map_for_no_card_of_the_place(self) -> None:
        said = "No card that may lie there has points by `W`."
        hand = "(all player 'P (inc (game sto N) {}))"
        for use in ("(sum ('P iloc HAND) using ^W)", "(points (top ('P iloc HAND)) using ^W)", "(points (max ('P iloc HAND) using ^W) using ^W)"):
            self.check(self.placed("0", hand.format(use)), *[said] * use.count("^"))
        self.check(self.placed("0", "(all (game hloc STOCK) 'C (inc (game sto N) (points 'C using ^W)))"), said)

    def test_a_map_for_some_card_of_the_place(self) -> None:
        for use in ("(sum (game vloc SHOWN) using W)", "(sum (union (game hloc STOCK) (game vloc GEMS)) using W)"):
            self.silent(self.placed(use))
        self.silent(self.placed("(sum (game hloc STOCK) using W)", "(move all (game vloc SHOWN) (bottom (game hloc STOCK)))"))
        shown = "(all (game vloc GEMS) 'G (remember 'G (top (game mem SEEN)))) (move (top (game mem SEEN)) (top (game hloc STOCK)))"
        self.silent(self.placed("(sum (game hloc STOCK) using W)", shown))
        self.silent(self.placed("(sum (game hloc STOCK) using W)", "(do (nothing known))"))


class References(Telling):
    SAID = "Nothing of `LED` is ever forgotten, so that once something is remembered there it is never empty again."

    def remembered(self, test: str, forget: str = "") -> str:
        item = f"(if {test} (remember (top ('P iloc HAND)) (top (game mem ^LED))))"
        return staged(f"(do (all player 'P {item} {forget}))")

    def test_one_that_is_never_forgotten(self) -> None:
        for test in ("(= (size (game mem LED)) 0)", "(> (size (game mem LED)) 0)", "(= 0 (size (game mem LED)))"):
            self.check(self.remembered(test), self.SAID)

    def test_one_that_is_forgotten(self) -> None:
        for forget in ("(forget (top (game mem LED)))", "(all (game mem LED) 'C (forget 'C))", "(forget (top (union (game mem LED))))"):
            self.silent(self.remembered("(= (size (game mem LED)) 0)", forget))

    def test_where_nothing_asks_whether_it_is_empty_it_may_stay(self) -> None:
        for test in ("(is (top (game mem LED)) RANK ACE)", "(= (size (game mem LED)) 4)"):
            self.silent(self.remembered(test))

    def test_before_all_stages_it_is_remembered_once(self) -> None:
        remember = "(do (remember (bottom (game hloc STOCK)) (top (game mem LED))))"
        self.silent(sheet(remember + STAGE.format("(do (if (= (size (game mem LED)) 0) (cycle reverse)))")))


class Names(unittest.TestCase):
    def test_distances(self) -> None:
        for one, other, letters in (
            ("PILE", "PILE", 0), ("PILE", "PIEL", 1), ("PILE", "PIPE", 1), ("PILE", "PILES", 1), ("PILE", "PLE", 1),
            ("STOCK", "TSOKC", 2), ("HAND", "LAID", 2), ("", "AB", 2), ("CA", "ABC", 3),
        ):  # fmt: skip
            with self.subTest(one=one, other=other):
                self.assertEqual((distance(one, other), distance(other, one)), (letters, letters))

    def test_the_nearest_is_told_and_the_first_of_several(self) -> None:
        self.assertEqual(nearest("HAND", ["LAID", "HEND", "HANDS"]), "HEND")
        self.assertEqual(nearest("STOCK", ["HAND", "WASTE"]), None)

    def test_short_names_differ_less(self) -> None:
        self.assertEqual(nearest("A", ["B"]), None)
        self.assertEqual(nearest("UP", ["US"]), "US")
        self.assertEqual(nearest("UP", ["US"], SUSPECTED), None)
        self.assertEqual(nearest("HAND", ["LAID"]), "LAID")
        self.assertEqual(nearest("HAND", ["LAID"], SUSPECTED), None)

    def test_a_series_is_no_misspelling(self) -> None:
        self.assertEqual(nearest("COLUMN-8", ["COLUMN-7"]), None)
        self.assertEqual(nearest("11", ["10", "1"]), None)


class Reading(unittest.TestCase):
    def test_texts_that_are_no_sheets(self) -> None:
        for source, said in (
            ("(game", "a `)` is missing"),
            ("(game))", "`)` stands outside of all lists"),
            ("game", "`game` stands outside of all lists"),
            ("(" * 65 + ")" * 65, "more than 64 lists are open at one place"),
            ("", "its first list isn't written `(game (setup LINE+) ITEM+ (scoring BEST INT))`"),
            ("(plan)", "its first list isn't written `(game (setup LINE+) ITEM+ (scoring BEST INT))`"),
        ):
            with self.subTest(source), self.assertRaises(Unreadable) as raised:
                read_sheet(source.encode())
            self.assertEqual(str(raised.exception), said)

    def test_more_names_than_a_sheet_may_have(self) -> None:
        for form, what in (
            ("(set (game sto {0}) 1)", "stored numbers"),
            ("(shuffle (game hloc {0}))", "locations"),
            ("(if (is (top (game hloc STOCK)) RANK {0}) (cycle reverse))", "values"),
            ("(if (is (top (game hloc STOCK)) {0} ACE) (cycle reverse))", "attributes"),
        ):
            items = [form.format(f"N{number}A") for number in range(257)]
            source = sheet(f"(do {' '.join(items)})")
            with self.subTest(what), self.assertRaises(Unreadable) as refused:
                told(source)
            self.assertEqual(str(refused.exception), f"it names more than 256 {what}")

    def test_a_plan_may_stand_behind_the_sheet(self) -> None:
        self.assertEqual(told(sheet("") + "(plan (seats (script)))"), [])


class Shipped(unittest.TestCase):
    def test_nothing_is_told_of_them(self) -> None:
        self.assertGreaterEqual(len(SHIPPED), 21)
        for file in SHIPPED:
            with self.subTest(file.relative_to(ROOT)):
                self.assertEqual(told(file.read_text("latin-1")), [])

    def test_a_name_that_is_misspelled_in_one_place_is_told(self) -> None:
        """The last mention of each name that stands several times is spelled with an X more."""
        for file in SHIPPED:
            source = file.read_text("latin-1")
            mentions = [it for it in read_sheet(source.encode("latin-1")).within() if is_location(it) or is_number(it)]
            names = [(it.parts[1].text == STORED, it.parts[2].text) for it in mentions]
            last = dict(zip(names, mentions))
            for name, mention in last.items():
                end = mention.parts[2].at + len(name[1])
                with self.subTest(file=file.relative_to(ROOT), name=name):
                    self.assertEqual(bool(told(f"{source[:end]}X{source[end:]}")), names.count(name) > 1)


class Running(unittest.TestCase):
    def setUp(self) -> None:
        folder = tempfile.TemporaryDirectory()
        self.addCleanup(folder.cleanup)
        self.folder = Path(folder.name)

    def lint(self, *words: str, out: int = subprocess.PIPE) -> tuple[int, str, str]:
        ran = subprocess.run([LINT, *words], cwd=self.folder, stdout=out, stderr=subprocess.PIPE, text=True, timeout=120)
        return ran.returncode, ran.stdout, ran.stderr

    def test_nothing_is_found(self) -> None:
        (self.folder / "a.sheet").write_text(sheet(""))
        self.assertEqual(self.lint("a.sheet"), (0, "", ""))

    def test_findings_stand_in_the_order_of_the_text(self) -> None:
        (self.folder / "a b.sheet").write_text(sheet("(do\n\t(shuffle (game hloc STOK))\n  (inc (game sto N) 1))"))
        lines = (
            "a b.sheet:2:22: `STOK` is shuffled and never filled, so that it is always empty. Is `STOCK` meant?\n"
            "a b.sheet:3:18: `N` is set and never read, so that nothing comes of it.\n"
        )
        self.assertEqual(self.lint("a b.sheet"), (1, lines, ""))

    def test_words(self) -> None:
        for words in ((), ("a.sheet", "b.sheet")):
            self.assertEqual(self.lint(*words), (2, "", "lint: usage: cardhouse lint GAME.sheet\n"))

    def test_files_that_cant_be_read(self) -> None:
        self.assertEqual(self.lint("a.sheet"), (6, "", "lint: a.sheet can't be read: No such file or directory.\n"))
        (self.folder / "a.sheet").write_text("(game")
        said = "lint: a.sheet can't be read as a sheet: a `)` is missing. `./cardhouse sheet` tells its fault.\n"
        self.assertEqual(self.lint("a.sheet"), (2, "", said))

    def test_output_that_cant_be_written(self) -> None:
        (self.folder / "a.sheet").write_text(sheet("(do (inc (game sto N) 1))"))
        with open("/dev/full", "w") as full:
            self.assertEqual(self.lint("a.sheet", out=full.fileno())[0], 7)

    def test_output_that_is_closed(self) -> None:
        (self.folder / "a.sheet").write_text(sheet("(do (inc (game sto N) 1))"))
        for words, status in (("a.sheet >&-", 7), ("a.sheet b.sheet 2>&-", 2)):
            with self.subTest(words):
                ran = subprocess.run(["sh", "-c", f"{LINT} {words}"], cwd=self.folder, capture_output=True, timeout=120)
                self.assertEqual((ran.returncode, ran.stdout, ran.stderr), (status, b"", b""))


if __name__ == "__main__":
    unittest.main()
