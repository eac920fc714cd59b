"""Tests of what is said where one kind of fault has several causes: what the text around the place tells of it is told."""

import unittest

from faults.explaining import explanation
from faults.mentions import mentions
from faults.parts import Part

# A setup with room for more lines, and the items behind it, in the second line.
SHEET = "(game (setup (create players 2) (create deck (game hloc S) (deck (R (A K)))){})\n{} (scoring max 0))"


def said_of(kind: str, source: str) -> str:
    """What is said of a fault at the byte behind `^`, in one line, but for its picture."""
    lines = explanation(f"sheet {kind} {source.index('^')}", source.replace("^", "").encode(), ["sheet"])
    return " ".join(lines[3:])


class Told(unittest.TestCase):
    def check(self, kind: str, source: str, told: str, untold: str = "No line") -> None:
        with self.subTest(source):
            said = said_of(kind, source)
            self.assertIn(told, said)
            self.assertNotIn(untold, said)

    def item(self, kind: str, text: str, told: str, untold: str = "No line") -> None:
        self.check(kind, SHEET.format("", text), told, untold)

    def line(self, kind: str, text: str, told: str, untold: str = "No line") -> None:
        self.check(kind, SHEET.format(text, "(do (cycle reverse))"), told, untold)


class Locations(Told):
    def test_a_name_that_stands_before_with_another_kind(self) -> None:
        told = "`S` stands first as `(game hloc S)`, in line 1, and a name has one kind"
        self.item("WrongKind", "(do (shuffle ^(game vloc S)))", told)
        self.item("WrongKind", "(do (forget (top ^(game mem S))))", told, "`mem` holds references")
        self.item("WrongKind", "(do (move all ^(game mem S) (top (game vloc P))))", told, "`mem` holds references")
        self.line("WrongKind", " (create deck ^(game iloc S) (deck (R (A))))", told, "A deck's cards")

    def test_a_name_that_stands_before_with_other_owners(self) -> None:
        told = "belongs to the game, to players or to teams, and this one to the game"
        for holder in ("'P", "(current player)", "(current team)", "(team of 'P)"):
            self.item("WrongKind", f"(do (all player 'P (shuffle ^({holder} hloc S))))", told)
        self.item("WrongKind", "(do (all player 'P (inc ('P sto N) 1) (inc ^((team of 'P) sto N) 1)))", "and this one to players")

    def test_locations_and_numbers_have_names_of_their_own(self) -> None:
        source = "(do (inc (game sto H) 1) (all player 'P (shuffle ('P iloc H)) (shuffle ^('P vloc H))))"
        self.item("WrongKind", source, "`H` stands first as `('P iloc H)`, in line 2")

    def test_what_only_looks_like_a_location_is_no_mention(self) -> None:
        text = SHEET.format("", "(do (shuffle (game iloc X)) (shuffle ^(game vloc X)))").replace("(A K)", "(A K) (T ((game vloc X)))")
        self.check("WrongKind", text, "`X` stands first as `(game iloc X)`, in line 2")

    def test_the_location_of_a_deck(self) -> None:
        for holder in ("(current player) iloc", "'P iloc", "game mem"):
            told = "A deck's cards begin in a location of the game that holds cards"
            self.line("WrongKind", f" (create deck ^({holder} T) (deck (R (A))))", told)

    def test_what_is_done_with_a_location(self) -> None:
        told = "A `mem` holds references and no cards"
        self.item("WrongKind", "(do (shuffle ^(game mem M)))", told)
        self.item("WrongKind", "(do (move (top (game hloc S)) (top ^(game mem M))))", told)
        self.item("WrongKind", "(do (move all (game hloc S) (bottom ^(game mem M))))", told)
        told = "What is remembered goes to a `mem`, and this is a `vloc`"
        self.item("WrongKind", "(do (remember (top (game hloc S)) (top ^(game vloc P))))", told)

    def test_both_causes_are_told(self) -> None:
        source = "(do (remember (top (game hloc S)) (top ^(game vloc S))))"
        self.item("WrongKind", source, "goes to a `mem`")
        self.item("WrongKind", source, "`S` stands first as")


class Variables(Told):
    def test_its_sort_and_what_its_place_takes(self) -> None:
        for text, sort, taken in (
            ("(do (all player 'P (forget ^'P)))", "a player", "a card"),
            ("(do (all player 'P (shuffle (game hloc S)) (all ^'P 'C (forget 'C))))", "a player", "a collection of cards"),
            ("(do (all (game hloc S) 'C (shuffle (^'C iloc H))))", "a card", "a player"),
            ("(do (all (game hloc S) 'C (move all ^'C (top (game vloc P)))))", "a card", "a collection of cards"),
            ("(do (all (filter (game hloc S) 'D (is 'D R A)) 'C (shuffle ((team of ^'C) iloc H))))", "a card", "a player"),
            ("(do (if (= (size (filter (game hloc S) 'D (= (size ^'D) 0))) 0) (cycle reverse)))", "a card", "a collection of cards"),
            ("(stage player (end (= 0 1)) (choice (any (partition (game vloc P) R) 'G (do (forget ^'G)))))", "a group of cards", "a card"),
            ("(stage player (end (= 0 1)) (choice (any player 'P (any (game vloc P) 'C (do (cycle next ^'C))))))", "a card", "a player"),
        ):
            name = text[text.index("^") + 1 :][:2]
            self.item("WrongKind", text, f"`{name}` stands for {sort} here")
            self.item("WrongKind", text, f"this place takes {taken}.")

    def test_the_player_who_is_scored(self) -> None:
        text = SHEET.format("", "(do (cycle reverse))").replace("(scoring max 0)", "(scoring max (points ^'SELF using W))")
        self.check("WrongKind", text, "`'SELF` stands for a player here")

    def test_the_innermost_list_that_binds_it_is_named(self) -> None:
        text = "(do (all player 'P\n(all (game hloc S) 'P\n(shuffle (^'P iloc H)))))"
        self.item("WrongKind", text, "`'P` stands for a card here, by the list that begins in line 3, column 1,")


class Sides(Told):
    def test_the_sorts_of_both_are_told(self) -> None:
        for first, second, one, other in (
            ("0", "(top (game hloc S))", "a number", "a card"),
            ("(size (game hloc S))", "(current player)", "a number", "a player"),
            ("(current player)", "(current team)", "a player", "a team"),
            ("(attr 'C R)", "'C", "a value of an attribute", "a card"),
            ("'P", "(team of 'P)", "a player", "a team"),
            ("(max (game hloc S) using W)", "(game sto N)", "a card", "a number"),
            ("'C", "3", "a card", "a number"),
        ):
            text = f"(do (all player 'P (all (game hloc S) 'C (if (!= {first} ^{second}) (cycle reverse)))))"
            self.item("WrongKind", text, f"The first side is {one} and this is {other}")

    def test_a_group(self) -> None:
        for sides in ("^'G 0", "0 ^'G"):
            text = f"(stage player (end (= 0 1)) (choice (any (partition (game vloc P) R) 'G (if (= {sides}) (cycle reverse)))))"
            self.item("WrongKind", text, "A group of cards is no side of an equation")

    def test_a_number_whose_owners_are_others(self) -> None:
        text = "(do (inc (game sto N) 1) (all player 'P (if (= ^('P sto N) 0) (cycle reverse))))"
        self.item("WrongKind", text, "`N` stands first as `(game sto N)`", "sides")
        self.item("WrongKind", text.replace("(= ^('P sto N) 0)", "(= 0 ^('P sto N))"), "`N` stands first as", "sides")

    def test_a_word_that_is_meant_as_a_value(self) -> None:
        self.item("Number", "(do (if (= (attr (top (game hloc S)) R) ^A) (cycle reverse)))", "asked by `(is CARD ATTR VALUE)`")
        self.item("Number", "(do (repeat ^'N (cycle reverse)))", "is no number", "beside")
        self.item("Number", "(do (repeat ^many (cycle reverse)))", "the sum `(+ INT INT)`")


class Sight(Told):
    def test_why_a_location_isnt_seen(self) -> None:
        for location, told in (
            ("(game hloc S)", "Nobody sees the cards of an `hloc`."),
            ("(game iloc B)", "Nobody sees the cards of an `iloc` of the game."),
            ("('P iloc H)", "`'P` may be another player than the one who chooses."),
            ("((current team) iloc H)", "`(current team)` may be another team than that of the player who chooses."),
            ("((team of 'P) iloc H)", "`(team of 'P)` may be another team than that of the player who chooses."),
        ):
            text = f"(stage player (end (= 0 1)) (choice (any player 'P (any ^{location} 'C (do (forget 'C))))))"
            self.item("Unseen", text, told)
            self.item("Unseen", text, "What a choice offers may not depend on cards that its player doesn't see")
            self.item("Unseen", text, "`(known LOC)`")

    def test_what_is_known_where_nobody_is_asked(self) -> None:
        self.item("Unknown", "(do (move all ^(known (game hloc S)) (bottom (game hloc S))))", "What is known is what the current player")
        self.item("Unknown", "(do (peek (game hloc S) ^(current player)))", "There is no current one here")


class NamesLikeWords(Told):
    """Attributes and values may be called as the lists of the language begin."""

    def test_an_attribute_twice(self) -> None:
        for name in ("any", "all", "filter", "create", "put", "RANK"):
            text = f" (create deck (game hloc T) (deck ({name} (A)) ^({name} (B))))"
            self.line("Twice", text, "have this attribute already")

    def test_an_attribute_too_many(self) -> None:
        for name in ("stage", "choice", "repeat", "any", "create", "put", "RANK"):
            for text in (f" (create deck (game hloc T) (deck ^({name} (A))))", f" (put points W (^({name} (A) 1)))"):
                self.line("TooMany", text, "more than 256 different attributes")

    def test_a_shape_inside(self) -> None:
        for name in ("size", "set", "setup", "game", "RANK"):
            text = f" (create deck (game hloc T) (deck ({name} (^'A))))"
            self.line("Shape", text, "Here belongs BRANCH.", f"({name} ")
            self.line("Shape", f" (create deck (game hloc T) (deck ^({name})))", "(ATTR (BRANCH+))", "begins with")

    def test_a_group_that_is_called_setup_is_none(self) -> None:
        self.line("Shape", " (create deck (game hloc T) (deck ^(setup)))", "(ATTR (BRANCH+))", "The setup stands once")
        self.check("Shape", "(game ^(setup (create teams (0))) (do (cycle reverse)) (scoring max 0))", "The setup stands once")

    def test_locations_and_numbers_too_many(self) -> None:
        self.item("TooMany", "(do (shuffle ^(game hloc X)))", "more than 256 locations")
        self.item("TooMany", "(do (forget (top ^(game vloc X))))", "more than 256 locations")
        self.item("TooMany", "(do (inc ^(game sto X) 1))", "more than 256 stored numbers")
        self.item("TooMany", "(do (if (= 0 ^(game sto X)) (cycle reverse)))", "more than 256 stored numbers")


class Places(Told):
    """How a list is written hangs on its place."""

    def test_a_location_where_a_card_belongs(self) -> None:
        self.item("Shape", "(do (forget ^(game vloc P)))", "No list begins with `game` here.", "(HOLDER KIND NAME)")

    def test_no_list_is_missed_where_a_name_belongs(self) -> None:
        self.item("Shape", "(do (shuffle (game hloc ^(S))))", "Here belongs NAME.", "No list begins")

    def test_a_head_with_several_forms(self) -> None:
        self.item("Shape", "(do (all player ^P (cycle reverse)))", "(all player 'V EFFECT+)", "BOOL")
        self.item("Shape", "(do (if ^(all player 'P) (cycle reverse)))", "(all player 'V BOOL)", "(all player 'V EFFECT+)")
        self.item("Shape", "(do (forget ^(top)))", "(top COLL)", "(top LOC)")
        self.item("Shape", "(do (shuffle (game ^sto S)))", "Here belongs KIND.", "`sto`")

    def test_lists_around(self) -> None:
        source = b"(plan (seats (script) (random x)) (matches (0 0) (from 1 1 1)) (turns 1))"
        for word, forms, meant in (
            (b"(script", ["(script N*)"], ["STRATEGY"]),
            (b"x", [], ["K"]),
            (b"(from", ["(from DEAL SEATS COUNT)"], ["MATCH"]),
            (b"(0", ["(DEAL SEATS)"], ["MATCH"]),
            (b"(turns", ["(turns T)"], ["(turns T)"]),
        ):
            part = Part("plan", source, source.index(word))
            self.assertEqual((part.forms, part.meant), (forms, meant))


class Words(Told):
    """What is said of words that stand where others belong."""

    def test_a_head_that_is_misspelled(self) -> None:
        self.item("Shape", "(do ^(remembr 'C (top (game mem M))))", "No list begins with `remembr` here. Is `remember` meant?")
        self.item("Shape", "(do (forget ^(tpo (game vloc P))))", "No list begins with `tpo` here. Is `top` meant?")
        self.item("Shape", "(do ^(discard 'C))", "No list begins with `discard` here. The list around it", "meant?")
        self.item("Shape", "(do (if ^(remember 'C 'D) (cycle reverse)))", "No list begins with `remember` here.", "meant?")

    def test_a_word_behind_the_head_that_is_misspelled(self) -> None:
        self.item("Shape", "(do (forget (max (game vloc P) ^usign W)))", "`usign` doesn't belong here. Is `using` meant?")
        self.item("Shape", "(do (shuffle (game ^hlco S)))", "`hlco` doesn't belong here. Is `hloc` meant?")
        self.item("Shape", "(stage ^playr (end (= 0 1)) (cycle reverse))", "Is `player` meant?")
        self.check("Shape", SHEET.format("", "(do (cycle reverse))").replace("max", "^mxa"), "Is `max` meant?")
        self.item("Shape", "(do (shuffle ^STOCK))", "This isn't written as its place asks", "meant?")

    def test_a_plan_before_the_sheet(self) -> None:
        plan = "(plan (seats (script) (script)) (matches (0 0)) (turns 9))"
        self.check("Shape", f"^{plan}\n{SHEET.format('', '')}", "Sheet and plan are exchanged: the sheet stands first", "No list")
        self.check("Shape", f"; A plan.\n^{plan}", "A plan begins here, where a sheet is to stand", "exchanged")

    def test_a_sheet_in_the_place_of_the_plan(self) -> None:
        sheet = SHEET.format("", "(do (cycle reverse))")
        source = f"{sheet}\n{sheet}"
        said = " ".join(explanation(f"plan Shape {len(sheet) + 1}", source.encode(), ["play"]))
        self.assertIn("A sheet begins here, where the plan is to stand", said)

    def test_an_amount(self) -> None:
        told = "An amount is to stand here: a number from -1000000000 to 1000000000, a stored one as `(game sto N)`"
        for text in ("(do (set (game sto N) ^M))", "(do (inc (game sto N) (+ 1 ^M)))", "(do (if (< ^M 1) (cycle reverse)))"):
            self.item("Number", text, told)
        self.item("Number", "(do (all player 'P (set (game sto N) ^'P)))", "A variable stands for a player", "An amount")


class Mentions(unittest.TestCase):
    def test_lists_that_look_like_mentions(self) -> None:
        source = b"(a (game hloc S) ((current ; (x\n player) sto N) ((team of 'P) mem M) (x y z) (game hloc) ('P vloc H H)) ) (("
        self.assertEqual([str(it) for it in mentions(source)], ["(game hloc S)", "((current player) sto N)", "((team of 'P) mem M)"])
        self.assertEqual([it.owners() for it in mentions(source)], ["the game", "players", "teams"])


if __name__ == "__main__":
    unittest.main()
