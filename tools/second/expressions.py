"""What expressions mean: functions of a state and of what the variables around stand for, from outside to inside."""

from __future__ import annotations

import operator
from collections.abc import Callable
from typing import Any, NamedTuple, Union

from second.sources import Form
from second.worlds import GAME, MEM, MOST_CARDS, PLAYER, State, World, clamped

CARD, GROUP = "card", "group"


class Noted(NamedTuple):
    """A reference that was read in a location. A card itself is its number."""

    place: int
    card: int


Card = Union[int, Noted]
Bound = tuple[Any, ...]
Scope = dict[str, tuple[int, str]]
Meaning = Callable[[State, Bound], Any]

ORDERS = {"<": operator.lt, "<=": operator.le, ">": operator.gt, ">=": operator.ge, "=": operator.eq, "!=": operator.ne}
SUMS = {"+": operator.add, "-": operator.sub, "*": operator.mul}
OF_CARD = ("top", "bottom", "max", "min")
OF_OWNER = ("current", "team")


def bound_by(scope: Scope, name: str, sort: str) -> Scope:
    return {**scope, name: (len(scope), sort)}


def number_of(card: Card) -> int:
    """The number of a card, or of the one that is meant."""
    return card if isinstance(card, int) else card.card


class Expressions(World):
    """The meanings of a sheet's expressions."""

    # Owners and locations

    def owner(self, form: Form, scope: Scope) -> Meaning:
        if form == GAME:
            return lambda state, bound: 0
        if isinstance(form, str):
            at = scope[form][0]
            return lambda state, bound: bound[at]
        if form[0] == "current":
            return lambda state, bound: state.innermost(form[1]).member
        player, team_of = self.owner(form[2], scope), self.team_of
        return lambda state, bound: team_of[player(state, bound)]

    def location(self, form: Form, scope: Scope) -> Meaning:
        first, owner = self.place_of(form), self.owner(form[0], scope)
        return lambda state, bound: first + owner(state, bound)

    def stored(self, form: Form, scope: Scope) -> Meaning:
        first, owner = self.number_of(form), self.owner(form[0], scope)
        return lambda state, bound: first + owner(state, bound)

    # Collections and cards

    def collection(self, form: Form, scope: Scope) -> Meaning:
        if isinstance(form, str):
            at = scope[form][0]
            return lambda state, bound: bound[at]
        if form[0] == "filter":
            cards, test = self.collection(form[1], scope), self.test(form[3], bound_by(scope, form[2], CARD))
            return lambda state, bound: [card for card in cards(state, bound) if test(state, (*bound, card))]
        if form[0] == "union":
            parts = [self.collection(part, scope) for part in form[1:]]
            return lambda state, bound: [card for part in parts for card in part(state, bound)][:MOST_CARDS]
        if form[0] == "known":
            return self.known(form[1], scope)
        place = self.location(form, scope)
        return self.references(place) if form[1] == MEM else lambda state, bound: state.cards[place(state, bound)][:MOST_CARDS]

    def known(self, form: Form, scope: Scope) -> Meaning:
        """What the current player knows of a location. Of a `mem` everybody knows all."""
        if form[1] == MEM:
            return self.collection(form, scope)
        place = self.location(form, scope)

        def read(state: State, bound: Bound) -> list[Card]:
            at, seat = place(state, bound), state.innermost(PLAYER).member
            return [card for card in state.cards[at] if self.knows(state, seat, card, self.places[at])][:MOST_CARDS]

        return read

    def references(self, place: Meaning) -> Meaning:
        def read(state: State, bound: Bound) -> list[Card]:
            at = place(state, bound)
            return [Noted(at, card) for card in state.cards[at]]

        return read

    def card(self, form: Form, scope: Scope) -> Meaning:
        if isinstance(form, str):
            at = scope[form][0]
            return lambda state, bound: bound[at]
        cards = self.collection(form[1], scope)
        if form[0] in ("max", "min"):
            worths, sign = self.worths[form[3]], 1 if form[0] == "max" else -1
            return lambda state, bound: max(cards(state, bound), key=lambda card: sign * worths[number_of(card)], default=None)
        at = -1 if form[0] == "top" else 0

        def end(state: State, bound: Bound) -> Card | None:
            found = cards(state, bound)
            return found[at] if found else None

        return end

    def of_card(self, form: Form, scope: Scope, what: list, default: Any = None) -> Meaning:
        """What a list has of a card."""
        card = self.card(form, scope)

        def read(state: State, bound: Bound) -> Any:
            found = card(state, bound)
            return default if found is None else what[number_of(found)]

        return read

    # Amounts

    def amount(self, form: Form, scope: Scope) -> Meaning:
        if isinstance(form, str):
            number = int(form)
            return lambda state, bound: number
        head = form[0]
        if head == "size":
            cards = self.collection(form[1], scope)
            return lambda state, bound: len(cards(state, bound))
        if head == "sum":
            cards, worths = self.collection(form[1], scope), self.worths[form[3]]
            return lambda state, bound: clamped(sum(worths[number_of(card)] for card in cards(state, bound)))
        if head == "points":
            return self.of_card(form[1], scope, self.worths[form[3]], 0)
        if head in SUMS:
            one, other, joined = self.amount(form[1], scope), self.amount(form[2], scope), SUMS[head]
            return lambda state, bound: clamped(joined(one(state, bound), other(state, bound)))
        at = self.stored(form, scope)
        return lambda state, bound: state.numbers[at(state, bound)]

    # Tests

    def test(self, form: Form, scope: Scope) -> Meaning:
        head = form[0]
        if head in ORDERS:
            one, other, order = self.side(form[1], scope), self.side(form[2], scope), ORDERS[head]
            return lambda state, bound: order(one(state, bound), other(state, bound))
        if head == "is":
            value, wanted = self.side(("attr", form[1], form[2]), scope), form[3]
            return lambda state, bound: value(state, bound) == wanted
        if head == "not":
            test = self.test(form[1], scope)
            return lambda state, bound: not test(state, bound)
        fold = all if head in ("and", "all") else any
        if head in ("and", "or"):
            parts = [self.test(part, scope) for part in form[1:]]
            return lambda state, bound: fold(part(state, bound) for part in parts)
        sort, members = self.members(form[1], scope)
        test = self.test(form[3], bound_by(scope, form[2], sort))
        return lambda state, bound: fold(test(state, (*bound, member)) for member in members(state, bound))

    def members(self, form: Form, scope: Scope) -> tuple[str, Meaning]:
        """What a variable runs over, and its sort."""
        if form == PLAYER:
            players = range(self.players)
            return PLAYER, lambda state, bound: players
        return CARD, self.collection(form, scope)

    def side(self, form: Form, scope: Scope) -> Meaning:
        """A side of an equality. Cards are told by their looks."""
        if form in scope and scope[form][1] == PLAYER or form[0] in OF_OWNER and isinstance(form, tuple):
            return self.owner(form, scope)
        if form in scope or form[0] in OF_CARD:
            return self.of_card(form, scope, self.looks)
        if form[0] == "attr":
            return self.of_card(form[1], scope, [its.get(form[2]) for its in self.values])
        return self.amount(form, scope)
