"""What effects do to a state."""

from __future__ import annotations

from second.expressions import Bound, Card, Expressions, Meaning, Noted, Scope, bound_by, number_of
from second.sources import Form
from second.worlds import MEM, MOST_CARDS, NOBODY, PLAYER, State, clamped

MOST_REFERENCES = 1024
MOST_TIMES = 1000


def add(cards: list[int], card: int, end: str) -> None:
    """Puts a card on top or at the bottom."""
    cards.insert(len(cards) if end == "top" else 0, card)


def move(state: State, card: Card | None, to: int, end: str) -> None:
    """Moves a card that isn't a reference. Nobody goes on seeing it by a peek."""
    if isinstance(card, int):
        state.cards[state.where[card]].remove(card)
        state.where[card], state.marks[card] = to, NOBODY
        add(state.cards[to], card, end)


class Effects(Expressions):
    """The meanings of a sheet's effects."""

    def effects(self, forms: tuple[Form, ...], scope: Scope) -> Meaning:
        parts = [self.effect(form, scope) for form in forms]

        def run(state: State, bound: Bound) -> None:
            for part in parts:
                part(state, bound)

        return run

    def effect(self, form: Form, scope: Scope) -> Meaning:
        head, *_ = form
        if head == "move" and form[1] == "all":
            return self.move_all(form, scope)
        one_by_one = {
            "move": self.move, "remember": self.remember, "forget": self.forget, "shuffle": self.shuffle, "set": self.change,
            "inc": self.change, "dec": self.change, "if": self.when, "repeat": self.repeat, "all": self.each, "cycle": self.cycle,
            "peek": self.peek,
        }  # fmt: skip
        return one_by_one[head](form, scope)

    def move(self, form: Form, scope: Scope) -> Meaning:
        card, end, to = self.card(form[1], scope), form[2][0], self.location(form[2][1], scope)
        return lambda state, bound: move(state, card(state, bound), to(state, bound), end)

    def move_all(self, form: Form, scope: Scope) -> Meaning:
        cards, end, to = self.collection(form[2], scope), form[3][0], self.location(form[3][1], scope)

        def run(state: State, bound: Bound) -> None:
            for card in list(cards(state, bound)):
                move(state, card, to(state, bound), end)

        return run

    def remember(self, form: Form, scope: Scope) -> Meaning:
        card, end, to = self.card(form[1], scope), form[2][0], self.location(form[2][1], scope)

        def run(state: State, bound: Bound) -> None:
            found, references = card(state, bound), state.cards[to(state, bound)]
            in_all = sum(len(state.cards[at]) for at, place in enumerate(self.places) if place.kind == MEM)
            if found is not None and len(references) < MOST_CARDS and in_all < MOST_REFERENCES:
                add(references, number_of(found), end)

        return run

    def forget(self, form: Form, scope: Scope) -> Meaning:
        card = self.card(form[1], scope)

        def run(state: State, bound: Bound) -> None:
            found = card(state, bound)
            if isinstance(found, Noted):
                looks = [self.looks[it] for it in state.cards[found.place]]
                if self.looks[found.card] in looks:
                    del state.cards[found.place][len(looks) - 1 - looks[::-1].index(self.looks[found.card])]

        return run

    def shuffle(self, form: Form, scope: Scope) -> Meaning:
        at = self.location(form[1], scope)

        def run(state: State, bound: Bound) -> None:
            cards = state.cards[at(state, bound)]
            for card in cards:
                state.marks[card] = NOBODY
            state.shuffle(state, cards)
            state.shuffles += 1

        return run

    def peek(self, form: Form, scope: Scope) -> Meaning:
        cards, owner, is_player = self.collection(form[1], scope), self.owner(form[2], scope), self.class_of(form[2]) == PLAYER

        def run(state: State, bound: Bound) -> None:
            named = owner(state, bound)
            seats = [named] if is_player else self.teams[named]
            for card in cards(state, bound):
                if isinstance(card, int):
                    place = self.places[state.where[card]]
                    state.marks[card] |= {seat for seat in seats if not self.sees(seat, place)}

        return run

    def change(self, form: Form, scope: Scope) -> Meaning:
        head, at, amount = form[0], self.stored(form[1], scope), self.amount(form[2], scope)
        kept, sign = 0 if head == "set" else 1, -1 if head == "dec" else 1

        def run(state: State, bound: Bound) -> None:
            number = at(state, bound)
            state.numbers[number] = clamped(kept * state.numbers[number] + sign * amount(state, bound))

        return run

    def when(self, form: Form, scope: Scope) -> Meaning:
        test, effects = self.test(form[1], scope), self.effects(form[2:], scope)
        return lambda state, bound: effects(state, bound) if test(state, bound) else None

    def repeat(self, form: Form, scope: Scope) -> Meaning:
        amount, effects = self.amount(form[1], scope), self.effects(form[2:], scope)

        def run(state: State, bound: Bound) -> None:
            for _ in range(min(MOST_TIMES, amount(state, bound))):
                effects(state, bound)

        return run

    def each(self, form: Form, scope: Scope) -> Meaning:
        sort, members = self.members(form[1], scope)
        effects = self.effects(form[3:], bound_by(scope, form[2], sort))

        def run(state: State, bound: Bound) -> None:
            for member in list(members(state, bound)):
                effects(state, (*bound, member))

        return run

    def cycle(self, form: Form, scope: Scope) -> Meaning:
        if form[1] == "reverse":
            return lambda state, bound: setattr(state.frames[-1], "is_back", not state.frames[-1].is_back)
        owner, of_class = self.owner(form[2], scope), self.class_of(form[2])
        return lambda state, bound: setattr(state.innermost(of_class), "named", owner(state, bound))
