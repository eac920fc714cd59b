"""Items, the steps from stop to stop, and what comes of a match."""

from __future__ import annotations

from collections.abc import Callable, Iterator
from dataclasses import dataclass
from itertools import islice
from typing import Any, NamedTuple, Union

from second.effects import Effects
from second.expressions import GROUP, Bound, Meaning, Scope, bound_by, number_of
from second.sources import Form
from second.worlds import PLAYER, Frame, State

MOST_ITEMS = 256
SELF = "'SELF"


class Item(NamedTuple):
    """What an item does if it is chosen, what its variables stand for, and the sorts of these, from outside to inside."""

    effects: Meaning
    bound: Bound
    sorts: tuple[str, ...]


Offers = Callable[[State, Bound], Iterator[Item]]


@dataclass(frozen=True)
class Do:
    effects: Meaning


@dataclass(frozen=True)
class Stage:
    number: int
    owner: str
    end: Meaning
    body: tuple


@dataclass(frozen=True)
class Round:
    """Stands where a round of a stage may begin."""

    stage: Stage


@dataclass(frozen=True)
class Turn:
    """Stands behind a round."""

    stage: Stage


@dataclass(frozen=True)
class Choice:
    site: int
    alternatives: tuple[Offers, ...]


@dataclass(frozen=True)
class Decision:
    seat: int
    site: int
    menu: list[Item]


# A decision, or how a match ended.
Stop = Union[Decision, str]
DONE, LIMIT = "done", "limit"


def before(items: tuple, left: tuple | None) -> tuple | None:
    """The chain of items before what is left."""
    for item in reversed(items):
        left = (item, left)
    return left


class Machine(Effects):
    """Plays a sheet. It notes what was asked of playouts, match by match."""

    def __init__(self, sheet: Form) -> None:
        _, (_, *setup), *items, (_, best, score) = sheet
        super().__init__(tuple(setup))
        self.stages = self.sites = 0
        self.asks: list[tuple] = []
        self.items = tuple(self.item(item) for item in items)
        self.sign = 1 if best == "max" else -1
        self.score = self.amount(score, bound_by({}, SELF, PLAYER))

    # What items stand for

    def item(self, form: Form) -> Any:
        if form[0] == "do":
            return Do(self.effects(form[1:], {}))
        if form[0] == "stage":
            number, self.stages = self.stages, self.stages + 1
            return Stage(number, form[1], self.test(form[2][1], {}), tuple(self.item(it) for it in form[3:]))
        site, self.sites = self.sites, self.sites + 1
        return Choice(site, tuple(self.alternative(it, {}) for it in form[1:]))

    def alternative(self, form: Form, scope: Scope) -> Offers:
        if form[0] == "any":
            return self.any(form, scope)
        test = self.test(form[1], scope) if form[0] == "if" else lambda state, bound: True
        effects = self.effects(form[2:] if form[0] == "if" else form[1:], scope)
        sorts = tuple(sort for _, sort in scope.values())

        def offer(state: State, bound: Bound) -> Iterator[Item]:
            if test(state, bound):
                yield Item(effects, bound, sorts)

        return offer

    def any(self, form: Form, scope: Scope) -> Offers:
        sort, members = self.domain(form[1], scope)
        inner = self.alternative(form[3], bound_by(scope, form[2], sort))

        def offer(state: State, bound: Bound) -> Iterator[Item]:
            for member in members(state, bound):
                yield from inner(state, (*bound, member))

        return offer

    def domain(self, form: Form, scope: Scope) -> tuple[str, Meaning]:
        if form[0] != "partition":
            return self.members(form, scope)
        cards, values = self.collection(form[1], scope), [its.get(form[2]) for its in self.values]

        def groups(state: State, bound: Bound) -> list[list]:
            found: dict[str, list] = {}
            for card in cards(state, bound):
                if value := values[number_of(card)]:
                    found.setdefault(value, []).append(card)
            return list(found.values())

        return GROUP, groups

    # Steps

    def start(self) -> State:
        state = self.opening()
        state.left = before(self.items, None)
        return state

    def advance(self, state: State, turns: int) -> Stop:
        """Goes on to the next decision or to the end."""
        while state.left:
            first, rest = state.left
            if isinstance(first, Round) or isinstance(first, Choice):
                stop = self.round(state, first, rest, turns) if isinstance(first, Round) else self.decision(state, first, turns)
                if stop:
                    return stop
            elif isinstance(first, Stage):
                around = state.innermost(first.owner)
                state.frames.append(Frame(first.number, first.owner, around.member if around else 0))
                state.left = (Round(first), rest)
            else:
                state.left = rest
                self.next_member(state.frames[-1]) if isinstance(first, Turn) else first.effects(state, ())
        return DONE

    def round(self, state: State, first: Round, rest: tuple | None, turns: int) -> Stop | None:
        """Closes the stage, or begins a round of it where the limit allows."""
        if first.stage.end(state, ()):
            state.frames.pop()
            state.left = rest
        elif state.turn == turns:
            return LIMIT
        else:
            state.turn += 1
            state.left = before(first.stage.body, (Turn(first.stage), state.left))
        return None

    def decision(self, state: State, first: Choice, turns: int) -> Stop | None:
        """The decision of a choice, if its menu has an item and the limit allows."""
        offers = (item for offer in first.alternatives for item in offer(state, ()))
        menu = list(islice(offers, MOST_ITEMS))
        if not menu:
            state.left = state.left[1]
            return None
        return LIMIT if state.turn == turns else Decision(state.innermost(PLAYER).member, first.site, menu)

    def next_member(self, frame: Frame) -> None:
        beside = (frame.member + (-1 if frame.is_back else 1)) % self.counts[frame.owner]
        frame.member, frame.named = beside if frame.named is None else frame.named, None

    def apply(self, state: State, decision: Decision, item: int) -> None:
        """Does what an item of the menu does."""
        chosen = decision.menu[item]
        state.turn += 1
        state.made[decision.seat] += 1
        state.left = state.left[1]
        chosen.effects(state, chosen.bound)

    # Ends

    def scores(self, state: State) -> list[int]:
        return [self.score(state, (player,)) for player in range(self.players)]

    def rank_points(self, scores: list[int]) -> list[int]:
        """Two points for each player of another team that did worse, and one for each of one that did equally well."""
        sums = [self.sign * sum(scores[player] for player in team) for team in self.teams]

        def gain(team: int, other: int) -> int:
            return len(self.teams[other]) * (2 * (sums[other] < sums[team]) + (sums[other] == sums[team]))

        return [sum(gain(team, other) for other in range(len(self.teams)) if other != team) for team in self.team_of]
