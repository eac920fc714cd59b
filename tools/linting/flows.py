"""From which decks cards may come to each location."""

from __future__ import annotations

from collections.abc import Iterator

from faults.forms import parts_of
from linting.trees import Node
from linting.uses import DECK, is_location, name_of

MOVE, MOVE_ALL, REMEMBER = "(move CARD SPOT)", "(move all COLL SPOT)", "(remember CARD SPOT)"

# The locations from which the card, or the group, of a variable may come.
Scope = dict[str, set[str]]


class Flows:
    """The numbers of the decks whose cards may come to each location, by the names of locations. A list of unknown form isn't looked
    into."""

    def __init__(self, sheet: Node) -> None:
        self.scoped = list(scoped(sheet, {}))
        self.decks: dict[str, set[int]] = {}
        decks = [node for node in sheet.parts[1].parts if node.form == DECK]
        for number, deck in enumerate(decks):
            self.decks.setdefault(name_of(deck.parts[2]), set()).add(number)
        moves = list(self.moves())
        is_more = True
        while is_more:
            is_more = any([self.add(places, to) for places, to in moves])

    def moves(self) -> Iterator[tuple[set[str], str]]:
        """From where to where cards, or references to them, go."""
        for node, scope in self.scoped:
            if node.form in (MOVE, REMEMBER, MOVE_ALL):
                *_, cards, spot = node.parts
                yield names(cards, scope), name_of(spot.parts[1])

    def add(self, places: set[str], to: str) -> bool:
        """Has the decks of these places reach one more, and says whether some of them are new there."""
        there = self.decks.setdefault(to, set())
        count = len(there)
        there.update(*(self.decks.get(place, set()) for place in places))
        return len(there) > count

    def places_in(self, forms: tuple[str, ...]) -> Iterator[tuple[Node, set[str]]]:
        """The lists of these forms, each with the locations from which the cards come that are its second part."""
        return ((node, names(node.parts[1], scope)) for node, scope in self.scoped if node.form in forms)


def scoped(node: Node, scope: Scope) -> Iterator[tuple[Node, Scope]]:
    """All lists, each with the variables that are bound around it."""
    if not node.is_list:
        return
    yield node, scope
    inner = scope
    if parts_of(node.form)[2:3] == ["'V"]:
        inner = {**scope, node.parts[2].text: names(node.parts[1], scope)}
    for number, part in enumerate(node.parts):
        yield from scoped(part, inner if number > 2 else scope)


def names(node: Node, scope: Scope) -> set[str]:
    """The locations that are named in a part, and those from which the cards of its variables come."""
    found = {name_of(it) for it in node.within() if is_location(it)}
    return found.union(*(scope.get(it.text, set()) for it in node.within()))
