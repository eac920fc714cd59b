"""Decks by chance."""

from collections.abc import Iterable, Iterator
from dataclasses import dataclass
from math import prod

from agreeing.chance import Chance
from agreeing.forms import Form

ATTRIBUTES = ("RANK", "SUIT", "COLOUR", "SHAPE", "max", "attr")
VALUES = ("A", "2", "3", "4", "5", "6", "7", "8", "9", "10", "J", "Q", "K", "RED", "BLUE", "top", "-", "007", "=", "player", "v" * 64)
DIFFERENT = 10


@dataclass(frozen=True)
class Group:
    """An attribute, and its values with the groups that each of them has."""

    attribute: str
    branches: tuple[tuple[str, tuple["Group", ...]], ...]

    def form(self) -> Form:
        return self.attribute, tuple((value, *(it.form() for it in inner)) if inner else value for value, inner in self.branches)

    def all_within(self) -> Iterator["Group"]:
        """This group and those inside it."""
        yield self
        for _, inner in self.branches:
            for group in inner:
                yield from group.all_within()


def cards_of(groups: Iterable[Group]) -> int:
    """How many cards groups beside each other give."""
    return prod(sum(cards_of(inner) for _, inner in group.branches) for group in groups)


def deck_of(chance: Chance, most: int) -> tuple[Group, ...]:
    """A deck of so many cards at most, and seldom of much fewer."""
    while True:
        groups = groups_of(chance, list(ATTRIBUTES), 3)
        cards = cards_of(groups)
        if cards <= most and (2 * cards >= most or chance.holds(0.03)):
            return groups


def groups_of(chance: Chance, attributes: list[str], most: int) -> tuple[Group, ...]:
    """Groups beside each other, which take what they use out of these attributes."""
    groups = []
    for _ in range(chance.randint(1, most)):
        if attributes:
            attribute = attributes.pop(0 if chance.holds(0.5) else chance.randrange(len(attributes)))
            groups.append(group_of(chance, attribute, attributes, most - 2))
    return tuple(groups)


def group_of(chance: Chance, attribute: str, attributes: list[str], most: int) -> Group:
    """A group in which some values have groups. Different values may use the same attributes."""
    branches = []
    used: set[str] = set()
    for value in values_of(chance, attribute):
        inner: tuple[Group, ...] = ()
        if most > 0 and attributes and chance.holds(0.07):
            left = list(attributes)
            inner = groups_of(chance, left, most)
            used |= {*attributes} - {*left}
        branches.append((value, inner))
    attributes[:] = [it for it in attributes if it not in used]
    return Group(attribute, tuple(branches))


def values_of(chance: Chance, attribute: str) -> list[str]:
    """Values of an attribute, seldom one of them twice."""
    first = sum(map(ord, attribute)) % (len(VALUES) - DIFFERENT)
    values = chance.some(VALUES[first : first + DIFFERENT], 1, DIFFERENT if attribute == "RANK" else 4)
    return [*values, chance.choice(values)] if chance.holds(0.15) else values
