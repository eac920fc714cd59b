"""How texts of format 2 name cards, and what items bind."""

from __future__ import annotations

from second.expressions import GROUP, Card, number_of
from second.machine import Item
from second.worlds import PLAYER, World


def legend_of(world: World) -> list[str]:
    """A line for each face, by the number of the first card that has it."""
    return [" ".join(("face", str(card), *(word for pair in world.values[card].items() for word in pair))) for card in world.alike]


def marks_of(world: World, item: Item) -> list[str]:
    """A mark for each variable of an item, from outside to inside."""
    return [f"p{bound}" if sort == PLAYER else card_mark(world, sort, bound) for sort, bound in zip(item.sorts, item.bound)]


def card_mark(world: World, sort: str, bound: Card | list[Card]) -> str:
    """The mark of a card, or of a group by its first card."""
    if sort == GROUP:
        return f"g{world.looks[number_of(bound[0])]}"
    return f"c{world.looks[number_of(bound)]}"
