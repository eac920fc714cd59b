"""Locations that are read and never filled, or filled and never read, and numbers that are never set or never read."""

from collections.abc import Iterator

from linting.finding import Finding
from linting.names import SUSPECTED, nearest, suggestion
from linting.trees import Node
from linting.uses import Use, locations, numbers


def on_locations(sheet: Node) -> Iterator[Finding]:
    uses = locations(sheet)
    filled = [name for name, use in uses.items() if use.decks or use.given]
    read = [name for name, use in uses.items() if use.read]
    for name, use in uses.items():
        if name not in filled:
            done = "read" if use.read else "shuffled"
            said = f"`{name}` is {done} and never filled, so that it is always empty."
            yield at_name((use.read or use.idle)[0], said + suggestion(name, filled))
        elif name not in read and is_read_to_be(use, [it for other, it in uses.items() if other in read]):
            said = f"`{name}` is filled and never read, so that the cards there have no use."
            yield at_name((use.decks or use.given)[0], said + suggestion(name, read))


def is_read_to_be(use: Use, read: list[Use]) -> bool:
    """Whether it is a mistake that a location is filled and never read. Most often cards are only put away there, or laid down
    for all to see. But those that one player or one team is shown are there to be used, and so are those of a deck, where other
    cards are; a game of numbers alone has to have a deck too."""
    if (use.decks and read) or (use.kind == "iloc" and use.owners != "game"):
        return True
    alike = [it.name for it in read if (it.kind, it.owners) == (use.kind, use.owners)]
    return nearest(use.name, alike, SUSPECTED) is not None


def on_numbers(sheet: Node) -> Iterator[Finding]:
    uses = numbers(sheet)
    given = [name for name, use in uses.items() if use.given]
    read = [name for name, use in uses.items() if use.read]
    for name, use in uses.items():
        if not use.given:
            said = f"`{name}` is read and never set, so that it is always 0."
            yield at_name(use.read[0], said + suggestion(name, given))
        elif not use.read:
            said = f"`{name}` is set and never read, so that nothing comes of it."
            yield at_name(use.given[0], said + suggestion(name, read))


def at_name(mention: Node, said: str) -> Finding:
    return Finding(mention.parts[2].at, said)
