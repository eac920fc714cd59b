"""Point maps that leave out one value, have one twice, or are used where no card has points by them."""

from __future__ import annotations

from collections.abc import Iterator

from linting.finding import Finding
from linting.flows import Flows
from linting.on_values import ENTRY, Values, values_of
from linting.trees import Node

MAP = "(put points MAP (ENTRY+))"
DECK = "(create deck LOC (deck GROUP+))"
USING = ("(sum COLL using MAP)", "(points CARD using MAP)", "(max COLL using MAP)", "(min COLL using MAP)")

# How many values an attribute has at least of which one that lacks is told.
FEWEST = 3


def on_maps(sheet: Node) -> Iterator[Finding]:
    maps = [node for node in sheet.parts[1].parts if node.form == MAP]
    values = values_of(sheet)
    for node in maps:
        yield from on_lacking(node, values)
        yield from on_twice(node)
    if all(it.form or not it.is_list for it in sheet.within()):
        yield from on_uses(sheet, maps)


def entries(node: Node) -> Iterator[tuple[str, Node]]:
    """The attribute and the value of each entry of a map, one for each value."""
    for entry in node.parts[3].parts:
        if entry.form == ENTRY:
            yield from ((entry.parts[0].text, value) for value in entry.parts[1].parts)


def on_lacking(node: Node, values: Values) -> Iterator[Finding]:
    """On the one value of an attribute that stands in no entry, where the others of the decks do."""
    pairs = list(entries(node))
    for attribute in dict.fromkeys(attribute for attribute, _ in pairs):
        known = values.get(attribute, {})
        told = {value.text for name, value in pairs if name == attribute}
        lacking = [value for value in known if value not in told]
        if len(lacking) == 1 and len(known) >= FEWEST:
            said = f"`{node.parts[2].text}` has no entry for `{lacking[0]}` of `{attribute}`, and one for each other value."
            yield Finding(node.parts[2].at, said)


def on_twice(node: Node) -> Iterator[Finding]:
    """On values that stand twice."""
    name = node.parts[2].text
    told: dict[tuple[str, str], Node] = {}
    for entry in node.parts[3].parts:
        for value in entry.parts[1].parts if entry.form == ENTRY else ():
            key = (entry.parts[0].text, value.text)
            if key in told and told[key] is entry:
                yield Finding(value.at, f"`{key[1]}` stands twice in this entry of `{name}`, and counts once.")
            elif key in told:
                said = f"`{key[1]}` of `{key[0]}` has an entry of `{name}` before, and such a card is worth both together."
                yield Finding(value.at, said)
            told[key] = entry


def on_uses(sheet: Node, maps: list[Node]) -> Iterator[Finding]:
    """On uses of a map for cards of which none has points by it."""
    flows = Flows(sheet)
    decks = [values_of(node) for node in sheet.parts[1].parts if node.form == DECK]
    pairs = {node.parts[2].text: list(entries(node)) for node in maps}
    for node, places in flows.places_in(USING):
        name = node.parts[3]
        reaching = [decks[at] for at in set().union(*(flows.decks.get(place, set()) for place in places))]
        found = pairs.get(name.text)
        if found and reaching and not any(has(deck, found) for deck in reaching):
            yield Finding(name.at, f"No card that may lie there has points by `{name.text}`.")


def has(deck: Values, pairs: list[tuple[str, Node]]) -> bool:
    """Whether a deck has a card that meets one of these entries."""
    return any(value.text in deck.get(attribute, {}) for attribute, value in pairs)
