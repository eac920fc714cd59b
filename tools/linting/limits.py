"""Sheets that name more than any sheet may. Names are compared each with each, so that these would take long for nothing."""

from collections.abc import Iterator

from linting.on_values import ASKING, ENTRY, GROUP, IS, names_of
from linting.trees import Node, Unreadable
from linting.uses import locations, numbers

MOST = 256


def refuse_many(sheet: Node) -> None:
    """Refuses a sheet with more names of a kind than `cardhouse` accepts."""
    attributes, values = set(attributes_in(sheet)), set(values_in(sheet))
    for what, names in (
        ("locations", locations(sheet)),
        ("stored numbers", numbers(sheet)),
        ("attributes", attributes),
        ("values", values),
    ):
        if len(names) > MOST:
            raise Unreadable(f"it names more than {MOST} {what}")


def attributes_in(sheet: Node) -> Iterator[str]:
    """The attributes that decks and point maps name, or that are asked for."""
    for node in sheet.within():
        if node.form in (GROUP, ENTRY):
            yield node.parts[0].text
        elif node.form in ASKING:
            yield node.parts[2].text


def values_in(sheet: Node) -> Iterator[str]:
    """The values that decks and point maps name, or that are asked for."""
    for node in sheet.within():
        if node.form == GROUP:
            yield from names_of(node)
        elif node.form == ENTRY:
            yield from (value.text for value in node.parts[1].parts)
        elif node.form == IS:
            yield node.parts[3].text
