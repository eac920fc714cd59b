"""Attributes and values that are asked for and that no card has."""

from collections.abc import Iterator

from linting.finding import Finding
from linting.names import SUSPECTED, nearest, suggestion
from linting.trees import Node

GROUP, ENTRY = "(ATTR (BRANCH+))", "(ATTR (VALUE+) N)"

# The lists that ask for an attribute, which is their third part, and the one of these that asks for a value too.
IS = "(is CARD ATTR VALUE)"
ASKING = (IS, "(attr CARD ATTR)", "(partition COLL ATTR)")

# The attributes of all cards, each with its values in their order.
Values = dict[str, dict[str, None]]

# An attribute, and a value that it is said to have, or none.
Asked = tuple[str, str]


def on_values(sheet: Node) -> Iterator[Finding]:
    """The findings on tests and on point maps; none where what the cards are like can't be read."""
    if any(node.is_list and not node.form for node in sheet.parts[1].within()):
        return
    values = values_of(sheet)
    asked: set[Asked] = set()
    entered: set[Asked] = set()
    for node in sheet.within():
        for told, finding in [*on_question(node, values, asked), *on_entry(node, values, entered)]:
            if told not in asked:
                yield finding
            asked.add(told)


def values_of(sheet: Node) -> Values:
    """The attributes and the values that the decks of a sheet give."""
    values: Values = {}
    for group in sheet.within():
        if group.form == GROUP:
            values.setdefault(group.parts[0].text, {}).update(dict.fromkeys(names_of(group)))
    return values


def names_of(group: Node) -> list[str]:
    """The values that a group of a deck names."""
    return [(branch.parts[0] if branch.is_list else branch).text for branch in group.parts[1].parts]


def on_question(node: Node, values: Values, told: set[Asked]) -> Iterator[tuple[Asked, Finding]]:
    """On a list that asks a card for an attribute: what is asked and wasn't told, and what is told of it."""
    if node.form not in ASKING:
        return
    attribute = node.parts[2]
    if (attribute.text, "") in told or (node.form == IS and (attribute.text, node.parts[3].text) in told):
        return
    if attribute.text not in values:
        yield (attribute.text, ""), no_attribute(attribute, values)
    elif node.form == IS and node.parts[3].text not in values[attribute.text]:
        yield (attribute.text, node.parts[3].text), no_value(attribute.text, node.parts[3], values)


def on_entry(node: Node, values: Values, looked_at: set[Asked]) -> Iterator[tuple[Asked, Finding]]:
    """On an entry of a point map. It may name what no card of this deck has, so that it is a mistake only where the spelling, or
    the attribute of a value, says so. Each pair is looked at once."""
    if node.form != ENTRY:
        return
    attribute = node.parts[0]
    if attribute.text not in values:
        if (attribute.text, "") not in looked_at and nearest(attribute.text, values, SUSPECTED):
            yield (attribute.text, ""), no_attribute(attribute, values)
        looked_at.add((attribute.text, ""))
        return
    known = values[attribute.text]
    for value in node.parts[1].parts:
        if (attribute.text, value.text) in looked_at:
            continue
        looked_at.add((attribute.text, value.text))
        is_other = any(value.text in others for others in values.values())
        if value.text not in known and (is_other or nearest(value.text, known, SUSPECTED)):
            yield (attribute.text, value.text), no_value(attribute.text, value, values)


def no_attribute(attribute: Node, values: Values) -> Finding:
    said = f"No card has the attribute `{attribute.text}`."
    return Finding(attribute.at, said + suggestion(attribute.text, values))


def no_value(attribute: str, value: Node, values: Values) -> Finding:
    """On a value that no card has; it may be one of another attribute."""
    said = f"No card has the value `{value.text}` of `{attribute}`."
    others = [f"`{other}`" for other, known in values.items() if value.text in known]
    if others:
        return Finding(value.at, f"{said} It is a value of {' and '.join(others)}.")
    return Finding(value.at, said + suggestion(value.text, values[attribute]))
