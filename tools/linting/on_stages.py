"""Stages whose end doesn't hang on what happens in them."""

from collections.abc import Iterator

from linting.finding import Finding
from linting.trees import Node
from linting.uses import SETTING, SHUFFLE, is_location, is_number, name_of

STAGES = ("(stage player (end BOOL) ITEM+)", "(stage team (end BOOL) ITEM+)")
CURRENT = ("(current player)", "(current team)", "(known LOC)")

MOVES = ("(move CARD SPOT)", "(move all COLL SPOT)", "(forget CARD)", SHUFFLE)
REMEMBER = "(remember CARD SPOT)"

# The lists whose variable stands for cards in what follows.
CARDS = ("(any DOMAIN 'V ALT)", "(all COLL 'V EFFECT+)")

SAID = "The end of this stage reads nothing that its items change, so that it has no round, or goes on to the turn limit."

# The places from which the card or the group of a variable may come.
Sources = dict[str, set[str]]


def on_stages(sheet: Node) -> Iterator[Finding]:
    for stage in sheet.within():
        if stage.form not in STAGES or any(node.is_list and not node.form for node in stage.within()):
            continue
        end = stage.parts[2]
        if not is_of_round(end) and not read_in(end) & changed_in(stage.parts[3:]):
            yield Finding(end.at, SAID)


def is_of_round(end: Node) -> bool:
    """Whether a test asks for the current member, who is another one in each round."""
    return any(node.form in CURRENT for node in end.within())


def read_in(test: Node) -> set[str]:
    """The locations and the stored numbers that a test reads."""
    return {key_of(node) for node in test.within() if is_location(node) or is_number(node)}


def key_of(mention: Node) -> str:
    """One word for a name, whose locations and stored numbers are different things."""
    return f"{'number' if is_number(mention) else 'location'} {name_of(mention)}"


def changed_in(items: tuple[Node, ...]) -> set[str]:
    """The locations and the stored numbers that items may change."""
    return set().union(*(changes(item, {}) for item in items))


def changes(node: Node, sources: Sources) -> set[str]:
    """What a part of an item may change, where its variables stand for cards from these places."""
    if node.form in MOVES:
        return touched(node, sources)
    if node.form == REMEMBER:
        return touched(node.parts[2], sources)
    if node.form in SETTING:
        return {key_of(node.parts[1])}
    if node.form in CARDS:
        sources = {**sources, node.parts[2].text: touched(node.parts[1], sources)}
    return set().union(*(changes(part, sources) for part in node.parts))


def touched(node: Node, sources: Sources) -> set[str]:
    """The locations that are named in a part, and those of the cards for which its variables stand."""
    named = {key_of(it) for it in node.within() if is_location(it)}
    return named.union(*(sources.get(it.text, set()) for it in node.within()))
