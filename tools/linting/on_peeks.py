"""Peeks that show nothing, and locations of which nobody is shown what is asked."""

from collections.abc import Iterator

from linting.finding import Finding
from linting.names import suggestion
from linting.on_names import at_name
from linting.trees import Node
from linting.uses import locations, name_of

PEEK, KNOWN = "(peek COLL OWNER)", "(known LOC)"
FILTER, UNION = "(filter COLL 'V BOOL)", "(union COLL COLL+)"

SAID = "Whoever this `peek` names sees all of these cards without it, so that it shows nothing."


def on_peeks(sheet: Node) -> Iterator[Finding]:
    for node in sheet.within():
        if node.form == PEEK and not is_unclear(node) and all(is_seen(it, node.parts[2]) for it in sources(node.parts[1])):
            yield Finding(node.at, SAID)


def on_known(sheet: Node) -> Iterator[Finding]:
    """On a location that nobody sees and no peek shows. By the time of a peek the cards of a group may lie anywhere."""
    peeked = [source for node in sheet.within() if node.form == PEEK for source in sources(node.parts[1])]
    if is_unclear(sheet) or not all(it.is_list for it in peeked):
        return
    uses = locations(sheet)
    shown = dict.fromkeys(name_of(location_of(it)) for it in peeked)
    told: set[str] = set()
    for location in (node.parts[1] for node in sheet.within() if node.form == KNOWN):
        name, use = name_of(location), uses[name_of(location)]
        if is_hidden(location) and (use.decks or use.given) and name not in shown and name not in told:
            said = f"Nobody sees the cards of `{name}`, and no `peek` shows them, so that nobody knows one of them."
            yield at_name(location, said + suggestion(name, shown))
            told.add(name)


def sources(cards: Node) -> Iterator[Node]:
    """The parts of a collection from which its cards come: locations, what is known of one, and variables."""
    if cards.form == FILTER:
        yield from sources(cards.parts[1])
    elif cards.form == UNION:
        for part in cards.parts[1:]:
            yield from sources(part)
    else:
        yield cards


def location_of(source: Node) -> Node:
    return source.parts[1] if source.form == KNOWN else source


def is_unclear(node: Node) -> bool:
    """Whether some list of it has no form of its place, so that it may be anything."""
    return any(it.is_list and not it.form for it in node.within())


def is_hidden(location: Node) -> bool:
    """Whether nobody sees the cards there. Those of an `iloc` of any owner are seen by some player, who may be the current one."""
    holder, kind, _ = location.parts
    return kind.text == "hloc" or (kind.text == "iloc" and holder.text == "game")


def is_seen(source: Node, owner: Node) -> bool:
    """Whether an owner is sure to see all cards that come from there; of a group that is never sure."""
    if source.form == KNOWN and owner.form == "(current player)":
        return True
    if not source.is_list:
        return False
    holder, kind, _ = location_of(source).parts
    return kind.text in ("vloc", "mem") or (kind.text == "iloc" and is_of(holder, owner))


def is_of(holder: Node, owner: Node) -> bool:
    """Whether what a holder has is sure to be an owner's own, or that of a player's team."""
    own = words(owner)
    return words(holder) in (own, ["(", "team", "of", *own])


def words(node: Node) -> list[str]:
    return [it.text for it in node.within()]
