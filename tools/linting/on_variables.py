"""Variables that aren't used where they stand for something."""

from collections.abc import Iterator

from faults.forms import forms_of, parts_of
from linting.finding import Finding
from linting.trees import Node
from linting.uses import is_number

# What comes of a list whose variable isn't used.
SAME = {
    "(filter COLL 'V BOOL)": "either all cards are kept or none",
    "(any DOMAIN 'V ALT)": "all items that it gives are alike",
    "(all player 'V EFFECT+)": "the effects come to the same each time",
    "(all COLL 'V EFFECT+)": "the effects come to the same each time",
}
TEST = "the test is the same for each"
CURRENT = "the effects are those of the current player each time"

# Effects that come to more the more often they are done.
ADDING = (
    "(move CARD SPOT)",
    "(move all COLL SPOT)",
    "(remember CARD SPOT)",
    "(forget CARD)",
    "(inc NUM INT)",
    "(dec NUM INT)",
    "(cycle reverse)",
)


def on_variables(sheet: Node) -> Iterator[Finding]:
    for node in sheet.within():
        if parts_of(node.form)[2:3] != ["'V"]:
            continue
        variable, body = node.parts[2], node.parts[3:]
        if any(it.text == variable.text for part in body for it in part.within()) or is_switch(node):
            continue
        come = what_comes(node)
        if come:
            yield Finding(variable.at, f"`{variable.text}` isn't used behind this place, so that {come}.")


def what_comes(node: Node) -> str:
    """What comes of a list whose variable isn't used; nothing where that may be meant."""
    effects = [it for part in node.parts[3:] for it in part.within()] if node.form.endswith("EFFECT+)") else []
    if node.parts[1].text == "player" and any(it.form == "(current player)" for it in effects):
        return CURRENT
    return "" if any(is_adding(it) for it in effects) else SAME.get(node.form, TEST)


def is_switch(node: Node) -> bool:
    """Whether a filter asks no card at all, as where the cards of who is out aren't to count. An amount has no other switch."""
    cards = tuple(forms_of("CARD"))
    is_filter = node.form == "(filter COLL 'V BOOL)"
    return is_filter and not any(it.place == "CARD" or it.form in cards for it in node.parts[3].within())


def is_adding(node: Node) -> bool:
    """Whether it may be meant to do an effect once for each member, whoever that is, since it comes to more each time."""
    is_other = node.form == "(set NUM INT)" and any(is_number(it) for it in node.parts[2].within())
    return node.form in ADDING or is_other or (node.is_list and not node.form)
