"""References that are never forgotten, although it is asked whether there is one."""

from __future__ import annotations

from collections.abc import Iterator

from linting.finding import Finding
from linting.flows import REMEMBER, names, scoped
from linting.on_names import at_name
from linting.on_stages import STAGES
from linting.trees import Node
from linting.uses import is_location, name_of

FORGET, SIZE = "(forget CARD)", "(size COLL)"
COMPARED = ("(= SIDE SIDE)", "(!= SIDE SIDE)", "(< INT INT)", "(<= INT INT)", "(> INT INT)", "(>= INT INT)")


def on_references(sheet: Node) -> Iterator[Finding]:
    """On a `mem` in which something is remembered in a stage, so again and again, of which nothing is ever forgotten, and of which is
    asked whether it is empty: once it isn't, it never is again."""
    if any(it.is_list and not it.form for it in sheet.within()):
        return
    forgotten = set().union(*(names(node.parts[1], scope) for node, scope in scoped(sheet, {}) if node.form == FORGET))
    asked = set(asked_to_be_empty(sheet))
    told: set[str] = set()
    for mention in remembered_in_stages(sheet):
        name = name_of(mention)
        if name in asked and name not in forgotten | told:
            said = f"Nothing of `{name}` is ever forgotten, so that once something is remembered there it is never empty again."
            yield at_name(mention, said)
            told.add(name)


def remembered_in_stages(sheet: Node) -> Iterator[Node]:
    """The locations to which references go in stages, in the order of the text."""
    stages = [node for node in sheet.parts if node.form in STAGES]
    return (node.parts[2].parts[1] for stage in stages for node in stage.within() if node.form == REMEMBER)


def asked_to_be_empty(sheet: Node) -> Iterator[str]:
    """The locations whose size is compared with 0."""
    for node in sheet.within():
        if node.form in COMPARED and "0" in (part.text for part in node.parts[1:]):
            sizes = (part.parts[1] for part in node.parts[1:] if part.form == SIZE)
            yield from (name_of(it) for it in sizes if is_location(it))
