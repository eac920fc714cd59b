"""What a sheet does with its locations and its stored numbers."""

from collections.abc import Callable
from dataclasses import dataclass, field
from functools import cached_property

from faults.mentions import KINDS, STORED
from linting.trees import Node

LOC, NUM = "(HOLDER KIND NAME)", "(HOLDER sto NAME)"

DECK = "(create deck LOC (deck GROUP+))"
SPOTS = ("(top LOC)", "(bottom LOC)")
SHUFFLE = "(shuffle LOC)"
SETTING = ("(set NUM INT)", "(inc NUM INT)", "(dec NUM INT)")


@dataclass
class Use:
    """The mentions of the locations, or of the stored numbers, of one name, in the order of the text: those where a deck begins,
    those that are filled or set, those that are read, and the idle ones, which only shuffle, or read a number to set it anew."""

    name: str
    decks: list[Node] = field(default_factory=list)
    given: list[Node] = field(default_factory=list)
    read: list[Node] = field(default_factory=list)
    idle: list[Node] = field(default_factory=list)

    @cached_property
    def first(self) -> Node:
        return min(self.decks + self.given + self.read + self.idle, key=lambda it: it.at)

    @property
    def kind(self) -> str:
        return self.first.parts[1].text

    @property
    def owners(self) -> str:
        """Whose it is, by the way the holder is written."""
        holder = self.first.parts[0]
        if holder.text == "game":
            return "game"
        is_team = holder.is_list and [part.text for part in holder.parts[:2]] != ["current", "player"]
        return "team" if is_team else "player"


def is_mention(node: Node) -> bool:
    """Whether a list is written as a location or as a stored number, in its place or where its form isn't known."""
    is_written_so = len(node.parts) == 3 and node.parts[1].text in KINDS and not node.parts[2].is_list
    return is_written_so and node.form in (LOC, NUM, "")


def is_location(node: Node) -> bool:
    return is_mention(node) and node.parts[1].text != STORED


def is_number(node: Node) -> bool:
    return is_mention(node) and node.parts[1].text == STORED


def name_of(mention: Node) -> str:
    return mention.parts[2].text


def mentions(sheet: Node, is_meant: Callable[[Node], bool]) -> list[tuple[Node, Node]]:
    """The mentions of locations, or of stored numbers, in the order of the text, each behind the list in which it stands."""
    found = [(parent, part) for parent in sheet.within() for part in parent.parts if is_meant(part)]
    return sorted(found, key=lambda it: it[1].at)


def locations(sheet: Node) -> dict[str, Use]:
    """The uses of all locations. What is done in a list that has no form isn't known, and may be anything."""
    uses: dict[str, Use] = {}
    for parent, node in mentions(sheet, is_location):
        use = uses.setdefault(name_of(node), Use(name_of(node)))
        if parent.form == DECK:
            use.decks.append(node)
        elif parent.form == SHUFFLE:
            use.idle.append(node)
        elif parent.form in SPOTS and parent.place == "SPOT":
            use.given.append(node)
        else:
            use.read.append(node)
            use.given += [] if node.form else [node]
    return uses


def numbers(sheet: Node) -> dict[str, Use]:
    """The uses of all stored numbers. Who reads a number only to set it anew doesn't use it."""
    uses: dict[str, Use] = {}
    own = reads_of_itself(sheet)
    for parent, node in mentions(sheet, is_number):
        use = uses.setdefault(name_of(node), Use(name_of(node)))
        if parent.form in SETTING and node.place == "NUM":
            use.given.append(node)
        elif node.at in own:
            use.idle.append(node)
        else:
            use.read.append(node)
            use.given += [] if node.form else [node]
    return uses


def reads_of_itself(sheet: Node) -> set[int]:
    """Where numbers are mentioned in amounts to which numbers of their own name are set."""
    settings = [node for node in sheet.within() if node.form in SETTING and is_number(node.parts[1])]
    return {
        it.at
        for node in settings
        for it in node.parts[2].within()
        if is_number(it) and name_of(it) == name_of(node.parts[1])
    }
