"""Sheets that play as a given one does and tell more: which alternative a choice was, how the scores stand, what is offered, which
tests hold, and the last table.

Nothing of a play is computed here. A derived sheet is text, which the program plays; whoever uses it asks that its choices, sizes and
scores are those of the sheet itself.

- A *closing stage* before the scoring has one decision more, at which a log shows the table as it stands at the end.
- *Running scores* are stored numbers that are set to what the scoring says, before each choice.
- *Tags* are cards that lie open at places of their own. Each alternative first goes over such a place, which has one card. So it
  has the same items in the same order, and the first mark of an item tells its alternative.
- *Offers* are stored numbers, one for each alternative. Before each choice they tell whether the alternative has an item in its menu.
- *Held tests* are stored numbers, one for each `if` among effects. They tell whether its test held so far.
"""

from __future__ import annotations

from collections.abc import Iterator
from dataclasses import dataclass, field
from enum import Enum

from linting.trees import Node
from replays.sources import ANY, PARTITION, TEST, Sheet


# The most items of a menu.
MENU = 256


class Piece(Enum):
    """What is put into a sheet, with the name that it has there."""

    CLOSING = "CLOSED"
    SCORES = "SCORE-NOW"
    TAGS = "ALTERNATIVE"
    OFFERS = "OFFERED"
    TESTS = "HELD"


@dataclass(frozen=True)
class Derived:
    """A derived sheet, and the names that it has more, by what they are for."""

    text: bytes
    names: dict[Piece, str]


@dataclass
class Edits:
    """Texts that are put into a text. Of several at one place those that close a list come first."""

    put: list[tuple[int, bool, str]] = field(default_factory=list)

    def before(self, at: int, piece: str) -> None:
        self.put.append((at, True, piece))

    def behind(self, at: int, piece: str) -> None:
        self.put.append((at, False, piece))

    def done(self, text: bytes) -> bytes:
        parts, last = [], 0
        for at, _, piece in sorted(self.put, key=lambda it: it[:2]):
            parts += [text[last:at], piece.encode("latin-1")]
            last = at
        return b"".join([*parts, text[last:]])


def derived(sheet: Sheet, *pieces: Piece) -> Derived:
    """The sheet with these pieces put in."""
    names = {piece: sheet.fresh(piece.value) for piece in pieces}
    edits = Edits()
    noted = ""
    if name := names.get(Piece.SCORES):
        noted = f"(do (all player 'SELF (set ('SELF sto {name}) {sheet.source(sheet.scoring.parts[2])})))\n"
    for site, choice in enumerate(sheet.choices):
        offers = offers_of(sheet, site, names[Piece.OFFERS]) if Piece.OFFERS in names else ""
        edits.before(choice.at, noted + offers)
    if name := names.get(Piece.TAGS):
        put_tags(edits, sheet, name)
    if name := names.get(Piece.TESTS):
        for at, test in enumerate(sheet.tests):
            edits.behind(sheet.ends[test.parts[1].at], f" (set (game sto {name}{at}) 1)")
    if name := names.get(Piece.CLOSING):
        closed = f"(game sto {name})"
        edits.before(sheet.scoring.at, f"(stage player (end (= {closed} 1)) {noted}(choice (do (set {closed} 1))))\n")
    return Derived(edits.done(sheet.text), names)


def put_tags(edits: Edits, sheet: Sheet, name: str) -> None:
    """Has each alternative go over the card of its number. The cards come behind all others, so that face numbers stay."""
    for choice in sheet.choices:
        for at, alternative in enumerate(choice.parts[1:]):
            edits.before(alternative.at, f"(any (game vloc {name}{at}) '{name} ")
            edits.behind(sheet.ends[alternative.at], ")")
    most = max((len(it.parts) - 1 for it in sheet.choices), default=0)
    decks = (f"\n(create deck (game vloc {name}{at}) (deck ({name} ({at}))))" for at in range(most))
    edits.before(sheet.ends[sheet.tree.parts[1].at] - 1, "".join(decks))


def offer_name(name: str, site: int, alternative: int) -> str:
    return f"{name}{site}-{alternative}"


def offers_of(sheet: Sheet, site: int, name: str) -> str:
    """What notes, before a choice, which of its alternatives have an item, and counts these in the number of this name. As the menu
    does, it looks for no item once there are as many as a menu has. So it takes no longer than the menu itself."""
    items = f"(game sto {name})"
    effects = [f"(set {items} 0)"]
    for at, alternative in enumerate(sheet.choices[site].parts[1:]):
        number = f"(game sto {offer_name(name, site, at)})"
        is_open = f"(< {items} {MENU})"
        # How many groups there are no effect counts: of their items it looks for the first.
        goes_on = f"(= {number} 0)" if has_groups(alternative) else is_open
        found = offered(sheet, alternative, goes_on, f"(set {number} 1) (inc {items} 1)")
        effects += [f"(set {number} 0)", f"(if {is_open} {found})"] if found else []
    return f"(do {' '.join(effects)})\n" if len(effects) > 1 else ""


def has_groups(node: Node) -> bool:
    """Whether a variable of an alternative stands for a group."""
    return node.form == ANY and (node.parts[1].form == PARTITION or has_groups(node.parts[3]))


def offered(sheet: Sheet, node: Node, goes_on: str, noted: str) -> str:
    """An effect that does what notes an item for those of an alternative, as long as a test says so; nothing where no effect can.

    No effect goes over the groups of a partition. There is one where there is a card, and only a test could ask more of it.
    """
    if node.form == TEST:
        return f"(if {sheet.source(node.parts[1])} {noted})"
    if node.form != ANY:
        return noted
    _, domain, variable, inner = node.parts
    if domain.form == PARTITION:
        if any(it.text == variable.text for asked in asked_by(inner) for it in asked.within()):
            return ""
        domain = domain.parts[1]
    found = offered(sheet, inner, goes_on, noted)
    return found and f"(all {sheet.source(domain)} {variable.text} (if {goes_on} {found}))"


def asked_by(node: Node) -> Iterator[Node]:
    """The domains and the test of an alternative, which decide whether it has an item."""
    while node.form == ANY:
        yield node.parts[1]
        node = node.parts[3]
    if node.form == TEST:
        yield node.parts[1]
