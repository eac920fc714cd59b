"""The first fault of a sheet."""

from collections.abc import Iterator

from second.meanings import Meanings
from second.parts import Part, first_list
from second.setups import IN_ORDER
from second.shapes import KINDS, NUMBER_FAULT, SHAPE, Shapes
from second.worlds import MEM, VLOC

CURRENT_PLAYER = ["(", "current", "player"]
SEEN_OWNERS = (CURRENT_PLAYER, ["(", "team", "of", *CURRENT_PLAYER])

# The kind of the third round, and those of all.
UNSEEN = "Unseen"
FAULTS = (SHAPE, NUMBER_FAULT, *IN_ORDER, UNSEEN)


def sheet_fault(source: bytes) -> tuple[str, int] | None:
    """The kind and the place of the first fault of the sheet that a text begins with, whose lists end."""
    sheet = first_list(source)
    if not sheet:
        raise ValueError("the text begins with no list")
    if shapes := Shapes(sheet).faults:
        at, kind = min(shapes)
        return kind, at
    if meanings := Meanings(sheet).faults:
        at, _, kind = min(meanings)
        return kind, at
    return next(((UNSEEN, location.at) for location in looked_at(sheet) if not is_seen(location)), None)


def looked_at(part: Part) -> Iterator[Part]:
    """The locations of which choices ask more than their size, or than what the player knows there."""
    if part.head == "choice":
        for alternative in part.parts[1:]:
            yield from of_alternative(alternative)
    elif part.head in ("game", "stage"):
        for item in part.parts[2:]:
            yield from looked_at(item)


def of_alternative(part: Part) -> Iterator[Part]:
    if part.head in ("if", "any"):
        yield from locations(part.parts[1])
    if part.head == "any":
        yield from of_alternative(part.parts[3])


def locations(part: Part) -> Iterator[Part]:
    if is_location(part):
        yield part
    elif not (part.head in ("size", "known") and is_location(part.parts[1])):
        for it in part.parts:
            yield from locations(it)


def is_location(part: Part) -> bool:
    """Whether a list is a location. Of the other lists of three parts none has a plain name second."""
    return len(part.parts) == 3 and part.parts[1].text in KINDS and part.parts[2].is_name


def is_seen(location: Part) -> bool:
    """Whether the player who chooses sees it, by the way it is written."""
    holder, kind, _ = location.parts
    return kind.text in (VLOC, MEM) or kind.text == "iloc" and holder.words() in SEEN_OWNERS
