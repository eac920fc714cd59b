"""The lists of a sheet, each with the form that it has in its place."""

from __future__ import annotations

from collections.abc import Iterator
from dataclasses import dataclass
from functools import cache

from faults.forms import forms_with, is_plural, parts_of
from faults.tokens import tokens

# How many lists may be open at one place.
DEEPEST = 64


class Unreadable(Exception):
    """The lists of a text can't be read as a sheet; the sentence says why."""


@dataclass(frozen=True)
class Node:
    """An atom, or a list of parts: where it begins, the place of the grammar in which it stands, and its form there.

    The text of a list is `(`. Where a list has no form of its place its form is empty, and so are the places of its parts.
    """

    text: str
    at: int
    parts: tuple[Node, ...] = ()
    place: str = ""
    form: str = ""

    @property
    def is_list(self) -> bool:
        return self.text == "("

    def within(self) -> Iterator[Node]:
        """This node and all below it, in the order of the text."""
        left = [self]
        while left:
            node = left.pop()
            yield node
            left += reversed(node.parts)


def read_sheet(source: bytes) -> Node:
    """The first list of a text, which is to be a sheet."""
    lists = read_lists(source)
    sheet = placed(lists[0], "SHEET") if lists else None
    if not sheet or not sheet.form:
        raise Unreadable("its first list isn't written `(game (setup LINE+) ITEM+ (scoring BEST INT))`")
    return sheet


def read_lists(source: bytes) -> list[Node]:
    """The lists of a text, without their forms."""
    stack: list[tuple[int, list[Node]]] = [(0, [])]
    for token in tokens(source):
        if token.text == "(":
            stack.append((token.at, []))
        elif len(stack) == 1:
            raise Unreadable(f"`{token.text}` stands outside of all lists")
        elif token.text == ")":
            begin, parts = stack.pop()
            stack[-1][1].append(Node("(", begin, tuple(parts)))
        else:
            stack[-1][1].append(Node(token.text, token.at))
        if len(stack) > DEEPEST + 1:
            raise Unreadable(f"more than {DEEPEST} lists are open at one place")
    if len(stack) > 1:
        raise Unreadable("a `)` is missing")
    return stack[0][1]


def placed(node: Node, place: str) -> Node:
    """The node in its place, with the forms of the lists below it."""
    if not node.is_list:
        return Node(node.text, node.at, place=place)
    count = len(node.parts)
    form = form_of(place, tuple(part.text for part in node.parts[:2]), count)
    places = places_of(form, count) or [""] * count
    parts = tuple(placed(part, inner) for part, inner in zip(node.parts, places))
    return Node(node.text, node.at, parts, place, form)


@cache
def form_of(place: str, words: tuple[str, ...], count: int) -> str:
    """The form of a list in this place that begins with these words and has so many parts; nothing where it has none."""
    forms = [form for form in forms_with(list(words), [place]) if places_of(form, count)]
    return forms[0] if len(forms) == 1 else ""


@cache
def places_of(form: str, count: int) -> list[str]:
    """The places of so many parts of a list of this form; none where it can't have so many."""
    parts = parts_of(form)
    many = next((place for place, part in enumerate(parts) if is_plural(part)), None)
    if many is None:
        return parts if count == len(parts) else []
    repeated = count - len(parts) + 1
    return parts[:many] + [parts[many].rstrip("+*")] * repeated + parts[many + 1 :] if repeated > 0 else []
