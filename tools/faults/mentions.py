"""Locations and stored numbers, as a source writes them."""

from __future__ import annotations

from collections.abc import Iterator
from dataclasses import dataclass

from faults.tokens import tokens

STORED = "sto"
KINDS = ("vloc", "iloc", "hloc", "mem", STORED)


@dataclass(frozen=True)
class Mention:
    """A list that is written as a location or a stored number: where it begins, and its parts."""

    at: int
    holder: str
    kind: str
    name: str

    def owners(self) -> str:
        """Whose it is, by the way the holder is written."""
        if self.holder == "game":
            return "the game"
        is_player = self.holder.startswith(("'", "(current player"))
        return "players" if is_player else "teams"

    def __str__(self) -> str:
        return f"({self.holder} {self.kind} {self.name})"


def mentions(source: bytes, at: int = 0) -> Iterator[Mention]:
    """The lists from a place on that are written so, in the order of the text."""
    stack: list[tuple[int, list[str]]] = []
    for token in tokens(source, at):
        if token.text == "(":
            stack.append((token.at, []))
        elif token.text != ")":
            if stack:
                stack[-1][1].append(token.text)
        elif stack:
            begin, parts = stack.pop()
            if len(parts) == 3 and parts[1] in KINDS:
                yield Mention(begin, *parts)
            if stack:
                stack[-1][1].append(f"({' '.join(parts)})")


def mention_at(source: bytes, at: int) -> Mention | None:
    """The one that begins at a place, if there is one."""
    first = next(mentions(source, at), None)
    return first if first and first.at == at else None
