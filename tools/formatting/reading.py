"""The lists of a text with the comments between them, and where lines begin."""

from __future__ import annotations

import re
from collections.abc import Iterator
from dataclasses import dataclass, field
from functools import cached_property

from faults.tokens import TOKEN
from linting.trees import DEEPEST, Unreadable

PIECE = re.compile(rb"[ \t\r,]+|\n|;[^\n]*|" + TOKEN.pattern)


@dataclass
class Part:
    """An atom, or a list, which has no text.

    `before` are the comments above it, each on a line of its own, and an empty text for an empty line. `behind` is the comment behind
    it in its last line. `begins_line` is whether it is the first in its line, and `last` are the comments behind the last part of a
    list, before its `)`.
    """

    at: int
    text: str = ""
    parts: list[Part] = field(default_factory=list)
    before: list[str] = field(default_factory=list)
    behind: str = ""
    last: list[str] = field(default_factory=list)
    begins_line: bool = False

    @property
    def is_list(self) -> bool:
        return not self.text

    @cached_property
    def is_open(self) -> bool:
        """Whether comments stand inside a list, or a part of it, or of a part, begins a line."""
        if any(self.last):
            return True
        return any(it.begins_line or any(it.before) or bool(it.behind) or it.is_open for it in self.parts)

    @cached_property
    def flat(self) -> str:
        """The part in one line, without comments."""
        return f"({' '.join(it.flat for it in self.parts)})" if self.is_list else self.text


class Reader:
    """Reads a text piece by piece. The part read last in a line takes a comment behind it."""

    def __init__(self) -> None:
        self.top = Part(0)
        self.open = [self.top]
        self.waiting: list[str] = []
        self.in_line: Part | None = None
        self.is_first, self.feeds = True, 0

    def take(self, piece: str, at: int) -> None:
        if piece == "\n":
            self.feeds += 1
            self.is_first, self.in_line = True, None
        elif piece[0] == ";":
            self.comment(piece.rstrip(" \t\r"))
        elif piece[0] not in " \t\r,":
            self.token(piece, at)

    def comment(self, text: str) -> None:
        if self.in_line is not None and not self.in_line.behind and not self.waiting:
            self.in_line.behind = text
        else:
            self.blank()
            self.waiting.append(text)
        self.feeds = 0

    def blank(self) -> None:
        """Keeps one of several empty lines."""
        if self.feeds > 1 and (self.open[-1].parts or self.waiting):
            self.waiting.append("")

    def token(self, text: str, at: int) -> None:
        if text == ")":
            self.close()
        else:
            self.blank()
            self.add(Part(at, "" if text == "(" else text, before=self.waiting, begins_line=self.is_first), text == "(")
        self.is_first, self.feeds = False, 0

    def add(self, part: Part, is_list: bool) -> None:
        if len(self.open) == 1 and not is_list:
            raise Unreadable(f"`{part.text}` stands outside of all lists")
        self.open[-1].parts.append(part)
        self.waiting, self.in_line = [], part
        if is_list:
            self.open.append(part)
            self.in_line = None
        if len(self.open) > DEEPEST + 1:
            raise Unreadable(f"more than {DEEPEST} lists are open at one place")

    def close(self) -> None:
        if len(self.open) == 1:
            raise Unreadable("`)` stands outside of all lists")
        ended = self.open.pop()
        ended.last, self.waiting, self.in_line = self.waiting, [], ended
        raise_comment(ended)


def raise_comment(ended: Part) -> None:
    """A comment behind the last part of a list, in its line, stands behind the `)` of the list, which follows it."""
    if ended.parts and not ended.last and ended.parts[-1].behind:
        ended.behind, ended.parts[-1].behind = ended.parts[-1].behind, ""


def read(text: bytes) -> Part:
    """The lists of a text as the parts of one, whose last comments stand behind all of them."""
    reader = Reader()
    for piece in PIECE.finditer(text):
        reader.take(piece[0].decode("latin-1"), piece.start())
    if len(reader.open) > 1:
        raise Unreadable("a `)` is missing")
    reader.top.last = reader.waiting
    return reader.top


def comments_of(text: bytes) -> Iterator[str]:
    """All comments of a text."""
    pieces = (piece[0] for piece in PIECE.finditer(text))
    return (piece.rstrip(b" \t\r").decode("latin-1") for piece in pieces if piece.startswith(b";"))
