"""Lines, columns and pictures of places in a source."""

import re
from bisect import bisect_left
from dataclasses import dataclass

from telling import printable

# The widest picture of a line, and how much of the line stands at least before the caret.
WIDTH = 96
BEFORE = 60


@dataclass(frozen=True)
class Place:
    """A place in a text: its line and its column, counted from 1, whether the text ends there, and the file, if it has a name."""

    line: int
    column: int
    is_end: bool
    file: str = ""

    def __str__(self) -> str:
        if self.file:
            return f"{self.file}:{self.line}:{self.column}"
        return f"line {self.line}, column {self.column}" + (", where the text ends" if self.is_end else "")


def place_of(text: bytes, at: int) -> Place:
    """The place of a byte. Only LF ends a line, and every other byte before it, a tab too, is one column."""
    at = min(at, len(text))
    begin = text.rfind(b"\n", 0, at) + 1
    return Place(text.count(b"\n", 0, at) + 1, at - begin + 1, at == len(text))


class Lines:
    """Where the lines of a text end: for many places of one text, of which each would be counted from its begin."""

    def __init__(self, text: bytes) -> None:
        self.length = len(text)
        self.breaks = [it.start() for it in re.finditer(b"\n", text)]

    def place_of(self, at: int) -> Place:
        """The place of a byte, as `place_of` tells it."""
        at = min(at, self.length)
        before = bisect_left(self.breaks, at)
        return Place(before + 1, at - self.begin(before) + 1, at == self.length)

    def begin(self, line: int) -> int:
        """Where a line begins, which is counted from 0."""
        return self.breaks[line - 1] + 1 if line else 0


def line_at(text: bytes, at: int) -> bytes:
    """The line in which a byte stands, without its LF, and without a CR before that."""
    begin = text.rfind(b"\n", 0, at) + 1
    end = text.find(b"\n", at)
    return text[begin : len(text) if end < 0 else end].removesuffix(b"\r")


def shown(line: bytes) -> str:
    """The line in printable characters. A tab is one space wide, so that a column is a place in the picture."""
    return printable(line.replace(b"\t", b" ").decode("utf-8", "backslashreplace"))


def picture(line: bytes, column: int) -> list[str]:
    """The line and a caret below its column, with what is too far away cut off."""
    before, behind = shown(line[: column - 1]), shown(line[column - 1 :])
    if len(before) + len(behind) > WIDTH:
        kept = BEFORE if len(before) > BEFORE else len(before)
        before = before if kept == len(before) else ".. " + before[-kept:]
        room = WIDTH - len(before)
        behind = behind if len(behind) <= room else behind[:room] + " .."
    return [f"    {before}{behind}".rstrip(), f"    {' ' * len(before)}^"]
