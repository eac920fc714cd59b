"""Where a `)` is likely missing, or one too many, by how the lines of a text are indented."""

from __future__ import annotations

from collections.abc import Iterator
from dataclasses import dataclass

from faults.tokens import Token, tokens

# Before a line a tab leads to the next column that is a multiple of this; inside of one it's one column wide.
TAB = 8

# A text with fewer lines for each doubt isn't indented.
LINES_A_DOUBT = 5

# The parts of a sheet and of a plan, which are sometimes written as far left as these themselves.
PARTS = ("setup", "do", "stage", "choice", "scoring", "seats", "matches", "turns")


@dataclass(frozen=True)
class Doubt:
    """A line that begins elsewhere than the lists before it say.

    `at` is where a `)` is missing at the latest, or where the one stands that is too many. `since` is where the list begins that
    it is to end, or that it ends too early, and `line` is where the line begins, or the length of the text. `missing` is how many
    are missing: 0 where one is too many.
    """

    at: int
    since: int
    line: int
    missing: int


@dataclass
class Nest:
    """A list: where it begins, in which column, and whether a line begins with it. `last` is the list that ended in it as its last
    part so far, and `begun` the one that ended and with which its last line began."""

    at: int
    column: int
    begins_line: bool
    last: "Ended | None" = None
    begun: "Ended | None" = None


@dataclass(frozen=True)
class Ended:
    """A list that has ended, and by which `)`."""

    nest: Nest
    by: int


class Reading:
    """The lists of a text, token by token. Where a line begins elsewhere than they say, that is a doubt, and from there on the lists
    are as the line says; so each `)` that is missing or too many is told once."""

    def __init__(self, text: bytes, begin: int) -> None:
        self.text = text
        self.end = begin
        self.column = 0
        self.around = Nest(begin, -1, False)
        self.open: list[Nest] = []
        self.lines = 0
        self.doubts: list[Doubt] = []

    def inner(self) -> Nest:
        """The innermost list that is open, or what is around all lists."""
        return self.open[-1] if self.open else self.around

    def take(self, token: Token, head: str) -> None:
        """Reads a token, where a `(` comes with the word behind it."""
        _, feed, gap = self.text[self.end : token.at].rpartition(b"\n")
        begins_line = bool(feed) or not self.lines
        column = len(gap.expandtabs(TAB)) if begins_line else self.column + len(gap)
        if token.text == ")":
            self.close(token.at)
        else:
            if begins_line:
                self.compare(token, column, head)
            self.inner().last = None
        if token.text == "(":
            self.open.append(Nest(token.at, column, begins_line))
        self.end, self.column = token.at + len(token.text), column + len(token.text)

    def close(self, at: int) -> None:
        if self.open:
            ended = Ended(self.open.pop(), at)
            self.inner().last = ended
            if ended.nest.begins_line:
                self.inner().begun = ended

    def compare(self, token: Token, column: int, head: str) -> None:
        """Compares where a line begins with the lists that are open, and with those that ended last."""
        self.lines += 1
        if ended := self.end_lists(column, head):
            self.doubts.append(Doubt(self.end, ended[0].at, token.at, len(ended)))
        elif opened := self.open_again(column, head):
            self.doubts.append(Doubt(opened[0].by, opened[0].nest.at, token.at, 0))
        self.inner().begun = None

    def end_lists(self, column: int, head: str) -> list[Nest]:
        """Ends the lists in which no line stands in this column, and returns them, the innermost first."""
        ended = []
        while self.open and not self.is_inside(column, head):
            ended.append(self.open.pop())
        return ended

    def is_inside(self, column: int, head: str) -> bool:
        """Whether a line in this column stands in the list that is open."""
        around = self.open[-1].column
        return around < column or (around == column and len(self.open) == 1 and head in PARTS)

    def open_again(self, column: int, head: str) -> list[Ended]:
        """Opens the lists again into which a line in this column is written, and returns them, the outermost first."""
        opened = []
        while ended := self.meant_around(column, head):
            opened.append(ended)
            self.open.append(ended.nest)
        return opened

    def meant_around(self, column: int, head: str) -> Ended | None:
        """A list that ended in the one that is open and into which a line in this column is written, if there is one."""
        limit = column + 1 if not self.open and head in PARTS else column
        candidates = (it for it in (self.inner().last, self.inner().begun) if it)
        return next((it for it in candidates if it.nest.column < limit), None)

    def finish(self) -> None:
        """Lists that are open where the text ends are a doubt too."""
        if self.open:
            self.doubts.append(Doubt(self.end, self.open[-1].at, len(self.text), len(self.open)))


def with_heads(text: bytes, begin: int) -> Iterator[tuple[Token, str]]:
    """The tokens from a place on, a `(` with the word behind it."""
    behind = Token("", len(text))
    found = [*tokens(text, begin), behind]
    for token, after in zip(found, found[1:]):
        yield token, after.text if token.text == "(" else ""


def doubts_on(text: bytes, begin: int = 0) -> list[Doubt]:
    """The doubts on a sheet, and on a plan behind it, from a place on, in the order of the text; none where it isn't indented."""
    reading = Reading(text, begin)
    is_plan = False
    for token, head in with_heads(text, begin):
        reading.take(token, head)
        is_plan = is_plan or (head == "plan" and len(reading.open) == 1)
        if not reading.open and (is_plan or token.text not in "()"):
            break
    reading.finish()
    is_indented = len(reading.doubts) * LINES_A_DOUBT <= reading.lines
    return reading.doubts if is_indented else []
