"""The parts of a sheet with the places where they begin, for what refuses it."""

from collections.abc import Iterator
from dataclasses import dataclass

from faults.tokens import tokens


@dataclass(frozen=True)
class Part:
    """An atom, or a list of parts, and where it begins. The text of a list is `(`."""

    text: str
    at: int
    parts: tuple["Part", ...] = ()

    @property
    def is_list(self) -> bool:
        return self.text == "("

    @property
    def is_variable(self) -> bool:
        return self.text.startswith("'")

    @property
    def is_name(self) -> bool:
        """Whether it is a plain atom."""
        return not self.is_list and not self.is_variable

    @property
    def head(self) -> str:
        """What the list begins with."""
        return self.parts[0].text if self.parts else ""

    def words(self) -> list[str]:
        """What is written, in tokens without the closing ones."""
        return [self.text, *(word for part in self.parts for word in part.words())]


def top_lists(source: bytes) -> Iterator[Part]:
    """The lists of a text that stand in no other, as far as they end and nothing else stands between them."""
    open_lists: list[tuple[int, list[Part]]] = []
    for token in tokens(source):
        if token.text == "(":
            open_lists.append((token.at, []))
        elif not open_lists:
            return
        elif token.text == ")":
            begin, parts = open_lists.pop()
            whole = Part("(", begin, tuple(parts))
            if open_lists:
                open_lists[-1][1].append(whole)
            else:
                yield whole
        else:
            open_lists[-1][1].append(Part(token.text, token.at))


def first_list(source: bytes) -> Part | None:
    """The first list of a text, if it ends."""
    return next(top_lists(source), None)
