"""Parts of a source: what stands at a place, what belongs there, and what stands around it."""

from dataclasses import dataclass
from functools import cached_property
from itertools import islice, takewhile

from faults.forms import forms_of, forms_with, meant_behind
from faults.tokens import Token, lists_around, tokens, word_at


@dataclass(frozen=True)
class Enclosing:
    """A list around a place: where it begins, how it may be written by its own place and its head, and its parts before the
    place."""

    begin: int
    forms: list[str]
    before: list[Token]


@dataclass(frozen=True)
class Part:
    """What stands at a place of a sheet or of a plan, as far as the text before it tells."""

    what: str
    source: bytes
    at: int

    @cached_property
    def word(self) -> str:
        """The atom, or `(` for a list; nothing where the source ends."""
        return word_at(self.source, self.at) if self.at < len(self.source) else ""

    @cached_property
    def words(self) -> list[str]:
        """What the list begins with, `(` for a list, and the atom behind that; nothing for an atom."""
        behind = islice(tokens(self.source, self.at + 1), 2) if self.word == "(" else []
        words = list(takewhile(lambda text: text != ")", (token.text for token in behind)))
        return words[:1] if words[:1] == ["("] else words

    @property
    def head(self) -> str:
        """What the list begins with, `(` for a list; nothing for an atom and for an empty list."""
        return self.words[0] if self.words else ""

    @cached_property
    def around(self) -> list[Enclosing]:
        """The lists around the place, the innermost last."""
        found: list[Enclosing] = []
        meant = [self.what.upper()]
        lists = lists_around(self.source, self.at)
        for depth, (begin, parts) in enumerate(lists, 1):
            head = self.word if depth == len(lists) else "("
            words = [token.text for token in parts]
            found.append(Enclosing(begin, forms_with(words or [head], meant), parts))
            meant = meant_behind(words, found[-1].forms)
        return found

    @cached_property
    def meant(self) -> list[str]:
        """What belongs here."""
        if not self.around:
            return [self.what.upper()]
        near = self.around[-1]
        return [it for it in meant_behind([token.text for token in near.before], near.forms) if it != self.word]

    @cached_property
    def forms(self) -> list[str]:
        """How the list that stands here may be written, by its first words."""
        return forms_with(self.words, self.meant) if self.word == "(" else []

    def is_in(self, form: str) -> bool:
        """Whether the list right around this part is written so."""
        return bool(self.around) and form in self.around[-1].forms

    def is_head_unknown(self) -> bool:
        """Whether a list begins with a word with which none does that may stand here, although some may."""
        return self.head[:1] not in ("", "(", "'") and not self.forms and any(list(forms_of(it)) for it in self.meant)
