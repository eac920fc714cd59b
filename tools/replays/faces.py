"""How cards look: suits and ranks where a game has the ordinary ones, and else the words of their faces and a colour."""

from __future__ import annotations

import re
from dataclasses import asdict, dataclass

from replays.texts import Face

SUITS = {"CLUBS": "♣", "DIAMONDS": "♦", "HEARTS": "♥", "SPADES": "♠"}
SPELLED = {**{it[0]: it for it in SUITS}, **{it[:-1]: it for it in SUITS}, **{it: it for it in SUITS}}
RANKS = {"ACE": "A", "JACK": "J", "QUEEN": "Q", "KING": "K", "KNIGHT": "Kn", "KNAVE": "J", "TEN": "10", "T": "10"}
COLOURS = {
    "RED": "red", "BLUE": "blue", "GREEN": "green", "YELLOW": "yellow", "ORANGE": "orange", "PURPLE": "purple", "VIOLET": "purple",
    "PINK": "pink", "BROWN": "brown", "BLACK": "black", "WHITE": "white", "GREY": "grey", "GRAY": "grey", "TEAL": "teal",
    "CYAN": "teal",
}  # fmt: skip
# The colours of values that name none, told apart also by who sees few colours.
PALETTE = ["blue", "orange", "green", "purple", "red", "teal", "yellow", "brown"]


@dataclass(frozen=True)
class Look:
    """The sign in the corner, the sign below it, a further line, the colour, and the whole in words."""

    big: str
    small: str
    more: str
    colour: str
    said: str
    is_suited: bool = False


def looks(faces: list[Face]) -> list[dict[str, object]]:
    """How each face looks, with its attributes and values."""
    return [asdict(it) | {"pairs": face} for it, face in zip(Looks(faces).all(), faces)]


class Looks:
    """The looks of the faces of one game, which are looked at together."""

    def __init__(self, faces: list[Face]) -> None:
        self.faces = faces
        self.values: dict[str, list[str]] = {}
        for attribute, value in (pair for face in faces for pair in face):
            known = self.values.setdefault(attribute, [])
            if value not in known:
                known.append(value)
        self.suit = next((it for it in self.values if self.is_suit(it)), "")
        self.tint = self.suit or self.tinting()
        self.index = self.indexing()

    def is_suit(self, attribute: str) -> bool:
        """Whether the values of an attribute are French suits. One value alone is none: `CLUBS` is an Italian suit too."""
        spelled = [SPELLED.get(it.upper()) for it in self.values[attribute]]
        return None not in spelled and 2 <= len(set(spelled)) == len(spelled)

    def tinting(self) -> str:
        """The attribute by which cards are coloured: one whose values are colours; else the one with fewest values, 2 to 8."""
        coloured = [it for it, known in self.values.items() if all(value.upper() in COLOURS for value in known)]
        if coloured:
            return coloured[0]
        few = [it for it, known in self.values.items() if 2 <= len(known) <= len(PALETTE) and self.is_common(it)]
        return min(few, key=lambda it: len(self.values[it]), default="")

    def is_common(self, attribute: str) -> bool:
        """Whether most cards have an attribute."""
        return 2 * sum(any(it == attribute for it, _ in face) for face in self.faces) > len(self.faces)

    def indexing(self) -> str:
        """The attribute in the corner: one of numbers and ranks; else the one with most values that isn't the colour's."""
        left = [it for it in self.values if it != self.tint] or list(self.values)

        def rank(attribute: str) -> tuple[int, int]:
            known = self.values[attribute]
            short = sum(len(self.short(it)) <= 2 for it in known)
            return int(2 * short > len(known)), len(known)

        return max(left, key=rank, default="")

    @staticmethod
    def short(value: str) -> str:
        return RANKS.get(value.upper(), value)

    def all(self) -> list[Look]:
        return [self.look(face) for face in self.faces]

    def look(self, face: Face) -> Look:
        pairs = dict(face)
        said = self.said(pairs)
        tint = pairs.get(self.tint, "")
        rest = [(attribute, value) for attribute, value in face if attribute not in (self.index, self.tint)]
        if self.suit and tint:
            name = SPELLED[tint.upper()]
            rest = [it for it in rest if it[1].upper() not in COLOURS]
            big = self.short(pairs.get(self.index, "")) if self.index != self.suit else ""
            shade = "suit-red" if name in ("HEARTS", "DIAMONDS") else "suit-black"
            return Look(big, SUITS[name], self.tidy(rest), shade, said, True)
        colour = COLOURS.get(tint.upper()) or (PALETTE[self.values[self.tint].index(tint) % len(PALETTE)] if tint else "plain")
        big = self.short(pairs.get(self.index, "") or next((value for _, value in rest), tint))
        small = tint if tint != big else ""
        return Look(readable(big), readable(small), self.tidy([it for it in rest if it[1] != big]), colour, said)

    def tidy(self, pairs: list[tuple[str, str]]) -> str:
        """A line of values. A number has its attribute before it."""
        told = (f"{readable(attribute)} {value}" if value.isdigit() else readable(value) for attribute, value in pairs)
        return " · ".join(told)

    def said(self, pairs: dict[str, str]) -> str:
        """A face in words, as a screen reader is to say it."""
        if self.suit and self.suit in pairs and self.index in pairs:
            others = [value for attribute, value in pairs.items() if attribute not in (self.suit, self.index)]
            rank = pairs[self.index]
            front = f"{rank.lower() if len(rank) > 2 else rank} of {pairs[self.suit].lower()}"
            return ", ".join([front, *(readable(it).lower() for it in others)])
        return " ".join(readable(it) for it in pairs.values()) or "blank card"


def readable(word: str) -> str:
    """A word of a sheet as people write it: `KING-OF-ELVES` as `King of elves`; one or two letters and numbers stay."""
    if len(word) <= 2 or not re.search("[A-Z]{2}", word):
        return word
    return re.sub(r"[-_]+", " ", word).capitalize()
