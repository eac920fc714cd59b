"""The lists of a source, as far as the place of a fault needs them."""

import re
from collections.abc import Iterator
from dataclasses import dataclass

GAP = re.compile(rb"(?:[ \t\r\n,]|;[^\n]*)*")
TOKEN = re.compile(rb"[()]|[^ \t\r\n,();]+")


@dataclass(frozen=True)
class Token:
    """A parenthesis or an atom, and where it begins."""

    text: str
    at: int


def tokens(source: bytes, at: int = 0) -> Iterator[Token]:
    """The tokens from a place on. Bytes that no text may have are taken as parts of atoms."""
    while True:
        at = gap_end(source, at)
        found = TOKEN.match(source, at)
        if not found:
            return
        yield Token(found[0].decode("latin-1"), at)
        at = found.end()


def gap_end(source: bytes, at: int) -> int:
    """Where white space and comments end."""
    found = GAP.match(source, at)
    return found.end() if found else at


def end_of(source: bytes, lists: int, at: int = 0) -> int:
    """Where so many lists from a place on end that stand in no other of them; else the length of the source."""
    depth = complete = 0
    for token in tokens(source, at):
        depth += {"(": 1, ")": -1}.get(token.text, 0)
        complete += token.text == ")" and depth == 0
        if complete == lists:
            return token.at + 1
    return len(source)


def rest_of(source: bytes, lists: int) -> int:
    """Where so many lists end, and white space and comments behind them."""
    return gap_end(source, end_of(source, lists))


def lists_around(source: bytes, at: int) -> list[tuple[int, list[Token]]]:
    """Where the lists begin that are open at a place, the innermost last, each with its parts before the place: atoms, and `(` for
    a list."""
    around: list[tuple[int, list[Token]]] = []
    for token in tokens(source):
        if token.at >= at:
            break
        if token.text == "(":
            around.append((token.at, []))
        elif around:
            part = Token("(", around.pop()[0]) if token.text == ")" else token
            if around:
                around[-1][1].append(part)
    return around


def word_at(source: bytes, at: int) -> str:
    """The parenthesis or the atom at a place; nothing at the end of the source."""
    return next((token.text for token in tokens(source, at)), "")
