"""The first fault of a text's forms."""

import re

MOST_OPEN, LONGEST_ATOM = 64, 64

# What is passed between tokens, and the tokens: a parenthesis, or an atom of the bytes that it may have.
BETWEEN = re.compile(rb"(?:[ \t\r\n,]|;[^\n]*)*")
TOKEN = re.compile(rb"[()]|[!-'*+\--:<-~]+")

BAD_BYTE, STRAY, TOO_DEEP, ATOM_LONG, UNCLOSED = FORM_FAULTS = ("BadByte", "Stray", "TooDeep", "AtomLong", "Unclosed")


def form_fault(source: bytes, wanted: int) -> tuple[str, int] | None:
    """The kind and the place of the first fault of a text of which so many lists are read."""
    open_lists: list[int] = []
    at = lists = 0
    while lists < wanted:
        at = end_of(BETWEEN, source, at)
        if at == len(source):
            return (UNCLOSED, open_lists[-1]) if open_lists else None
        token = TOKEN.match(source, at)
        if fault := token_fault(token, len(open_lists)):
            return fault, at
        if source[at : at + 1] == b"(":
            open_lists.append(at)
        elif source[at : at + 1] == b")":
            open_lists.pop()
            lists += not open_lists
        at = end_of(TOKEN, source, at)
    return None


def token_fault(token: re.Match[bytes] | None, depth: int) -> str | None:
    """What is wrong with a token inside so many lists. None stands there where a byte begins none."""
    if not token:
        return BAD_BYTE
    if token[0] == b"(":
        return TOO_DEEP if depth == MOST_OPEN else None
    if depth == 0:
        return STRAY
    return ATOM_LONG if len(token[0]) > LONGEST_ATOM else None


def end_of(pattern: re.Pattern[bytes], source: bytes, at: int) -> int:
    found = pattern.match(source, at)
    return found.end() if found else at
