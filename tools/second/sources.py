"""The lists of a source."""

from typing import Union

from faults.tokens import rest_of, tokens

# An atom or a list.
Form = Union[str, tuple["Form", ...]]


def lists_of(source: bytes, wanted: int) -> tuple[list[Form], bytes]:
    """So many lists at the top, and what stands behind them."""
    rest = rest_of(source, wanted)
    open_lists: list[list[Form]] = [[]]
    for token in tokens(source[:rest]):
        if token.text == "(":
            open_lists.append([])
        elif token.text == ")":
            parts = tuple(open_lists.pop())
            open_lists[-1].append(parts)
        else:
            open_lists[-1].append(token.text)
    return open_lists[0], source[rest:]
