"""Names that are spelled alike."""

from __future__ import annotations

import re
from collections.abc import Iterable
from functools import lru_cache

# In how many letters two names may differ that are spelled alike.
FURTHEST = 2

# One letter in so many may differ: where a name is a mistake in any case, and where only its spelling makes it one.
SUGGESTED, SUSPECTED = 2, 3


def distance(one: str, other: str) -> int:
    """How many letters are changed, put in, left out, or exchanged with the one beside, to make one name of the other; where that are
    too many for names that are spelled alike, some number that is too large too."""
    above: list[int] = []
    before = list(range(len(other) + 1))
    for at, letter in enumerate(one, 1):
        row = [at]
        for place, beside in enumerate(other, 1):
            least = min(before[place] + 1, row[-1] + 1, before[place - 1] + (letter != beside))
            if above and place > 1 and one[at - 2] == beside and letter == other[place - 2]:
                least = min(least, above[place - 2] + 1)
            row.append(least)
        if min(row) > FURTHEST and min(before) > FURTHEST:
            return min(row)
        above, before = before, row
    return before[-1]


def are_comparable(one: str, other: str) -> bool:
    """Whether two names may be one, misspelled. Names that differ in digits alone are those of a series."""
    return abs(len(one) - len(other)) <= FURTHEST and without_digits(one) != without_digits(other)


@lru_cache(1024)
def without_digits(name: str) -> str:
    return re.sub("[0-9]+", "", name)


def nearest(name: str, others: Iterable[str], share: int = SUGGESTED) -> str | None:
    """The first of the names that are spelled most alike; none where each differs in more than one letter of so many."""
    found = [(distance(name, other), other) for other in others if are_comparable(name, other)]
    near = [it for it in found if it[0] <= min(FURTHEST, len(name) // share, len(it[1]) // share)]
    return min(near, key=lambda it: it[0])[1] if near else None


def suggestion(name: str, others: Iterable[str]) -> str:
    """A question behind a sentence on a name, where another one is spelled alike."""
    near = nearest(name, others)
    return f" Is `{near}` meant?" if near else ""
