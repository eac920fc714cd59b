"""How many steps a call takes: its own calls and returns, and those of all that it calls, which are the same in each run."""

import sys
from collections.abc import Callable
from unittest.mock import patch

import inputs


def steps_of(call: Callable[[], object]) -> int:
    """The steps of a call, made once before so that what is kept from then on is made by none of them."""
    call()
    count = 0

    def step(*_: object) -> None:
        nonlocal count
        count += 1

    before = sys.getprofile()
    sys.setprofile(step)
    try:
        call()
    finally:
        sys.setprofile(before)
    return count


def bytes_of(call: Callable[[], object]) -> int:
    """How many bytes of files a call reads."""
    sizes = []
    read = inputs.front

    def front(name: str, most: int) -> bytes:
        data = read(name, most)
        sizes.append(len(data))
        return data

    with patch("inputs.front", front):
        call()
    return sum(sizes)


def is_linear(counts: list[int], share: float = 0.05) -> bool:
    """Whether counts at three sizes, each twice the one before, grow no faster than the sizes, but for a small share."""
    one, two, four = counts
    return 0 < four - two <= 2 * (two - one) * (1 + share)
