"""The words of keys by ChaCha with eight rounds, and what is drawn by them."""

import struct
from collections.abc import Iterator
from itertools import count

# Four numbers of 64 bits.
Key = tuple[int, int, int, int]

FULL = 0xFFFFFFFF
HEAD = struct.unpack("<4I", b"expand 32-byte k")
COLUMNS = ((0, 4, 8, 12), (1, 5, 9, 13), (2, 6, 10, 14), (3, 7, 11, 15))
DIAGONALS = ((0, 5, 10, 15), (1, 6, 11, 12), (2, 7, 8, 13), (3, 4, 9, 14))
ROUNDS = (*COLUMNS, *DIAGONALS) * 4


def quarter(words: list[int], places: tuple[int, ...]) -> None:
    """A quarter of a round, on the words at four places."""
    one, two, three, four = places
    a, b, c, d = words[one], words[two], words[three], words[four]
    for bits, others in ((16, 12), (8, 7)):
        a = a + b & FULL
        d ^= a
        d = (d << bits | d >> 32 - bits) & FULL
        c = c + d & FULL
        b ^= c
        b = (b << others | b >> 32 - others) & FULL
    words[one], words[two], words[three], words[four] = a, b, c, d


def block(key: tuple[int, ...], number: int) -> list[int]:
    """The sixteen words of a block."""
    start = [*HEAD, *key, number & FULL, number >> 32, 0, 0]
    words = list(start)
    for places in ROUNDS:
        quarter(words, places)
    return [(word + first) & FULL for word, first in zip(words, start)]


def words_of(key: Key) -> Iterator[int]:
    """The words of a key, in order."""
    halves = struct.unpack("<8I", struct.pack("<4Q", *key))
    for number in count():
        yield from block(halves, number)


def pick_of(key: Key, size: int) -> int:
    """A number below the size."""
    return next(words_of(key)) * size >> 32


def permute(key: Key, cards: list[int]) -> None:
    """Brings cards into the order that the key says."""
    words = words_of(key)
    for last in range(len(cards) - 1, 0, -1):
        other = next(words) * (last + 1) >> 32
        cards[last], cards[other] = cards[other], cards[last]
