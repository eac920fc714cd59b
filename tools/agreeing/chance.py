"""Chance, by a seed."""

from collections.abc import Callable, Iterable, Sequence
from random import Random
from typing import TypeVar

T = TypeVar("T")


class Chance(Random):
    """Draws that a seed fixes."""

    def holds(self, part: float) -> bool:
        """True in so large a part of the draws."""
        return self.random() < part

    def weighted(self, options: Iterable[tuple[float, T]]) -> T:
        """One of these options, by their weights."""
        weights, values = zip(*options)
        return self.choices(values, weights)[0]

    def done(self, options: Iterable[tuple[float, Callable[[], T]]]) -> T:
        """What one of these calls returns, by their weights."""
        return self.weighted(options)()

    def some(self, values: Sequence[T], least: int, most: int) -> list[T]:
        """So many different ones of these, in their order."""
        count = min(len(values), self.randint(least, most))
        return [values[index] for index in sorted(self.sample(range(len(values)), count))]
