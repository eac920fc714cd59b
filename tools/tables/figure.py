"""The arithmetic of a table: one figure of each match, its mean, and the error of the mean."""

from __future__ import annotations

import math


class Figure:
    """A whole number of each match, such as its turns or a seat's points.

    A unit is what chance decides by itself: a match; or, where each deal is played several times, all matches of one deal. What
    is kept is exact: sums of whole numbers.
    """

    def __init__(self, matches_of_unit: int = 1) -> None:
        self.matches_of_unit = matches_of_unit
        self.matches = self.total = 0
        self.least = self.most = 0
        self.unit_total = self.squares = 0

    def add(self, value: int) -> None:
        """Adds the number of the next match. The matches of a unit come one behind the other."""
        self.least = min(self.least, value) if self.matches else value
        self.most = max(self.most, value) if self.matches else value
        self.matches += 1
        self.total += value
        self.unit_total += value
        if self.matches % self.matches_of_unit == 0:
            self.squares += self.unit_total**2
            self.unit_total = 0

    def mean(self) -> float:
        """The mean over the matches."""
        return self.total / self.matches

    def error(self) -> float | None:
        """The standard error of the mean: the standard deviation of the units' means, with one less than their number in the
        denominator, divided by the root of their number. Of one unit alone there is none.

        With the totals t of n units of k matches, its square is (sum of (t - mean)^2) / (n - 1) / n / k^2, and the sum of these
        squares is (n * (sum of t^2) - (sum of t)^2) / n.
        """
        units = self.matches // self.matches_of_unit
        if units < 2:
            return None
        spread = units * self.squares - self.total**2
        return math.sqrt(spread / (units - 1)) / units / self.matches_of_unit
