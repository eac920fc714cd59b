"""What a table tells of matches, added up match by match."""

from collections.abc import Iterator
from itertools import chain
from typing import NamedTuple

from tables.figure import Figure
from tables.house import Match


class Side(NamedTuple):
    """A strategy or a seat: its rank points, its wins and its scores."""

    label: str
    points: Figure
    wins: Figure
    score: Figure


def values_of(match: Match) -> list[int]:
    """The numbers of a match that are added up: its turns and its choices, and whether the turn limit ended it; then for each
    strategy, and for each seat, its rank points, whether it won, and its score. Who has the most rank points wins, alone or not."""
    players = len(match.points)
    most = max(match.points)
    of_seats = [(points, int(points == most), score) for points, score in zip(match.points, match.scores)]
    of_strategies = [of_seats[(strategy - match.number) % players] for strategy in range(players)]
    return [match.turns, match.choices, int(match.end == "limit"), *chain(*of_strategies), *chain(*of_seats)]


class Counts:
    """Figures over matches of so many players. A unit is a match, or all matches of a deal: see `Figure`."""

    def __init__(self, players: int, matches_of_unit: int = 1) -> None:
        self.players = players
        self.matches_of_unit = matches_of_unit
        self.figures = [Figure(matches_of_unit) for _ in range(3 + 6 * players)]
        self.turns, self.choices, self.limits, *self.of_sides = self.figures

    def add(self, values: list[int]) -> None:
        """Adds a match by its values, or two by what these differ by."""
        for figure, value in zip(self.figures, values):
            figure.add(value)

    def sides(self) -> Iterator[Side]:
        """The strategies, and then the seats."""
        labels = [f"{what} {number}" for what in ("strategy", "seat") for number in range(self.players)]
        for at, label in enumerate(labels):
            yield Side(label, *self.of_sides[3 * at : 3 * at + 3])


def counts_of(matches: list[Match], matches_of_unit: int = 1) -> Counts:
    """The figures of one match or more."""
    counts = Counts(len(matches[0].points), matches_of_unit)
    for match in matches:
        counts.add(values_of(match))
    return counts
