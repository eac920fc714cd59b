"""What a report counts of its matches, and how sure that is."""

from __future__ import annotations

from reports.gathering import Told
from reports.intervals import FEWEST
from tables.counting import Counts, Side, counts_of
from tables.ending import Refused
from tables.running import players_of_deals


class Report:
    """Matches, what was counted of them, and what equal seats would have. A unit is a match, or a deal that was played once by each
    strategy in each seat."""

    def __init__(self, told: Told) -> None:
        self.told = told
        self.sheet, self.plan = told.sheet, told.plan
        self.count = len(told.matches)
        try:
            self.unit = players_of_deals(told.matches) if len(told.matches) > 1 else 1
        except Refused:
            self.unit = 1
        self.counts: Counts = counts_of(told.matches, self.unit)
        self.units = self.count // self.unit
        self.players = self.sheet.players
        self.teams = self.sheet.teams
        self.is_team_game = len(self.teams) < self.players
        self.whole = sum(sum(it.points) for it in told.matches) / self.count

    @property
    def is_sure(self) -> bool:
        return self.units >= FEWEST

    @property
    def balance(self) -> str:
        """What is to be said where not each strategy sat in each seat equally often."""
        if self.count % self.players == 0:
            return ""
        return (
            f"How many matches there are is no multiple of {self.players}, so some strategies sat in some seats once more than "
            "in others."
        )

    @property
    def first_mover(self) -> int | None:
        """The seat that makes the first decision, where it is the same one in every match."""
        movers = {record.picks[0].seat for record in self.told.records if record.picks}
        return next(iter(movers)) if len(movers) == 1 else None

    def sides(self, what: str) -> list[Side]:
        return [it for it in self.counts.sides() if it.label.startswith(what)]

    def even(self, seat: int) -> float:
        """The share of the rank points of a seat where all are equal: one of two points against each player outside its team."""
        team = next(it for it in self.teams if seat in it)
        return (self.players - len(team)) / self.whole if self.whole else 0.0
