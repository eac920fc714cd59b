"""The first line of a transcript that no play of a sheet and a plan has, and why."""

from second.machine import Decision, Machine
from second.naming import marks_of
from second.playing import SHUFFLES_MODULUS, matches_of, standings_of, started
from second.sources import Form


class Illegal(Exception):
    """Why a line is illegal."""


class Judge:
    """Plays along with the lines of a transcript that is in the grammar, and tells at which one it can't. It notes the items."""

    def __init__(self, sheet: Form, plan: Form, named: bool) -> None:
        self.machine, self.turns, self.named = Machine(sheet), int(plan[3][1]), named
        self.matches = matches_of(plan)
        self.points = [0] * self.machine.players
        self.items: list[int] = []
        self.begun = 0
        self.scores: list[str] = []
        self.standings: list[str] | None = None

    def first_illegal(self, lines: list[str]) -> tuple[int, str] | None:
        """The number of the first illegal line, with the reason. The lines have no ends, and those of a legend are passed."""
        for number, line in enumerate(lines, 1):
            head, *words = line.split(" ")
            if row := getattr(self, f"on_{head}", None):
                try:
                    row(words)
                except Illegal as why:
                    return number, str(why)
        return (len(lines) + 1, "Standing") if self.standings else None

    def demand(self, holds: bool, why: str) -> None:
        if not holds:
            raise Illegal(why)

    # The lines of a match

    def on_match(self, words: list[str]) -> None:
        self.demand(not self.scores, "Score")
        self.demand(self.begun < len(self.matches), "Match")
        deal, seats = self.matches[self.begun]
        self.demand(words == [str(self.begun), "deal", str(deal), "seats", str(seats)], "Match")
        self.begun += 1
        self.state = started(self.machine, deal)
        self.stop = self.machine.advance(self.state, self.turns)
        self.told = "0"

    def on_choose(self, words: list[str]) -> None:
        seat, site, item, size, *marks = words
        stop = self.stop
        if not isinstance(stop, Decision):
            raise Illegal("End")
        self.demand([seat, site] == [str(stop.seat), str(stop.site)], "Seat")
        self.demand(int(size) == len(stop.menu), "Menu")
        self.demand(int(item) < int(size), "Item")
        self.demand(not self.named or marks == marks_of(self.machine, stop.menu[int(item)]), "Named")
        self.items.append(int(item))
        self.machine.apply(self.state, stop, int(item))
        self.stop = self.machine.advance(self.state, self.turns)

    def on_shuffles(self, words: list[str]) -> None:
        self.demand(not isinstance(self.stop, Decision), "End")
        (self.told,) = words
        self.demand(self.told == str(self.state.shuffles % SHUFFLES_MODULUS), "Shuffle")

    def on_end(self, words: list[str]) -> None:
        self.demand(not isinstance(self.stop, Decision), "End")
        self.demand(self.told == str(self.state.shuffles % SHUFFLES_MODULUS), "Shuffle")
        self.demand(words == [self.stop, str(self.state.turn)], "End")
        scores = self.machine.scores(self.state)
        gains = self.machine.rank_points(scores)
        self.scores = [f"{player} {score} {gain}" for player, (score, gain) in enumerate(zip(scores, gains))]
        for seat, gain in enumerate(gains):
            self.points[(seat + self.begun - 1) % len(self.points)] += gain

    def on_score(self, words: list[str]) -> None:
        self.demand(bool(self.scores) and self.scores.pop(0) == " ".join(words), "Score")

    # The standings

    def on_standing(self, words: list[str]) -> None:
        if self.standings is None:
            self.demand(not self.scores, "Score")
            self.demand(self.begun == len(self.matches), "Match")
            self.standings = list(standings_of(self.points))
        self.demand(bool(self.standings) and self.standings.pop(0) == " ".join(("standing", *words)), "Standing")
