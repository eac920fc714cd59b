"""House texts of both formats, as `play` writes them: the matches that they tell."""

from __future__ import annotations

import re
from collections.abc import Iterator
from typing import NamedTuple

from tables.ending import TEXT, Refused
from tables.grammar import SCORE, STANDING, end_of_head, first_fault, format_of

NO_LINE = "no transcript has this line here"


class Match(NamedTuple):
    """What came of a match, and by which seeds it was played; `last` is the number of the sheet's choice at which the last decision
    was, if there was one."""

    number: int
    deal: int
    seats: int
    end: str
    turns: int
    choices: int
    shuffles: int
    scores: tuple[int, ...]
    points: tuple[int, ...]
    last: int | None = None

    def strategies(self) -> tuple[int, ...]:
        """The strategy of each seat: in match m seat i has strategy i + m, counted round."""
        players = len(self.scores)
        return tuple((seat + self.number) % players for seat in range(players))


class Reader:
    """Reads a text from its beginning to its end. Faults are told by the file's name and the line."""

    def __init__(self, name: str, text: bytes) -> None:
        self.name, self.text, self.at = name, text, 0

    def matches(self) -> list[Match]:
        """All matches of the text."""
        found: list[Match] = []
        form = format_of(self.text)
        self.at = end_of_head(self.text)
        while block := form.match.match(self.text, self.at):
            found.append(self.match(block, found))
            self.at = block.end()
        fault = first_fault(self.text) if not found or not STANDING.match(self.text, self.at) else None
        if fault:
            raise self.fault(NO_LINE, fault)
        self.pass_standings(found)
        return found

    def match(self, block: re.Match[bytes], before: list[Match]) -> Match:
        """The match of a block of lines, which goes on with those before it."""
        number, deal, seats, choices, shuffles, end, turns, told = block.groups()
        scores = [(int(player), int(score), int(points)) for player, score, points in SCORE.findall(told)]
        match = Match(
            int(number), int(deal), int(seats), end.decode(), int(turns), choices.count(b"\n"), int(shuffles or 0),
            tuple(score for _, score, _ in scores), tuple(points for _, _, points in scores), last_site(choices),
        )  # fmt: skip
        if match.number != len(before):
            raise self.fault(f"match {len(before)} is to stand here")
        if [player for player, _, _ in scores] != list(range(len(scores))):
            raise self.fault("this match is to have one line 'score' for each player, in order")
        if before and len(scores) != len(before[0].scores):
            raise self.fault(f"this match has {len(scores)} players, and the one before {len(before[0].scores)}")
        return match

    def pass_standings(self, matches: list[Match]) -> None:
        """Passes the lines that close the text, which are to be those of its matches."""
        for line in standings(matches):
            if self.line() != line:
                raise self.fault(f"'{line.strip()}' is to stand here")
            self.at += len(line)
        if self.line():
            raise self.fault("nothing is to stand behind the standings")

    def line(self) -> str:
        """The line at the place where the reader stands, with its end; nothing at the end of the text."""
        end = self.text.find(b"\n", self.at) + 1
        return self.text[self.at : end or len(self.text)].decode("latin-1")

    def fault(self, sentence: str, line: int | None = None) -> Refused:
        """A fault at a line, or at the place where the reader stands."""
        number = line or self.text[: self.at].count(b"\n") + 1
        return Refused(TEXT, f"{self.name}:{number}: {sentence}")


def last_site(choices: bytes) -> int | None:
    """The second number of the last line `choose`."""
    last = choices.rfind(b"choose ")
    return int(choices[last:].split(b" ", 3)[2]) if last >= 0 else None


def standings(matches: list[Match]) -> Iterator[str]:
    """The lines of the standings: by points over all matches from many to few, then by number. The place is one more than how many
    strategies have more points."""
    totals = [0] * len(matches[0].scores)
    for match in matches:
        for strategy, points in zip(match.strategies(), match.points):
            totals[strategy] += points
    for strategy in sorted(range(len(totals)), key=lambda it: (-totals[it], it)):
        place = 1 + sum(points > totals[strategy] for points in totals)
        yield f"standing {place} strategy {strategy} points {totals[strategy]}\n"
