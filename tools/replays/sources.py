"""A sheet and a plan as texts: where lists end, what comment stands above them, and new texts made of them."""

from __future__ import annotations

import re
from dataclasses import dataclass
from functools import cached_property
from pathlib import Path

from faults.places import Lines
from faults.tokens import tokens
from inputs import SOURCE
from linting.trees import Node, Unreadable, read_lists, read_sheet
from linting.uses import Use, locations, numbers
from pieces.accepting import accept
from pieces.program import Program
from tables.ending import TEXT, Refused
from tables.running import read

PLAYERS, TEAMS = "(create players N)", "(create teams (N+)+)"
CHOICE, TEST, ANY, PARTITION = "(choice ALT+)", "(if BOOL EFFECT+)", "(any DOMAIN 'V ALT)", "(partition COLL ATTR)"
STAGES = ("(stage player (end BOOL) ITEM+)", "(stage team (end BOOL) ITEM+)")


@dataclass(frozen=True)
class Owned:
    """A location or a stored number: its name, its kind, whose it is by class, and the owner's number."""

    name: str
    kind: str
    owner: str
    number: int

    @property
    def holder(self) -> str:
        """`g`, `p2` or `t1`."""
        return self.owner[0] + (str(self.number) if self.owner != "game" else "")


class Sheet:
    """A sheet that the program accepts, read from its text."""

    def __init__(self, text: bytes) -> None:
        self.text = text
        self.tree = read_sheet(text)
        # The comments that were looked for, by how many lines stand before their end: many lists may begin in one line.
        self.comments: dict[int, str] = {}

    @cached_property
    def ends(self) -> dict[int, int]:
        """Where each list and each atom ends, by where it begins."""
        ends, stack = {}, []
        for token in tokens(self.text):
            if token.text == "(":
                stack.append(token.at)
            elif token.text == ")":
                ends[stack.pop()] = token.at + 1
            else:
                ends[token.at] = token.at + len(token.text)
        return ends

    def source(self, node: Node) -> str:
        return self.text[node.at : self.ends[node.at]].decode("latin-1")

    @cached_property
    def lines(self) -> Lines:
        return Lines(self.text)

    def line(self, node: Node) -> int:
        """The line at which a list begins, from 1."""
        return self.lines.place_of(node.at).line

    def comment(self, node: Node) -> str:
        """The comment that stands on lines of its own directly above a list; nothing where there is none."""
        above = self.line(node) - 1
        if above not in self.comments:
            self.comments[above] = self.comment_before(above)
        return self.comments[above]

    def comment_before(self, lines: int) -> str:
        """The comment with which so many first lines of the text end."""
        found: list[bytes] = []
        for at in reversed(range(lines)):
            line = self.text[self.lines.begin(at) : self.lines.begin(at + 1)].strip()
            if not line.startswith(b";"):
                break
            found.append(line.lstrip(b"; ").strip())
        return b" ".join(reversed(found)).decode("utf-8", "replace")

    @cached_property
    def players(self) -> int:
        return next(int(it.parts[2].text) for it in self.tree.parts[1].parts if it.form == PLAYERS)

    @cached_property
    def teams(self) -> list[list[int]]:
        """The members of each team. Without a line of teams each player's team is himself."""
        lines = [it for it in self.tree.parts[1].parts if it.form == TEAMS]
        if not lines:
            return [[player] for player in range(self.players)]
        return [[int(member.text) for member in team.parts] for team in lines[0].parts[2:]]

    @cached_property
    def locations(self) -> list[Owned]:
        """All locations, in the order of the logs: by the first mention of their name, then by the owner's number."""
        return self.owned(locations(self.tree))

    @cached_property
    def numbers(self) -> list[Owned]:
        """All stored numbers, in the order of the logs."""
        return self.owned(numbers(self.tree))

    def owned(self, uses: dict[str, Use]) -> list[Owned]:
        count = {"game": 1, "player": self.players, "team": len(self.teams)}
        return [Owned(it.name, it.kind, it.owners, at) for it in uses.values() for at in range(count[it.owners])]

    @cached_property
    def choices(self) -> list[Node]:
        return [it for it in self.tree.within() if it.form == CHOICE]

    @cached_property
    def stages(self) -> list[Node]:
        return [it for it in self.tree.within() if it.form in STAGES]

    @cached_property
    def tests(self) -> list[Node]:
        """The effects that are done only where a test holds."""
        return [it for it in self.tree.within() if it.form == TEST and it.place == "EFFECT"]

    @cached_property
    def scoring(self) -> Node:
        return self.tree.parts[-1]

    @property
    def best(self) -> str:
        """Whether more points are better, `max`, or fewer, `min`."""
        return self.scoring.parts[1].text

    @cached_property
    def atoms(self) -> set[str]:
        return {token.text.lstrip("'") for token in tokens(self.text)}

    def fresh(self, name: str) -> str:
        """A name with which no name of the sheet begins, so that numbers may stand behind it."""
        while any(it.startswith(name) for it in self.atoms):
            name += "-"
        return name


@dataclass(frozen=True)
class Plan:
    """A plan: its text, the text of each strategy, the seeds of each match, and the turn limit."""

    text: bytes
    strategies: list[str]
    matches: list[tuple[int, int]]
    turns: int

    def of_seats(self, match: int) -> list[str]:
        """The strategy of each seat in a match: they move on by one from match to match."""
        count = len(self.strategies)
        return [self.strategies[(seat + match) % count] for seat in range(count)]

    def alone(self, match: int) -> bytes:
        """The plan of this match alone, which is then number 0, with the same strategy in each seat."""
        return plan_text(self.of_seats(match), [self.matches[match]], self.turns)


def plan_text(strategies: list[str], matches: list[tuple[int, int]], turns: int) -> bytes:
    told = " ".join(f"({deal} {seats})" for deal, seats in matches)
    return f"(plan (seats {' '.join(strategies)}) (matches {told}) (turns {turns}))\n".encode()


def plan_of(text: bytes) -> Plan:
    """A plan that the program accepts."""
    seats, matches, turns = read_lists(text)[0].parts[1:]
    strategies = ["(" + " ".join(part.text for part in it.parts) + ")" for it in seats.parts[1:]]
    if matches.parts[1].parts[0].text == "from":
        deal, seed, count = (int(it.text) for it in matches.parts[1].parts[1:])
        pairs = [(deal + at, seed + at) for at in range(count)]
    else:
        pairs = [(int(it.parts[0].text), int(it.parts[1].text)) for it in matches.parts[1:]]
    return Plan(text, [re.sub(r"\b0+(?=\d)", "", it) for it in strategies], pairs, int(turns.parts[1].text))


def sources_of(program: Program, sheet: Path, plan: Path) -> tuple[Sheet, Plan]:
    """The sheet and the plan of these files, which the program is to accept."""
    texts = [(file, read(file, SOURCE)) for file in (sheet, plan)]
    source, planned = (text + b"\n" for _, text in texts)
    accept(program, source + planned, texts)
    try:
        return Sheet(source), plan_of(planned)
    except Unreadable as error:
        raise Refused(TEXT, f"{sheet}: {error}") from None
