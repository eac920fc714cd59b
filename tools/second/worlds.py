"""What a sheet has: players, teams, cards with their faces, locations and stored numbers; and the state of a match."""

from __future__ import annotations

from collections.abc import Callable
from copy import copy
from dataclasses import dataclass, field, replace

from second.sources import Form

MOST = 1_000_000_000
MOST_CARDS = 512

GAME, PLAYER, TEAM = "game", "player", "team"
VLOC, HLOC, MEM = "vloc", "hloc", "mem"
NOBODY: frozenset[int] = frozenset()

# A face is a list of attributes with values, in the order of the groups.
Face = tuple[tuple[str, str], ...]


def clamped(number: int) -> int:
    return max(-MOST, min(MOST, number))


def faces_of(groups: tuple[Form, ...]) -> list[Face]:
    """The faces of groups beside each other, the first one varying slowest."""
    if not groups:
        return [()]
    attribute, branches = groups[0]
    faces: list[Face] = []
    for branch in branches:
        value, inner = (branch, ()) if isinstance(branch, str) else (branch[0], branch[1:])
        faces += [((attribute, value), *face) for face in faces_of(inner)]
    beside = faces_of(groups[1:])
    return [one + other for one in faces for other in beside]


@dataclass
class Frame:
    """An open stage: its number, its class, who is current, whether it goes backward, and who is named as the next."""

    stage: int
    owner: str
    member: int
    is_back: bool = False
    named: int | None = None


@dataclass(frozen=True)
class Place:
    """A location: the class and the number of its owner, and its kind."""

    owner: str
    number: int
    kind: str


@dataclass
class State:
    """A match: the cards of each location, where each card lies, the seats that were shown it and don't see it otherwise, stored
    numbers, open stages, turns, decisions of each seat, what is left to run as a chain, how often a location was shuffled, and what
    shuffles."""

    cards: list[list[int]]
    where: list[int]
    marks: list[frozenset[int]]
    numbers: list[int]
    made: list[int]
    frames: list[Frame] = field(default_factory=list)
    turn: int = 0
    left: tuple | None = None
    shuffles: int = 0
    shuffle: Callable[["State", list[int]], None] | None = None

    def copy(self) -> "State":
        frames = [replace(frame) for frame in self.frames]
        cards = [list(it) for it in self.cards]
        state = copy(self)
        state.cards, state.where, state.marks = cards, list(self.where), list(self.marks)
        state.numbers, state.made, state.frames = list(self.numbers), list(self.made), frames
        return state

    def innermost(self, owner: str) -> Frame | None:
        """The innermost open stage of a class."""
        return next((frame for frame in reversed(self.frames) if frame.owner == owner), None)


class World:
    """What the setup says. Locations and numbers are added where they are first mentioned."""

    def __init__(self, setup: tuple[Form, ...]) -> None:
        lines: dict[str, list[Form]] = {"players": [], "teams": [], "deck": [], "points": []}
        for line in setup:
            lines[line[1]].append(line)
        self.players = int(lines["players"][0][2])
        told = [[int(player) for player in team] for line in lines["teams"] for team in line[2:]]
        self.teams = told or [[player] for player in range(self.players)]
        self.team_of = [next(at for at, team in enumerate(self.teams) if player in team) for player in range(self.players)]
        self.counts = {GAME: 1, PLAYER: self.players, TEAM: len(self.teams)}
        self.places: list[Place] = []
        self.first_place: dict[str, int] = {}
        self.first_number: dict[str, int] = {}
        self.numbers = 0
        self.add_cards(lines["deck"])
        self.worths = {line[2]: self.worths_of(line[3]) for line in lines["points"]}

    def add_cards(self, lines: list[Form]) -> None:
        """The cards of all decks, with the location that each begins in."""
        faces: list[Face] = []
        self.homes: list[int] = []
        for _, _, location, (_, *groups) in lines:
            new = faces_of(tuple(groups))
            self.homes += [self.place_of(location)] * len(new)
            faces += new
        first: dict[Face, int] = {}
        self.looks = [first.setdefault(face, card) for card, face in enumerate(faces)]
        self.values = [dict(face) for face in faces]
        self.alike: dict[int, list[int]] = {}
        for card, look in enumerate(self.looks):
            self.alike.setdefault(look, []).append(card)

    def worths_of(self, entries: Form) -> list[int]:
        """What each card is worth."""
        return [
            clamped(sum(int(worth) for attribute, values, worth in entries if its.get(attribute) in values)) for its in self.values
        ]

    def class_of(self, holder: Form) -> str:
        """The class of an owner, as it is written."""
        if holder == GAME:
            return GAME
        return TEAM if isinstance(holder, tuple) and TEAM in holder[:2] else PLAYER

    def place_of(self, location: Form) -> int:
        """The number of the first location of this name."""
        holder, kind, name = location
        owner = self.class_of(holder)
        if name not in self.first_place:
            self.first_place[name] = len(self.places)
            self.places += [Place(owner, number, kind) for number in range(self.counts[owner])]
        return self.first_place[name]

    def number_of(self, number: Form) -> int:
        """The number of the first stored number of this name."""
        holder, _, name = number
        if name not in self.first_number:
            self.first_number[name] = self.numbers
            self.numbers += self.counts[self.class_of(holder)]
        return self.first_number[name]

    def opening(self) -> State:
        """The table at the beginning of a match."""
        cards: list[list[int]] = [[] for _ in self.places]
        for card, home in enumerate(self.homes):
            cards[home].append(card)
        return State(cards, list(self.homes), [NOBODY] * len(self.homes), [0] * self.numbers, [0] * self.players)

    def knows(self, state: State, seat: int, card: int, place: Place) -> bool:
        """Whether a seat sees the place where a card lies, or was shown the card there."""
        return self.sees(seat, place) or seat in state.marks[card]

    def sees(self, seat: int, place: Place) -> bool:
        """Whether a seat sees the faces there."""
        if place.kind in (VLOC, MEM):
            return True
        mine = {PLAYER: seat, TEAM: self.team_of[seat]}
        return place.kind != HLOC and mine.get(place.owner) == place.number
