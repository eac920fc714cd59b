"""The second round of faults in the setup: what stands twice, isn't known or is too many there."""

from math import prod

from second.parts import Part
from second.worlds import GAME, MEM, MOST_CARDS, PLAYER, TEAM

# The kinds of the round, in the order in which they come where several begin at one place.
TWICE, UNKNOWN, WRONG_KIND, TOO_MANY, NO_CARDS = IN_ORDER = ("Twice", "Unknown", "WrongKind", "TooMany", "NoCards")

MOST_NAMES = 256


def class_of(holder: Part) -> str:
    """The class of an owner, as it is written."""
    if holder.text == GAME:
        return GAME
    return TEAM if TEAM in (part.text for part in holder.parts[:2]) else PLAYER


def cards_of(groups: tuple[Part, ...]) -> int:
    """How many cards groups beside each other give."""
    return prod(sum(cards_of(branch.parts[1:]) for branch in group.parts[1].parts) for group in groups)


class Setups:
    """Collects the faults of a setup, but for those of the locations of its decks; and what the rest of the sheet may name."""

    def __init__(self, setup: Part) -> None:
        self.faults: list[tuple[int, int, str]] = []
        self.attributes: set[str] = set()
        self.values: set[str] = set()
        self.maps: set[str] = set()
        self.cards = 0
        lines = setup.parts[1:]
        players = next(line for line in lines if line.parts[1].text == "players")
        teams = next((line for line in lines if line.parts[1].text == "teams"), None)
        self.players = int(players.parts[2].text)
        self.counts = {GAME: 1, PLAYER: self.players, TEAM: len(teams.parts) - 2 if teams else self.players}
        for line in lines:
            if line.parts[1].text in ("players", "teams") and line not in (players, teams):
                self.fault(line, TWICE)
            elif line == teams:
                self.teams(line)
            elif line.parts[1].text == "points":
                self.points(line)
            elif line.parts[1].text == "deck":
                self.deck(line)
        if not any(line.parts[1].text == "deck" for line in lines):
            self.fault(setup, NO_CARDS)

    def fault(self, part: Part, kind: str) -> None:
        self.faults.append((part.at, IN_ORDER.index(kind), kind))

    def count(self, names: set[str], name: str, part: Part) -> None:
        """Adds a name, of which there may be so many."""
        if name not in names and len(names) == MOST_NAMES:
            self.fault(part, TOO_MANY)
        names.add(name)

    def teams(self, line: Part) -> None:
        found: set[int] = set()
        for member in (it for team in line.parts[2:] for it in team.parts):
            player = int(member.text)
            if player in found:
                self.fault(member, TWICE)
            if player >= self.players:
                self.fault(member, UNKNOWN)
            found.add(player)
        if not found >= {*range(self.players)}:
            self.fault(line, UNKNOWN)

    def points(self, line: Part) -> None:
        _, _, name, entries = line.parts
        if name.text in self.maps:
            self.fault(line, TWICE)
        self.count(self.maps, name.text, line)
        for entry in entries.parts:
            attribute, values, _ = entry.parts
            self.count(self.attributes, attribute.text, entry)
            for value in values.parts:
                self.count(self.values, value.text, value)

    def deck(self, line: Part) -> None:
        _, _, location, deck = line.parts
        before = self.cards
        self.cards += cards_of(deck.parts[1:])
        if before <= MOST_CARDS < self.cards:
            self.fault(line, TOO_MANY)
        if class_of(location.parts[0]) != GAME or location.parts[1].text == MEM:
            self.fault(location, WRONG_KIND)
        self.groups(deck.parts[1:], set())

    def groups(self, groups: tuple[Part, ...], above: set[str]) -> set[str]:
        """The attributes that stand before what follows these groups."""
        before = set(above)
        for group in groups:
            attribute, branches = group.parts
            if attribute.text in before:
                self.fault(group, TWICE)
            self.count(self.attributes, attribute.text, group)
            own = before | {attribute.text}
            for branch in branches.parts:
                value = branch.parts[0] if branch.is_list else branch
                self.count(self.values, value.text, value)
                before |= self.groups(branch.parts[1:], own)
        return before
