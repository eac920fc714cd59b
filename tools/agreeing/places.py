"""What may be used at a place of a sheet."""

from dataclasses import dataclass, replace

PLAYER, CARD, GROUP = "player", "card", "group"

# How many variables may be bound around a place, and how many repeats may stand around one.
MOST_VARIABLES = 4
MOST_REPEATS = 2

# How often an effect or a test is done at most where its place is run through once, by the sizes that loops are expected to have.
MOST_LOAD = 250
CARDS_OF_LOOP = 7

VARIABLES = ("'C", "'D", "'E", "'P", "'Q", "'G", "'", "'max", "'player", "'7", "'SELF")
SELF = "'SELF"


@dataclass(frozen=True)
class Place:
    """The stages around a place, its variables with their sorts, what it may see, and how much may still stand there."""

    in_players: bool = False
    in_teams: bool = False
    variables: tuple[tuple[str, str], ...] = ()
    only_seen: bool = False
    repeats: int = 0
    load: int = 1
    depth: int = 3
    in_scoring: bool = False

    def of_sort(self, sort: str) -> list[str]:
        """The variables of a sort."""
        return [name for name, its in self.variables if its == sort]

    def deeper(self) -> "Place":
        return replace(self, depth=self.depth - 1)

    def in_loop(self, count: int) -> "Place":
        """The same inside a loop of about so many turns."""
        return replace(self, load=self.load * max(1, count), depth=self.depth - 1)

    def may_loop(self, count: int) -> bool:
        return self.depth > 0 and self.load * count <= MOST_LOAD

    def may_bind(self) -> bool:
        return len(self.variables) < MOST_VARIABLES + self.in_scoring

    def free_names(self) -> list[str]:
        """The names that a binder may take here."""
        bound = {name for name, _ in self.variables}
        return [name for name in VARIABLES if name not in bound]

    def bound(self, name: str, sort: str) -> "Place":
        return replace(self, variables=(*self.variables, (name, sort)))
