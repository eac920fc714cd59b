"""What a game is made of: players, teams, decks, point maps, locations and numbers, and the lines of the setup."""

from dataclasses import dataclass, field

from agreeing.chance import Chance
from agreeing.decks import cards_of, deck_of
from agreeing.forms import Form

GAME, PLAYER, TEAM = "game", "player", "team"
VLOC, ILOC, HLOC, MEM = "vloc", "iloc", "hloc", "mem"
MOST = 1_000_000_000
MOST_CARDS = 512

# The location that has the first deck, and that of each player.
STOCK, HAND = "STOCK", "HAND"

LOCATIONS = ("PILE", "ASIDE", "TABLE", "TRICK", "WON", "BLIND", "LEAD", "NOTES", "all", "HAND-2", "mem", "game", "n" * 64)
NUMBERS = ("N", "COINS", "BID", "PASSED", "sto", "size", "next", "PILE")
MAPS = ("WORTH", "HEIGHT", "using", "RANK")

PLAYERS = ((0.4, 1), (4, 2), (6, 3), (5, 4), (1, 5), (0.5, 8))
SIZES = ((1, 8), (3, 16), (4, 28), (3, 44), (0.2, 350))

# Other locations than the stock, a hand for each player and a pile: whose, and of which kind.
OTHERS = (
    (3, (GAME, VLOC)),
    (1, (GAME, ILOC)),
    (1, (GAME, HLOC)),
    (4, (GAME, MEM)),
    (4, (PLAYER, VLOC)),
    (2, (PLAYER, ILOC)),
    (2, (PLAYER, HLOC)),
    (3, (PLAYER, MEM)),
    (2, (TEAM, VLOC)),
    (2, (TEAM, ILOC)),
    (1, (TEAM, HLOC)),
    (1, (TEAM, MEM)),
)


@dataclass(frozen=True)
class Location:
    """A name of locations: whose they are, their kind, and whether it has a deck."""

    owner: str
    kind: str
    name: str
    has_deck: bool = False


@dataclass
class World:
    """All that expressions and effects may name."""

    players: int
    attributes: dict[str, list[str]] = field(default_factory=dict)
    maps: list[str] = field(default_factory=list)
    locations: list[Location] = field(default_factory=list)
    numbers: list[tuple[str, str]] = field(default_factory=list)
    cards: int = 0
    lines: list[Form] = field(default_factory=list)

    def know(self, attribute: str, values: list[str]) -> None:
        """Notes that these are known."""
        known = self.attributes.setdefault(attribute, [])
        known += [value for value in dict.fromkeys(values) if value not in known]


def world_of(chance: Chance) -> World:
    """A world by chance. The lines of its setup stand in any order."""
    world = World(chance.weighted(PLAYERS))
    world.lines.append(("create", "players", world.players))
    if chance.holds(0.45):
        world.lines.append(("create", "teams", *teams_of(chance, world.players)))
    add_locations(chance, world)
    for location in world.locations:
        if location.has_deck:
            add_deck(chance, world, location)
    for name in chance.some(MAPS, 0, 2):
        add_points(chance, world, name)
    add_numbers(chance, world)
    if chance.holds(0.3):
        chance.shuffle(world.lines)
    return world


def teams_of(chance: Chance, players: int) -> list[Form]:
    """The players in teams of any sizes, in any order."""
    order = chance.sample(range(players), players)
    cuts = chance.some(range(1, players), 0 if chance.holds(0.1) else 1, 2)
    return [tuple(order[begin:end]) for begin, end in zip([0, *cuts], [*cuts, players])]


def add_locations(chance: Chance, world: World) -> None:
    """A stock, a hand, a pile that everybody sees, and some others."""
    names = chance.sample(LOCATIONS, 8)
    stock = Location(GAME, chance.weighted(((6, HLOC), (2, VLOC), (1, ILOC))), STOCK, True)
    pile = Location(GAME, VLOC, names.pop(), chance.holds(0.2))
    world.locations += [stock, Location(PLAYER, ILOC, HAND), pile]
    for _ in range(chance.randint(1, 5)):
        owner, kind = chance.weighted(OTHERS)
        has_deck = owner == GAME and kind != MEM and chance.holds(0.15)
        world.locations.append(Location(owner, kind, names.pop(), has_deck))


def add_deck(chance: Chance, world: World, location: Location) -> None:
    """A deck in this location, seldom two, where there is room for all their cards."""
    for _ in range(2 if chance.holds(0.15) else 1):
        groups = deck_of(chance, chance.weighted(SIZES))
        if world.cards + cards_of(groups) > MOST_CARDS:
            return
        world.cards += cards_of(groups)
        for group in (it for outer in groups for it in outer.all_within()):
            world.know(group.attribute, [value for value, _ in group.branches])
        deck = ("deck", *(group.form() for group in groups))
        world.lines.append(("create", "deck", (GAME, location.kind, location.name), deck))


def add_points(chance: Chance, world: World, name: str) -> None:
    """A point map. What it names may be of no card."""
    entries: list[Form] = []
    for attribute in chance.some(list(world.attributes), 1, 2):
        values = world.attributes[attribute]
        if chance.holds(0.6):
            entries += [(attribute, (value,), worth_of(chance)) for value in values]
        else:
            entries.append((attribute, tuple(chance.choices(values, k=chance.randint(1, 3))), worth_of(chance)))
    if chance.holds(0.1):
        entries.append(("GHOST", ("x",), worth_of(chance)))
        world.know("GHOST", ["x"])
    world.maps.append(name)
    world.lines.append(("put", "points", name, tuple(entries)))


def worth_of(chance: Chance) -> int:
    return chance.weighted(((12, chance.randint(0, 9)), (2, chance.randint(-5, -1)), (0.3, MOST), (0.2, -MOST)))


def add_numbers(chance: Chance, world: World) -> None:
    """Stored numbers, among them one of the game and one of each player."""
    names = chance.sample(NUMBERS, 5)
    owners = [GAME, PLAYER, *chance.choices((GAME, PLAYER, TEAM), k=chance.randint(0, 3))]
    world.numbers += [(owner, names.pop()) for owner in owners]
