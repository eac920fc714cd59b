"""Plans by chance."""

from agreeing.chance import Chance
from agreeing.forms import Form

LARGEST = 999_999_999_999_999_999
SEEDS = 60


def plan_of(chance: Chance, players: int) -> Form:
    """A plan for so many players that is played soon."""
    return "plan", ("seats", *seats_of(chance, players)), ("matches", *matches_of(chance)), ("turns", turns_of(chance))


def seats_of(chance: Chance, players: int) -> list[Form]:
    """The strategies. Where they are all the same, deals that are played again find what was remembered."""
    if chance.holds(0.4):
        return [strategy_of(chance)] * players
    return [strategy_of(chance) for _ in range(players)]


def strategy_of(chance: Chance) -> Form:
    kind = chance.weighted(((1, "script"), (2, "random"), (2, "rollout")))
    if kind == "script":
        return "script", *(number_of(chance, 65_535) for _ in range(chance.randint(0, 12)))
    if kind == "random":
        return "random", number_of(chance, LARGEST)
    return "rollout", chance.weighted(((3, 1), (3, 2), (1, 3))), number_of(chance, LARGEST)


def number_of(chance: Chance, most: int) -> int:
    """A number that is mostly small."""
    return chance.weighted(((8, chance.randint(0, 9)), (1, chance.randint(0, most)), (0.3, most)))


def matches_of(chance: Chance) -> list[Form]:
    """A few matches, seldom many. Seeds come again."""
    deal, seats = number_of(chance, LARGEST - SEEDS), number_of(chance, LARGEST - SEEDS)
    count = chance.weighted(((2, 1), (3, 2), (3, 3), (2, 4), (0.1, SEEDS)))
    if chance.holds(0.3):
        return [("from", deal, seats, count)]
    others = chance.choice((0, 0, 1))
    return [(deal + chance.randint(0, others), seats + chance.weighted(((3, 0), (1, others)))) for _ in range(count)]


def turns_of(chance: Chance) -> int:
    return chance.weighted(((0.5, chance.randint(1, 5)), (6, chance.randint(6, 30)), (3, chance.randint(30, 60))))
