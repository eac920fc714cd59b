"""Owners, locations, cards, collections, amounts and tests by chance."""

from collections.abc import Callable
from dataclasses import replace

from agreeing.chance import Chance
from agreeing.forms import Form
from agreeing.places import CARD, CARDS_OF_LOOP, GROUP, PLAYER, Place
from agreeing.worlds import GAME, ILOC, MEM, MOST, TEAM, VLOC, Location, World

Options = list[tuple[float, Callable[[], Form]]]

ORDERS = ("<", "<=", ">", ">=", "=", "!=")
CURRENT_PLAYER: Form = ("current", "player")

# The weight of a form where it is refused.
MISPLACED = 0.02


class Expressions:
    """Makes expressions that a place allows."""

    def __init__(self, chance: Chance, world: World) -> None:
        self.chance = chance
        self.world = world
        self.counters: list[str] = []
        self.filled = {it.name for it in world.locations if it.has_deck}

    # Owners

    def players(self, place: Place) -> list[Form]:
        current = [CURRENT_PLAYER] if place.in_players else []
        return [*current, *place.of_sort(PLAYER)]

    def teams(self, place: Place) -> list[Form]:
        current: list[Form] = [("current", "team")] if place.in_teams else []
        return [*current, *(("team", "of", player) for player in self.players(place))]

    def holders(self, owner: str, place: Place) -> list[Form]:
        """Who may own locations and numbers of this class, as it is written here."""
        return [GAME] if owner == GAME else self.teams(place) if owner == TEAM else self.players(place)

    # Locations and numbers

    def is_seen(self, location: Location, holder: Form) -> bool:
        """Whether the player who chooses sees it by the way it is written."""
        is_own = holder in (CURRENT_PLAYER, ("team", "of", CURRENT_PLAYER))
        return location.kind in (VLOC, MEM) or location.kind == ILOC and is_own

    def locations(self, place: Place, kinds: Callable[[str], bool]) -> list[tuple[float, Form]]:
        """The locations of some kinds that may stand here. Those into which cards are dealt are more likely."""
        return [
            (4 if location.name in self.filled else 1, (holder, location.kind, location.name))
            for location in self.world.locations
            if kinds(location.kind)
            for holder in self.holders(location.owner, place)
            if not place.only_seen or self.is_seen(location, holder)
        ]

    def with_cards(self, place: Place) -> Form:
        """A location that isn't a `mem`."""
        return self.chance.weighted(self.locations(place, lambda kind: kind != MEM))

    def memories(self, place: Place) -> list[tuple[float, Form]]:
        return self.locations(place, lambda kind: kind == MEM)

    def stored_numbers(self, place: Place) -> list[Form]:
        return [(holder, "sto", name) for owner, name in self.world.numbers for holder in self.holders(owner, place)]

    def stored(self, place: Place) -> Form:
        return self.chance.choice(self.stored_numbers(place))

    # Cards and collections

    def collection(self, place: Place) -> Form:
        chance = self.chance
        options: Options = [(6, lambda: chance.weighted(self.locations(place, lambda _: True)))]
        if groups := place.of_sort(GROUP):
            options.append((6, lambda: chance.choice(groups)))
        if place.may_loop(CARDS_OF_LOOP) and place.may_bind():
            options.append((1.5, lambda: self.filtered(place)))
        if place.depth > 0:
            options.append((0.8, lambda: self.union(place)))
        options.append((1.5 if place.in_players else MISPLACED, lambda: self.known(place)))
        return chance.done(options)

    def known(self, place: Place) -> Form:
        """What the current player knows of a location, which may be any. Outside player stages it is refused."""
        return "known", self.chance.weighted(self.locations(replace(place, only_seen=False), lambda _: True))

    def filtered(self, place: Place) -> Form:
        name = self.chance.choice(place.free_names())
        inside = place.in_loop(CARDS_OF_LOOP).bound(name, CARD)
        return "filter", self.collection(place.deeper()), name, self.test(inside)

    def union(self, place: Place) -> Form:
        count = self.chance.weighted(((6, 2), (2, 3), (0.2, 12)))
        return "union", *(self.collection(place.deeper()) for _ in range(count))

    def card(self, place: Place) -> Form:
        chance = self.chance
        options: Options = [(4, lambda: ("top", self.collection(place.deeper()))), (2, lambda: ("bottom", self.collection(place.deeper())))]
        if cards := place.of_sort(CARD):
            options.append((8, lambda: chance.choice(cards)))
        for head in ("max", "min") if self.world.maps else ():
            options.append((1, lambda head=head: (head, self.collection(place.deeper()), "using", self.points_map())))
        return chance.done(options)

    def points_map(self) -> Form:
        return self.chance.choice(self.world.maps)

    def attribute(self) -> str:
        return self.chance.choice(list(self.world.attributes))

    # Amounts

    def literal(self) -> int:
        return self.chance.weighted(((12, self.chance.randint(0, 5)), (1, self.chance.randint(-9, 30)), (0.3, MOST), (0.3, -MOST)))

    def amount(self, place: Place) -> Form:
        chance = self.chance
        options: Options = [(3, self.literal), (3, lambda: self.stored(place)), (4, lambda: ("size", self.sized(place)))]
        if self.counters:
            options.append((1, lambda: (GAME, "sto", chance.choice(self.counters))))
        if self.world.maps:
            options.append((1.5, lambda: ("sum", self.collection(place.deeper()), "using", self.points_map())))
            options.append((2, lambda: ("points", self.card(place.deeper()), "using", self.points_map())))
        if place.depth > 0:
            options.append((2, lambda: (chance.choice("++--*"), self.amount(place.deeper()), self.amount(place.deeper()))))
        return chance.done(options)

    def sized(self, place: Place) -> Form:
        """A collection of which a size is asked. A location may be any there."""
        if self.chance.holds(0.7):
            locations = [(holder, it.kind, it.name) for it in self.world.locations for holder in self.holders(it.owner, place)]
            return self.chance.choice(locations)
        return self.collection(place.deeper())

    # Tests

    def test(self, place: Place) -> Form:
        chance, inside = self.chance, place.deeper()
        options: Options = [
            (4, lambda: (chance.choice(ORDERS), self.amount(inside), self.amount(inside))),
            (3, lambda: self.has_value(inside)),
            (3, lambda: (self.equality(), self.attribute_of(inside), self.attribute_of(inside))),
            (1, lambda: (self.equality(), self.card(inside), self.card(inside))),
        ]
        for owners in (self.players(place), self.teams(place)):
            if owners:
                options.append((0.7, lambda owners=owners: (self.equality(), chance.choice(owners), chance.choice(owners))))
        if place.depth > 0:
            options.append((1.5, lambda: self.joined(inside)))
            options.append((0.8, lambda: ("not", self.test(inside))))
        if place.may_loop(self.world.players) and place.may_bind():
            options.append((1.5, lambda: self.of_players(place)))
        if place.may_loop(CARDS_OF_LOOP) and place.may_bind():
            options.append((1.5, lambda: self.of_cards(place)))
        return chance.done(options)

    def equality(self) -> str:
        return "=" if self.chance.holds(0.7) else "!="

    def has_value(self, place: Place) -> Form:
        attribute = self.attribute()
        values = self.world.attributes[attribute if self.chance.holds(0.9) else self.attribute()]
        return "is", self.card(place), attribute, self.chance.choice(values)

    def attribute_of(self, place: Place) -> Form:
        attribute = next(iter(self.world.attributes)) if self.chance.holds(0.6) else self.attribute()
        return "attr", self.card(place), attribute

    def joined(self, place: Place) -> Form:
        return self.chance.choice(("and", "or")), *(self.test(place) for _ in range(self.chance.weighted(((1, 1), (8, 2), (2, 3)))))

    def of_players(self, place: Place) -> Form:
        name = self.chance.choice(place.free_names())
        return self.chance.choice(("all", "any")), "player", name, self.test(place.in_loop(self.world.players).bound(name, PLAYER))

    def of_cards(self, place: Place) -> Form:
        name = self.chance.choice(place.free_names())
        inside = place.in_loop(CARDS_OF_LOOP).bound(name, CARD)
        return self.chance.choice(("all", "any")), self.collection(place.deeper()), name, self.test(inside)
