"""Effects by chance."""

from dataclasses import replace

from agreeing.expressions import CURRENT_PLAYER, MISPLACED, Expressions, Options
from agreeing.forms import Form
from agreeing.places import CARD, CARDS_OF_LOOP, GROUP, MOST_REPEATS, PLAYER, Place

# Seldom so many references are remembered that a `mem` is full, and so much is repeated that the rest is left out.
FILLING = (600, 1000)
MOST_TIMES = 1000


class Effects(Expressions):
    """Makes effects that a place allows."""

    def effects(self, place: Place, least: int = 1, most: int = 2) -> list[Form]:
        return [self.effect(place) for _ in range(self.chance.randint(least, most))]

    def effect(self, place: Place) -> Form:
        return self.chance.done([*self.of_cards_moved(place), *self.of_numbers(place), *self.of_stages(place), *self.of_blocks(place)])

    def spot(self, location: Form) -> Form:
        return self.chance.weighted(((3, "top"), (1, "bottom"))), location

    def of_cards_moved(self, place: Place) -> Options:
        chance, memories = self.chance, self.memories(place)
        options: Options = [
            (6, lambda: self.move(place, self.card(place))),
            (2, lambda: ("move", "all", self.collection(place), self.spot(self.with_cards(place)))),
            (0.8, lambda: ("shuffle", self.with_cards(place))),
            (0.3, lambda: ("forget", self.card(place))),
        ]
        if owners := [*self.players(place), *self.teams(place)]:
            options.append((2, lambda: ("peek", self.collection(place), chance.choice(owners))))
        else:
            options.append((MISPLACED, lambda: ("peek", self.collection(place), CURRENT_PLAYER)))
        if memories:
            options.append((2.5, lambda: self.remember(self.card(place), memories)))
            options.append((2.5, lambda: ("forget", (chance.choice(("top", "bottom")), chance.weighted(memories)))))
        if memories and place.load == 1:
            options.append((0.08, lambda: ("repeat", chance.choice(FILLING), self.remember(self.card(place), memories))))
        return options

    def move(self, place: Place, card: Form) -> Form:
        return "move", card, self.spot(self.with_cards(place))

    def remember(self, card: Form, memories: list[tuple[float, Form]]) -> Form:
        return "remember", card, self.spot(self.chance.weighted(memories))

    def of_numbers(self, place: Place) -> Options:
        many = self.chance.randint(MOST_TIMES - 1, MOST_TIMES + 1)
        return [
            (0.03 if place.load == 1 else 0, lambda: ("repeat", many, ("inc", self.stored(place), 1))),
            (1, lambda: ("set", self.stored(place), self.amount(place))),
            (2.5, lambda: ("inc", self.stored(place), self.amount(place))),
            (1, lambda: ("dec", self.stored(place), self.amount(place))),
        ]

    def of_stages(self, place: Place) -> Options:
        options: Options = []
        for is_in, owners in ((place.in_players, self.players(place)), (place.in_teams, self.teams(place))):
            if is_in:
                options.append((1.5, lambda owners=owners: ("cycle", "next", self.chance.choice(owners))))
        if place.in_players or place.in_teams:
            options.append((1.5, lambda: ("cycle", "reverse")))
        return options

    def of_blocks(self, place: Place) -> Options:
        options: Options = []
        if place.depth > 0:
            options.append((2.5, lambda: ("if", self.test(place), *self.effects(place.deeper()))))
        if place.may_loop(self.world.players) and place.may_bind():
            options.append((1.5, lambda: self.for_players(place)))
        if place.may_loop(CARDS_OF_LOOP) and place.may_bind():
            options.append((1.5, lambda: self.for_cards(place)))
        if place.may_loop(4) and place.repeats < MOST_REPEATS:
            options.append((1.5, lambda: self.repeat(place)))
        return options

    def repeat(self, place: Place) -> Form:
        """A repeat of a few times. How often a number or a size says, is said outside all loops alone."""
        times: Form = self.chance.weighted(((1, -1), (1, 0), (3, 1), (6, 2), (4, 3), (1, 5)))
        if place.load == 1 and self.chance.holds(0.25):
            times = ("size", self.sized(place.deeper()))
        elif place.load == 1 and self.chance.holds(0.1):
            times = self.amount(place)
        return "repeat", times, *self.effects(replace(place.in_loop(4), repeats=place.repeats + 1))

    def for_players(self, place: Place) -> Form:
        name = self.chance.choice(place.free_names())
        inside = place.in_loop(self.world.players).bound(name, PLAYER)
        return "all", "player", name, *self.effects_on(inside, name, PLAYER)

    def for_cards(self, place: Place) -> Form:
        name = self.chance.choice(place.free_names())
        inside = place.in_loop(CARDS_OF_LOOP).bound(name, CARD)
        return "all", self.collection(place), name, *self.effects_on(inside, name, CARD)

    def effects_on(self, place: Place, name: str, sort: str) -> list[Form]:
        """Effects of which the first mostly does something with a variable."""
        if self.chance.holds(0.3):
            return self.effects(place)
        return [self.effect_on(place, name, sort), *self.effects(place, 0, 1)]

    def effect_on(self, place: Place, name: str, sort: str) -> Form:
        """An effect on what a variable stands for."""
        chance, memories = self.chance, self.memories(place)
        if sort == PLAYER:
            return self.effect_on_player(place, name)
        options: Options = []
        if sort == CARD:
            options.append((5, lambda: self.move(place, name)))
            if memories:
                options.append((2, lambda: self.remember(name, memories)))
                options.append((1, lambda: ("forget", name)))
            if self.world.maps:
                options.append((1, lambda: ("inc", self.stored(place), ("points", name, "using", self.points_map()))))
        if sort == GROUP:
            options.append((5, lambda: ("move", "all", name, self.spot(self.with_cards(place)))))
            options.append((1, lambda: ("inc", self.stored(place), ("size", name))))
            options.append((2, lambda: self.move(place, (chance.choice(("top", "bottom")), name))))
            options.append((1, lambda: ("peek", name, chance.choice([*self.players(place), *self.teams(place)]))))
        return chance.done(options)

    def effect_on_player(self, place: Place, name: str) -> Form:
        """An effect on a player's cards or numbers, or one that names him."""
        chance = self.chance
        to = [it for it in self.locations(place, lambda kind: kind != "mem") if it[1][0] == name]
        numbers = [it for it in self.stored_numbers(place) if it[0] == name]
        options: Options = [(2, lambda: ("inc", chance.choice(numbers), self.amount(place)))]
        if to:
            options.append((5, lambda: ("move", self.card(place), self.spot(chance.weighted(to)))))
            options.append((1, lambda: ("move", "all", chance.weighted(to), self.spot(self.with_cards(place)))))
        options.append((2, lambda: ("peek", self.collection(place), name)))
        if place.in_players:
            options.append((1.5, lambda: ("cycle", "next", name)))
        return chance.done(options)

    def own_hand(self, place: Place) -> Form:
        """A location of the current player, whose cards he sees."""
        own = [it for it in self.locations(replace(place, only_seen=True), lambda kind: kind != "mem") if it[1][0] == CURRENT_PLAYER]
        return self.chance.weighted(own)
