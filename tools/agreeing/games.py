"""Sheets by chance."""

from dataclasses import replace

from agreeing.effects import Effects
from agreeing.expressions import CURRENT_PLAYER, Options
from agreeing.forms import Form
from agreeing.places import CARD, GROUP, PLAYER, SELF, Place
from agreeing.worlds import GAME, HAND, ILOC, MEM, STOCK, TEAM, Location

NEVER: Form = ("=", 0, 1)


class Games(Effects):
    """Makes a sheet of a world."""

    def sheet(self) -> Form:
        opening = self.opening()
        items = [self.item(Place(), 2) for _ in range(self.chance.weighted(((3, 0), (2, 1))))]
        items += [part for _ in range(self.chance.weighted(((3, 1), (1, 2)))) for part in self.stage(Place(), self.owner_of_stage(0.8), 2)]
        items += [self.item(Place(), 2) for _ in range(self.chance.weighted(((3, 0), (1, 1))))]
        return "game", ("setup", *self.world.lines), opening, *items, self.scoring()

    # The deal

    def opening(self) -> Form:
        """Deals cards from the stock, mostly shuffled, into most locations."""
        stock = self.stock()
        effects: list[Form] = [("shuffle", stock)] if self.chance.holds(0.85) else []
        for location in self.world.locations:
            if not location.has_deck and self.chance.holds(0.97 if location.name == HAND else 0.5):
                effects.append(self.deal(stock, location))
                self.filled.add(location.name)
        if self.chance.holds(0.5):
            effects.append(("all", "player", "'P", self.shown(Place().bound("'P", PLAYER))))
        effects += self.effects(Place(), 0, 1)
        return "do", *(effects or [("shuffle", stock)])

    def shown(self, place: Place) -> Form:
        """Shows a player some cards, or seldom his team, and mostly not all that lie there."""
        cards = self.with_cards(place)
        if self.chance.holds(0.7):
            cards = "filter", cards, "'C", self.has_value(place.bound("'C", CARD))
        return "peek", cards, self.chance.choice(("'P", "'P", ("team", "of", "'P")))

    def stock(self) -> Form:
        return next((GAME, it.kind, it.name) for it in self.world.locations if it.name == STOCK)

    def deal(self, stock: Form, location: Location) -> Form:
        """Deals to each owner of a location some cards, or has it remember some."""
        to_each = "'P" if location.owner == PLAYER else ("team", "of", "'P") if location.owner == TEAM else GAME
        spot = self.spot((to_each, location.kind, location.name))
        count = max(1, min(5, self.world.cards // (2 * self.world.players)))
        dealt: Form = "move", ("top", stock), spot
        after: list[Form] = []
        if location.kind == MEM:
            dealt = "remember", ("top", stock), spot
            after = [("move", ("top", stock), ("bottom", stock))] if self.chance.holds(0.7) else []
        dealt = "repeat", self.chance.randint((count + 1) // 2, count), dealt, *after
        return dealt if location.owner == GAME else ("all", "player", "'P", dealt)

    # Items

    def item(self, place: Place, depth: int) -> Form:
        """An item that is no stage: a choice, where there may be one, or effects."""
        if place.in_players and self.chance.holds(0.6):
            return self.choice(place)
        return "do", *self.effects(place, 1, 3)

    def stage(self, place: Place, owner: str, depth: int) -> list[Form]:
        """A stage and what is to stand before it. Its rounds are mostly counted."""
        inside = replace(place, in_players=place.in_players or owner == PLAYER, in_teams=place.in_teams or owner == TEAM)
        counter = f"ROUND-{len(self.counters)}"
        rounds = self.chance.randint(1, 4) if place.in_players or place.in_teams else self.chance.randint(2, 9)
        reset: list[Form] = [("do", ("set", (GAME, "sto", counter), 0))] if self.chance.holds(0.9) else []
        self.counters.append(counter)
        end = self.end(inside, (GAME, "sto", counter), rounds)
        body = self.body(inside, depth)
        count: Form = ("do", ("inc", (GAME, "sto", counter), 1), *self.effects(inside, 0, 1))
        at = self.chance.choice((0, 0, len(body)))
        return [*reset, ("stage", owner, ("end", end), *body[:at], count, *body[at:])]

    def owner_of_stage(self, players: float) -> str:
        return PLAYER if self.chance.holds(players) else TEAM

    def end(self, place: Place, counter: Form, rounds: int) -> Form:
        """When a stage ends: mostly behind so many rounds, and seldom before the first."""
        chance = self.chance
        counted: Form = (">=", counter, rounds)
        options: Options = [
            (6, lambda: counted),
            (4, lambda: ("or", counted, self.end_of_cards())),
            (2, lambda: ("or", counted, ("and", (">", counter, 0), self.test(place)))),
            (1, lambda: ("or", counted, self.test(place))),
            (1, lambda: ("and", counted, self.test(place))),
            (1, self.end_of_cards),
            (0.5, lambda: NEVER),
        ]
        return chance.done(options)

    def end_of_cards(self) -> Form:
        """Whether the stock is empty, or the hand of some player or of all."""
        which = self.chance.weighted(((2, "stock"), (1, "any"), (3, "all")))
        if which == "stock":
            return "=", ("size", self.stock()), 0
        return which, "player", "'P", ("=", ("size", ("'P", ILOC, HAND)), 0)

    def body(self, place: Place, depth: int) -> list[Form]:
        """The items of a stage: a choice or a stage inside it, and others."""
        body: list[Form] = []
        if depth > 0 and self.chance.holds(0.45 if place.in_players else 0.9):
            body += self.stage(place, self.owner_of_stage(0.7 if place.in_players else 1), depth - 1)
        if place.in_players and (not body or self.chance.holds(0.6)):
            body.append(self.choice(place))
        body += [self.item(place, depth) for _ in range(self.chance.weighted(((4, 0), (2, 1))))]
        return body

    # Choices

    def choice(self, place: Place) -> Form:
        """A choice, mostly with an item that is always there."""
        count = self.chance.weighted(((2, 1), (5, 2), (3, 3), (0.5, 6)))
        always = [("do", *self.simple(place))] if self.chance.holds(0.6) else []
        return "choice", *(self.alternative(place, 2 if self.chance.holds(0.9) else 3) for _ in range(count)), *always

    def simple(self, place: Place) -> list[Form]:
        """To draw a card, to count, or other effects."""
        draw: Form = ("move", ("top", self.stock()), self.spot((CURRENT_PLAYER, ILOC, HAND)))
        options = ((3, lambda: [draw]), (2, lambda: [self.counted(place)]), (3, lambda: self.effects(place)))
        return self.chance.done(options)

    def gain(self, place: Place) -> list[Form]:
        """Often something that the current player has of it, so that it matters what is chosen."""
        return [self.counted(place)] if self.chance.holds(0.35) else []

    def counted(self, place: Place) -> Form:
        numbers = [it for it in self.stored_numbers(place) if it[0] == CURRENT_PLAYER]
        return self.chance.choice(("inc", "inc", "dec")), self.chance.choice(numbers), self.amount(place)

    def alternative(self, place: Place, most: int) -> Form:
        """An alternative with so many binders at most."""
        chance = self.chance
        options: Options = [
            (1.5, lambda: ("do", *self.effects(place), *self.gain(place))),
            (2, lambda: ("if", self.test(replace(place, only_seen=True)), *self.effects(place), *self.gain(place))),
        ]
        if most > 0:
            options.append((7, lambda: self.any(place, most)))
        return chance.done(options)

    def any(self, place: Place, most: int) -> Form:
        """An alternative for each member of a domain."""
        sort, domain = self.domain(replace(place, only_seen=True))
        name = self.chance.choice(place.free_names())
        inside = place.bound(name, sort)
        if most > 1 and self.chance.holds(0.25):
            return "any", domain, name, self.any(inside, most - 1)
        return "any", domain, name, self.innermost(inside, name, sort)

    def innermost(self, place: Place, name: str, sort: str) -> Form:
        """The item of each member, mostly for some of them."""
        effects = [*self.effects_on(place, name, sort), *self.gain(place)]
        if self.chance.holds(0.5):
            return "do", *effects
        return "if", self.guard(replace(place, only_seen=True), name, sort), *effects

    def guard(self, place: Place, name: str, sort: str) -> Form:
        """A test, mostly of a variable."""
        chance = self.chance
        if chance.holds(0.35):
            return self.test(place)
        if sort == PLAYER:
            return "!=", name, CURRENT_PLAYER
        if sort == GROUP:
            return ">", ("size", name), chance.randint(0, 2)
        attribute = self.attribute()
        beside = ("attr", self.card(place), attribute)
        return "or", (self.equality(), ("attr", name, attribute), beside), self.test(place)

    def domain(self, place: Place) -> tuple[str, Form]:
        """A domain, with the sort of its members. Mostly it is about the cards in a hand."""
        chance = self.chance
        cards = self.own_hand(place) if chance.holds(0.6) else self.collection(place)
        if (memories := self.memories(place)) and chance.holds(0.12):
            cards = chance.weighted(memories)
        elif chance.holds(0.25):
            cards = self.known(place)
        options = ((6.0, (CARD, cards)), (2.0, (PLAYER, "player")), (3.0, (GROUP, ("partition", cards, self.attribute()))))
        return chance.weighted(options)

    # The end

    def scoring(self) -> Form:
        """The scoring, mostly by several things that the player has who is scored."""
        place = Place(in_scoring=True).bound(SELF, PLAYER)
        amount = self.amount(place)
        if self.chance.holds(0.9):
            own = [it for it in self.locations(place, lambda _: True) if SELF in it[1][0]]
            numbers = [it for it in self.stored_numbers(place) if it[0] == SELF]
            location = self.chance.weighted(own)
            of_cards: Form = ("size", location)
            if self.world.maps and self.chance.holds(0.6):
                of_cards = ("sum", location, "using", self.points_map())
            own_amount: Form = ("+", of_cards, self.chance.choice(numbers))
            amount = own_amount if self.chance.holds(0.5) else ("+", own_amount, amount)
        return "scoring", self.chance.choice(("max", "max", "min")), amount
