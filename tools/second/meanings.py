"""The second round of faults in items and in the scoring: names, sorts and limits."""

from dataclasses import dataclass, field, replace

from second.expressions import CARD, GROUP, OF_CARD, OF_OWNER, ORDERS, SUMS
from second.parts import Part
from second.setups import TOO_MANY, TWICE, UNKNOWN, WRONG_KIND, Setups, class_of
from second.worlds import GAME, MEM, PLAYER, TEAM

MOST_BOUND, MOST_REPEATS, MOST_STAGES, MOST_CHOICES, MOST_OWNED = 4, 2, 256, 64, 256
SELF = "'SELF"

# The sorts of sides beside those of variables.
NUMBER, VALUE = "number", "value"


@dataclass(frozen=True)
class Around:
    """What is around a place: the sorts of variables, how many lists bind one, stages of each class, and repeats."""

    sorts: dict[str, str] = field(default_factory=dict)
    bound: int = 0
    stages: frozenset[str] = frozenset()
    repeats: int = 0


class Meanings(Setups):
    """Collects the faults of the second round. The locations of decks stand first, outside of all stages."""

    def __init__(self, sheet: Part) -> None:
        _, setup, *items, scoring = sheet.parts
        super().__init__(setup)
        self.places: dict[str, tuple[str, str]] = {}
        self.numbers: dict[str, str] = {}
        self.stages = self.choices = self.owned_places = self.owned_numbers = 0
        for line in setup.parts[1:]:
            if line.parts[1].text == "deck":
                self.location(line.parts[2], Around())
        for item in items:
            self.item(item, Around())
        self.amount(scoring.parts[2], Around({SELF: PLAYER}))

    # Items

    def item(self, part: Part, around: Around) -> None:
        if part.head == "do":
            self.effects(part.parts[1:], around)
        elif part.head == "stage":
            self.stages += 1
            if self.stages == MOST_STAGES + 1:
                self.fault(part, TOO_MANY)
            inside = replace(around, stages=around.stages | {part.parts[1].text})
            self.test(part.parts[2].parts[1], inside)
            for it in part.parts[3:]:
                self.item(it, inside)
        else:
            self.choices += 1
            if self.choices == MOST_CHOICES + 1:
                self.fault(part, TOO_MANY)
            self.inside(PLAYER, part, around)
            for it in part.parts[1:]:
                self.alternative(it, around)

    def inside(self, stage: str, part: Part, around: Around) -> None:
        """A part that stands inside stages of a class alone."""
        if stage not in around.stages:
            self.fault(part, UNKNOWN)

    def alternative(self, part: Part, around: Around) -> None:
        if part.head == "any":
            self.alternative(part.parts[3], self.binding(part, around))
            return
        if part.head == "if":
            self.test(part.parts[1], around)
        self.effects(part.parts[2:] if part.head == "if" else part.parts[1:], around)

    # Effects

    def effects(self, parts: tuple[Part, ...], around: Around) -> None:
        for part in parts:
            self.effect(part, around)

    def effect(self, part: Part, around: Around) -> None:
        one, *others = part.parts[1:]
        if part.head == "repeat":
            if around.repeats == MOST_REPEATS:
                self.fault(part, TOO_MANY)
            self.amount(one, around)
            self.effects(part.parts[2:], replace(around, repeats=around.repeats + 1))
        elif part.head == "all":
            self.effects(part.parts[3:], self.binding(part, around))
        elif part.head == "if":
            self.test(one, around)
            self.effects(part.parts[2:], around)
        elif part.head in ("set", "inc", "dec"):
            self.number(one, around)
            self.amount(others[0], around)
        elif part.head == "cycle":
            self.cycle(part, around)
        else:
            self.of_cards(part, around)

    def of_cards(self, part: Part, around: Around) -> None:
        """An effect on cards."""
        one, *others = part.parts[1:]
        if part.head == "shuffle":
            self.place(one, around, is_mem=False)
        elif part.head == "peek":
            self.collection(one, around)
            self.owner(others[0], around)
        elif part.head == "move" and one.text == "all":
            self.collection(others[0], around)
            self.place(others[1].parts[1], around, is_mem=False)
        else:
            self.card(one, around)
            if others:
                self.place(others[0].parts[1], around, is_mem=part.head == "remember")

    def place(self, part: Part, around: Around, is_mem: bool) -> None:
        """A location with which something is done that only is done with a `mem`, or never is."""
        self.location(part, around)
        if (part.parts[1].text == MEM) != is_mem:
            self.fault(part, WRONG_KIND)

    def cycle(self, part: Part, around: Around) -> None:
        if part.parts[1].text == "reverse":
            if not around.stages:
                self.fault(part, UNKNOWN)
            return
        self.inside(class_of(part.parts[2]), part, around)
        self.owner(part.parts[2], around)

    # Variables

    def binding(self, part: Part, around: Around) -> Around:
        """A list that goes over players, cards or groups, and what is around its body."""
        _, domain, variable, *_ = part.parts
        sort = PLAYER if domain.text == PLAYER else GROUP if domain.head == "partition" else CARD
        inside = self.bound(part, variable.text, sort, around)
        if sort == GROUP:
            self.collection(domain.parts[1], around)
            self.known_name(domain.parts[2], self.attributes)
        elif sort == CARD:
            self.collection(domain, around)
        return inside

    def bound(self, part: Part, name: str, sort: str, around: Around) -> Around:
        if name in around.sorts:
            self.fault(part, TWICE)
        if around.bound == MOST_BOUND:
            self.fault(part, TOO_MANY)
        return replace(around, sorts={**around.sorts, name: sort}, bound=around.bound + 1)

    def variable(self, part: Part, wanted: str, around: Around) -> None:
        sort = around.sorts.get(part.text)
        if sort != wanted:
            self.fault(part, WRONG_KIND if sort else UNKNOWN)

    def known_name(self, part: Part, names: set[str]) -> None:
        if part.text not in names:
            self.fault(part, UNKNOWN)

    # Owners, locations and numbers

    def owner(self, part: Part, around: Around) -> None:
        if part.text == GAME:
            return
        if part.head == TEAM:
            self.owner(part.parts[2], around)
        elif part.is_list:
            self.inside(part.parts[1].text, part, around)
        else:
            self.variable(part, PLAYER, around)

    def location(self, part: Part, around: Around) -> None:
        holder, kind, name = part.parts
        its = kind.text, class_of(holder)
        if self.places.setdefault(name.text, its) != its:
            self.fault(part, WRONG_KIND)
        self.owned_places = self.owned(part, [self.counts[owner] for _, owner in self.places.values()], self.owned_places)
        self.owner(holder, around)

    def number(self, part: Part, around: Around) -> None:
        holder, _, name = part.parts
        its = class_of(holder)
        if self.numbers.setdefault(name.text, its) != its:
            self.fault(part, WRONG_KIND)
        self.owned_numbers = self.owned(part, [self.counts[owner] for owner in self.numbers.values()], self.owned_numbers)
        self.owner(holder, around)

    def owned(self, part: Part, counts: list[int], before: int) -> int:
        """How many locations or numbers there are, of which there may be so many."""
        if before <= MOST_OWNED < sum(counts):
            self.fault(part, TOO_MANY)
        return sum(counts)

    # Cards and collections

    def card(self, part: Part, around: Around) -> None:
        if not part.is_list:
            self.variable(part, CARD, around)
            return
        self.collection(part.parts[1], around)
        if part.head in ("max", "min"):
            self.known_name(part.parts[3], self.maps)

    def collection(self, part: Part, around: Around) -> None:
        if not part.is_list:
            self.variable(part, GROUP, around)
        elif part.head == "filter":
            inside = self.bound(part, part.parts[2].text, CARD, around)
            self.collection(part.parts[1], around)
            self.test(part.parts[3], inside)
        elif part.head == "union":
            for it in part.parts[1:]:
                self.collection(it, around)
        elif part.head == "known":
            self.inside(PLAYER, part, around)
            self.location(part.parts[1], around)
        else:
            self.location(part, around)

    # Amounts and tests

    def amount(self, part: Part, around: Around) -> None:
        if part.head in SUMS:
            self.amount(part.parts[1], around)
            self.amount(part.parts[2], around)
        elif part.head in ("size", "sum"):
            self.collection(part.parts[1], around)
        elif part.head == "points":
            self.card(part.parts[1], around)
        elif part.is_list:
            self.number(part, around)
        if part.head in ("sum", "points"):
            self.known_name(part.parts[3], self.maps)

    def test(self, part: Part, around: Around) -> None:
        one, *others = part.parts[1:]
        if part.head in ("=", "!="):
            sorts = self.side(one, around), self.side(others[0], around)
            if None not in sorts and sorts[0] != sorts[1]:
                self.fault(others[0], WRONG_KIND)
        elif part.head in ORDERS:
            self.amount(one, around)
            self.amount(others[0], around)
        elif part.head == "is":
            self.card(one, around)
            self.known_name(others[0], self.attributes)
            self.known_name(others[1], self.values)
        elif part.head in ("and", "or", "not"):
            for it in part.parts[1:]:
                self.test(it, around)
        else:
            self.test(others[1], self.binding(part, around))

    def side(self, part: Part, around: Around) -> str | None:
        """The sort of a side, if it is known."""
        if part.is_variable:
            sort = around.sorts.get(part.text)
            if sort in (None, GROUP):
                self.fault(part, WRONG_KIND if sort else UNKNOWN)
            return None if sort == GROUP else sort
        if part.head == "attr":
            self.card(part.parts[1], around)
            self.known_name(part.parts[2], self.attributes)
            return VALUE
        if part.head in OF_CARD:
            self.card(part, around)
            return CARD
        if part.head in OF_OWNER:
            self.owner(part, around)
            return class_of(part)
        self.amount(part, around)
        return NUMBER
