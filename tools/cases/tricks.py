"""The trick game of `bench/tricks.sheet`, played from the rules alone, so that what the program writes of it can be compared.

It knows this one game and no sheet: 35 cards, four seats with six each, the suit that was led is followed, the best card of that
suit takes the trick and leads the next one, and who takes the last trick scores 1.
"""

import struct
from collections.abc import Iterator
from dataclasses import dataclass, field
from functools import cache

from cases.book import Key, hits

SEATS = 4
HAND = 6
SUITS = 4
CARDS = 35
WORD = 0xFFFFFFFF

# The strategies of the bench: a key, and for those that roll out the rounds.
STRATEGIES = ((1, 0), (2, 4), (3, 0), (4, 4))

# The seeds of matches: that of the shuffle and that of the seats.
Seeds = tuple[tuple[int, int], ...]


def quarter(s: list[int], a: int, b: int, c: int, d: int) -> None:
    """A quarter round of ChaCha."""
    for first, second, third, turn in ((a, b, d, 16), (c, d, b, 12), (a, b, d, 8), (c, d, b, 7)):
        s[first] = (s[first] + s[second]) & WORD
        mixed = s[third] ^ s[first]
        s[third] = (mixed << turn | mixed >> (32 - turn)) & WORD


def block(key: tuple[int, ...], number: int) -> list[int]:
    """The sixteen words of a block of ChaCha with eight rounds, with a counter of 64 bits and stream 0."""
    start = [0x61707865, 0x3320646E, 0x79622D32, 0x6B206574, *key, number & WORD, number >> 32, 0, 0]
    state = list(start)
    for _ in range(4):
        for column in range(4):
            quarter(state, column, 4 + column, 8 + column, 12 + column)
        for row in range(4):
            quarter(state, row, 4 + (row + 1) % 4, 8 + (row + 2) % 4, 12 + (row + 3) % 4)
    return [(word + begun) & WORD for word, begun in zip(state, start)]


def words(*numbers: int) -> Iterator[int]:
    """The words of the key of four numbers."""
    key = struct.unpack("<8I", struct.pack("<4Q", *numbers))
    number = 0
    while True:
        yield from block(key, number)
        number += 1


def pick(size: int, *numbers: int) -> int:
    return next(words(*numbers)) * size >> 32 if size > 1 else 0


def permuted(cards: list[int], *numbers: int) -> list[int]:
    cards, drawn = list(cards), words(*numbers)
    for i in range(len(cards) - 1, 0, -1):
        j = next(drawn) * (i + 1) >> 32
        cards[i], cards[j] = cards[j], cards[i]
    return cards


def suit(card: int) -> int:
    return card % SUITS


def worth(card: int) -> int:
    """The first 32 cards go rank by rank from 3 to 10, and the last three are aces."""
    return 11 if card >= 32 else card // SUITS + 3


@dataclass
class Table:
    """The cards, from bottom to top, who is to play, and how many turns went by."""

    stock: list[int]
    hands: list[list[int]]
    used: list[int] = field(default_factory=list)
    tricks: list[int | None] = field(default_factory=lambda: [None] * SEATS)
    lead: int | None = None
    mover: int = 0
    turn: int = 0
    last: int | None = None

    def copy(self) -> "Table":
        hands = [list(hand) for hand in self.hands]
        return Table(list(self.stock), hands, list(self.used), list(self.tricks), self.lead, self.mover, self.turn, self.last)

    def seen(self) -> Key:
        """What the mover sees: two moments look the same to him exactly where these are equal. Who leads, how many decisions each
        seat has made and which card was best follow from what stands here."""
        hands = [tuple(hand) if owner == self.mover else len(hand) for owner, hand in enumerate(self.hands)]
        return (self.mover, self.turn, len(self.stock), *hands, *self.tricks, self.lead, tuple(self.used), self.last)

    def menu(self) -> list[int]:
        """The cards that may be played, as they lie in the hand."""
        hand = self.hands[self.mover]
        if self.lead is None:
            return hand
        following = [card for card in hand if suit(card) == suit(self.lead)]
        return following or hand

    def play(self, item: int) -> None:
        card = self.menu()[item]
        self.turn += 1
        self.lead = card if self.lead is None else self.lead
        self.hands[self.mover].remove(card)
        self.tricks[self.mover] = card
        if None in self.tricks:
            self.mover = (self.mover + 1) % SEATS
        else:
            self.take_trick()
        self.begin_round()

    def take_trick(self) -> None:
        assert self.lead is not None
        played = [card for card in self.tricks if card is not None]
        followed = [worth(card) if suit(card) == suit(self.lead) else 0 for card in played]
        self.mover = self.last = followed.index(max(followed))
        self.used += played
        self.tricks, self.lead = [None] * SEATS, None

    def begin_round(self) -> None:
        """The rounds before the next decision: one of the mover, and one more where he leads."""
        if self.hands[self.mover]:
            self.turn += 2 if self.lead is None else 1

    def is_over(self) -> bool:
        return not any(self.hands)

    def points(self, seat: int) -> int:
        """Two for each seat that did worse, and one for each that did as well."""
        return 6 if seat == self.last else 2


def dealt(deal: int) -> Table:
    stock = permuted(list(range(CARDS)), deal, 1, 0, 0)
    hands = [[stock.pop() for _ in range(HAND)] for _ in range(SEATS)]
    table = Table(stock, hands)
    table.begin_round()
    return table


def redrawn(table: Table, seat: int, *numbers: int) -> Table:
    """The table with the cards that a seat doesn't see dealt anew: the stock first, and then the other hands."""
    copy = table.copy()
    others = [hand for owner, hand in enumerate(copy.hands) if owner != seat]
    unseen = permuted(sorted(sum(others, copy.stock)), *numbers)
    for place in [copy.stock, *others]:
        place[:], unseen = unseen[: len(place)], unseen[len(place) :]
    return copy


def gain(table: Table, seat: int, item: int, at: int, key: int, seed: int) -> int:
    """The points of a seat where this item is played and then every seat picks by chance. Its picks are numbered from `at` on."""
    table = table.copy()
    table.play(item)
    while not table.is_over():
        table.play(pick(len(table.menu()), key, 256 * seat + 4, seed, at))
        at += 1
    return table.points(seat)


def rolled_out(table: Table, key: int, rounds: int, seed: int) -> int:
    """The first item with the largest total."""
    seat = table.mover
    totals = [0] * len(table.menu())
    for number in range(rounds):
        drawn = redrawn(table, seat, key, 256 * seat + 3, seed, number)
        for item in range(len(totals)):
            totals[item] += gain(drawn, seat, item, (number << 48) + (item << 32), key, seed)
    return totals.index(max(totals))


def chosen(table: Table, strategy: int, seed: int) -> int:
    key, rounds = STRATEGIES[strategy]
    if rounds:
        return rolled_out(table, key, rounds, seed)
    return pick(len(table.menu()), key, 256 * table.mover + 2, seed, table.turn)


def asked(table: Table, strategy: int, seed: int) -> list[Key]:
    """The key by which a decision looks for totals, where its strategy rolls out."""
    key, rounds = STRATEGIES[strategy]
    return [(rounds, key, seed, table.seen())] if rounds else []


@dataclass(frozen=True)
class Match:
    """The lines of a match that was played, the card of each choice, its looks, and the points of each strategy."""

    lines: list[str]
    cards: list[int]
    looks: list[Key]
    points: list[int]


def played(number: int, deal: int, seed: int) -> Match:
    table, cards, looks = dealt(deal), [], []
    lines = [f"match {number} deal {deal} seats {seed}"]
    while not table.is_over():
        strategy = (table.mover + number) % SEATS
        looks += asked(table, strategy, seed)
        item = chosen(table, strategy, seed)
        cards.append(table.menu()[item])
        lines.append(f"choose {table.mover} 0 {item} {len(table.menu())}")
        table.play(item)
    lines += ["shuffles 1", f"end done {table.turn}"]
    lines += [f"score {seat} {int(seat == table.last)} {table.points(seat)}" for seat in range(SEATS)]
    return Match(lines, cards, looks, [table.points((strategy - number) % SEATS) for strategy in range(SEATS)])


def in_a_row(deal: int, seed: int, count: int) -> Seeds:
    """The seeds of so many matches, which count up."""
    return tuple((deal + number, seed + number) for number in range(count))


def of_bench(number: int) -> Seeds:
    """The seeds of the matches of a bench."""
    return in_a_row(number, 1000, number)


@cache
def matches(seeds: Seeds) -> list[Match]:
    return [played(number, deal, seed) for number, (deal, seed) in enumerate(seeds)]


def standings(of: list[Match]) -> list[str]:
    points = [sum(match.points[strategy] for match in of) for strategy in range(SEATS)]
    order = sorted(range(SEATS), key=lambda strategy: -points[strategy])
    return [f"standing {1 + sum(other > points[it] for other in points)} strategy {it} points {points[it]}" for it in order]


def text_of(lines: list[str]) -> str:
    return "".join(f"{line}\n" for line in lines)


def legend() -> list[str]:
    """A line for each card, since all are different."""
    ranks = ["A" if worth(card) == 11 else str(worth(card)) for card in range(CARDS)]
    return [f"face {card} RANK {rank} SUIT {'CDHS'[suit(card)]}" for card, rank in enumerate(ranks)]


def named_lines(match: Match) -> list[str]:
    """The lines of a match with the card that each choice took."""
    cards = iter(match.cards)
    return [f"{line} c{next(cards)}" if line.startswith("choose ") else line for line in match.lines]


def transcript(seeds: Seeds, named: bool = False) -> str:
    """What `play` writes of these matches, in format 2 where it is to name cards."""
    of = matches(seeds)
    head = ["house 2", *legend()] if named else ["house 1"]
    return text_of([*head, *(line for match in of for line in (named_lines(match) if named else match.lines)), *standings(of)])


def summary(number: int) -> str:
    """What `bench` writes of so many matches."""
    of = matches(of_bench(number))
    decisions = sum(line.startswith("choose ") for match in of for line in match.lines)
    return text_of([f"bench {number}", f"matches {number}", f"decisions {decisions}", "limits 0", *standings(of)])


def note(seeds: Seeds, capacity: int) -> str:
    """What is noted of these matches where one worker plays them and so many entries are remembered."""
    looks = [key for match in matches(seeds) for key in match.looks]
    return f"cache looks {len(looks)} hits {hits(looks, capacity)}\n"
