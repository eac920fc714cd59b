"""What strategies choose."""

from itertools import count

from second.machine import DONE, LIMIT, Decision, Machine
from second.sources import Form
from second.words import Key, permute, pick_of
from second.worlds import MEM, NOBODY, State

# Purposes of keys.
SHUFFLES, RANDOM, REDRAWS, PICKS, PLAYOUT_SHUFFLES = range(1, 6)


def key_of(number: int, seat: int, purpose: int, seed: int, last: int) -> Key:
    return number, 256 * seat + purpose, seed, last


def choose(machine: Machine, state: State, decision: Decision, strategy: Form, seed: int, turns: int) -> int:
    """The item that a strategy takes."""
    kind, *numbers = strategy
    size = len(decision.menu)
    if kind == "script":
        made = state.made[decision.seat]
        return int(numbers[made]) % size if made < len(numbers) else 0
    if kind == "random":
        return pick_of(key_of(int(numbers[0]), decision.seat, RANDOM, seed, state.turn), size)
    ask = int(numbers[0]), int(numbers[1]), seed
    machine.asks.append((ask, decision.site, view_of(machine, state, decision.seat)))
    totals = totals_of(machine, state, decision, ask, turns)
    return totals.index(max(totals))


def view_of(machine: Machine, state: State, seat: int) -> tuple:
    """What a seat sees, with nothing where it doesn't know a card, and where the match stands."""
    sights = []
    for cards, place in zip(state.cards, machine.places):
        sights.append(tuple(machine.looks[card] if machine.knows(state, seat, card, place) else None for card in cards))
    frames = tuple((frame.owner, frame.member, frame.is_back, frame.named) for frame in state.frames)
    return seat, tuple(state.numbers), tuple(sights), frames, state.turn, tuple(state.made)


def hits_of(asks: list[tuple], room: int) -> int:
    """How many asks find what was asked before, where so many are remembered and the one not asked for longest is forgotten."""
    remembered: dict[tuple, None] = {}
    hits = 0
    for ask in asks:
        hits += ask in remembered
        remembered.pop(ask, None)
        remembered[ask] = None
        if len(remembered) > room:
            del remembered[next(iter(remembered))]
    return hits


def totals_of(machine: Machine, state: State, decision: Decision, ask: tuple[int, int, int], turns: int) -> list[int]:
    """What each item gains in its playouts: `ask` has the rounds, the key of the strategy and the seed of the seats."""
    rounds, number, seed = ask
    seat, totals = decision.seat, [0] * len(decision.menu)
    for at in range(rounds):
        drawn = redrawn(machine, state, seat, key_of(number, seat, REDRAWS, seed, at))
        for item in range(len(totals)):
            totals[item] += gain(machine, drawn.copy(), item, seat, (number, seed, at << 48 | item << 32), turns)
    return totals


def redrawn(machine: Machine, state: State, seat: int, key: Key) -> State:
    """The state with the cards that a seat doesn't know dealt anew, and the known ones and references told by their looks. The seat
    goes on knowing what it was shown, and of no other seat it is known what that was shown."""
    drawn = state.copy()
    drawn.marks = [NOBODY] * len(state.marks)
    left = {look: list(cards) for look, cards in machine.alike.items()}
    places = [(at, place) for at, place in enumerate(machine.places) if place.kind != MEM]
    known: dict[tuple[int, int], int] = {}
    for at, place in places:
        for height, card in enumerate(state.cards[at]):
            if machine.knows(state, seat, card, place):
                known[at, height] = left[machine.looks[card]].pop(0)
    unknown = sorted(card for cards in left.values() for card in cards)
    permute(key, unknown)
    dealt = iter(unknown)
    for at, place in places:
        for height in range(len(state.cards[at])):
            card = known[at, height] if (at, height) in known else next(dealt)
            drawn.cards[at][height], drawn.where[card] = card, at
            if (at, height) in known and not machine.sees(seat, place):
                drawn.marks[card] = frozenset({seat})
    for at, place in enumerate(machine.places):
        if place.kind == MEM:
            drawn.cards[at] = [machine.looks[card] for card in state.cards[at]]
    return drawn


def gain(machine: Machine, state: State, item: int, seat: int, ask: tuple[int, int, int], turns: int) -> int:
    """The rank points of a seat after an item is played to the end, with all picks and shuffles by chance."""
    number, seed, first = ask
    drawn = count(first)
    state.shuffle = lambda _, cards: permute(key_of(number, seat, PLAYOUT_SHUFFLES, seed, next(drawn)), cards)
    stop = machine.advance(state, turns)
    while isinstance(stop, Decision):
        machine.apply(state, stop, item)
        stop = machine.advance(state, turns)
        if isinstance(stop, Decision):
            item = pick_of(key_of(number, seat, PICKS, seed, next(drawn)), len(stop.menu))
    assert stop in (DONE, LIMIT)
    return machine.rank_points(machine.scores(state))[seat]
