"""The text of a plan's matches."""

from collections.abc import Callable, Iterator

from second.machine import Decision, Machine
from second.naming import legend_of, marks_of
from second.sources import Form
from second.strategies import SHUFFLES, choose
from second.words import permute
from second.worlds import State

# The item that is taken at a decision, by the strategy of the seat and the seed of the seats.
Taking = Callable[[State, Decision, Form, int], int]

# A line tells how many shuffles there were, modulo this.
SHUFFLES_MODULUS = 1 << 32


def matches_of(plan: Form) -> list[tuple[int, int]]:
    """The two seeds of each match."""
    _, *matches = plan[2]
    if matches[0][0] == "from":
        deal, seats, count = map(int, matches[0][1:])
        return [(deal + number, seats + number) for number in range(count)]
    return [(int(deal), int(seats)) for deal, seats in matches]


def played(sheet: Form, plan: Form, named: bool = False) -> tuple[str, list[tuple]]:
    """What `play` writes, which names what items bind or doesn't, and what was asked of playouts."""
    machine, turns = Machine(sheet), int(plan[3][1])

    def take(state: State, decision: Decision, strategy: Form, seed: int) -> int:
        return choose(machine, state, decision, strategy, seed, turns)

    return text_of(lines_of(machine, plan, turns, take, named)), machine.asks


def replayed(sheet: Form, plan: Form, items: Iterator[int], named: bool) -> str:
    """What is written where these items are taken, which are there."""
    turns = int(plan[3][1])
    return text_of(lines_of(Machine(sheet), plan, turns, lambda *_: next(items), named))


def text_of(lines: Iterator[str]) -> str:
    return "".join(f"{line}\n" for line in lines)


def lines_of(machine: Machine, plan: Form, turns: int, taking: Taking, named: bool) -> Iterator[str]:
    """The lines of all matches, and the standings."""
    _, *strategies = plan[1]
    points = [0] * len(strategies)
    yield f"house {2 if named else 1}"
    yield from legend_of(machine) if named else []
    for number, (deal, seats) in enumerate(matches_of(plan)):
        yield f"match {number} deal {deal} seats {seats}"
        of_seat = [(seat + number) % len(strategies) for seat in range(len(strategies))]
        take = lambda *stop: taking(*stop, strategies[of_seat[stop[1].seat]], seats)
        gains = yield from match_lines(machine, deal, turns, take, named)
        for seat, gain in enumerate(gains):
            points[of_seat[seat]] += gain
    yield from standings_of(points)


def standings_of(points: list[int]) -> Iterator[str]:
    """The lines that close a text, of strategies with so many points."""
    for strategy in sorted(range(len(points)), key=lambda it: -points[it]):
        place = 1 + sum(other > points[strategy] for other in points)
        yield f"standing {place} strategy {strategy} points {points[strategy]}"


def started(machine: Machine, deal: int) -> State:
    """A match at its start, with the shuffles of its deal."""
    state = machine.start()
    state.shuffle = lambda its, cards: permute((deal, SHUFFLES, its.shuffles, 0), cards)
    return state


def match_lines(
    machine: Machine, deal: int, turns: int, take: Callable[[State, Decision], int], named: bool
) -> Iterator[str]:
    """The lines of a match, with the rank points."""
    state = started(machine, deal)
    stop = machine.advance(state, turns)
    while isinstance(stop, Decision):
        item = take(state, stop)
        marks = marks_of(machine, stop.menu[item]) if named else []
        yield " ".join((f"choose {stop.seat} {stop.site} {item} {len(stop.menu)}", *marks))
        machine.apply(state, stop, item)
        stop = machine.advance(state, turns)
    if shuffles := state.shuffles % SHUFFLES_MODULUS:
        yield f"shuffles {shuffles}"
    yield f"end {stop} {state.turn}"
    scores = machine.scores(state)
    gains = machine.rank_points(scores)
    yield from (f"score {player} {score} {gain}" for player, (score, gain) in enumerate(zip(scores, gains)))
    return gains
