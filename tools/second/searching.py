"""Matches in which a strategy is replaced by a search."""

from collections.abc import Callable

from second.machine import Decision, Machine
from second.playing import lines_of, text_of
from second.sources import Form
from second.strategies import choose, key_of, redrawn
from second.words import Key, permute
from second.worlds import State

SEARCH = "search"

# Purposes of keys, and by how many shuffles those of a round are apart.
REDRAWS, SHUFFLES = 6, 7
OF_ROUND = 1 << 48


def rivaled(sheet: Form, plan: Form, strategy: int, depth: int, rounds: int, key: int) -> str:
    """What `rival` writes: the text of the matches with a search in the place of a strategy."""
    head, *strategies = plan[1]
    strategies[strategy] = SEARCH, depth, rounds, key
    replaced = plan[0], (head, *strategies), *plan[2:]
    machine, turns = Machine(sheet), int(plan[3][1])

    def take(state: State, decision: Decision, strategy: Form, seed: int) -> int:
        if strategy[0] == SEARCH:
            return searched(machine, state, decision, strategy[1:], seed, turns)
        return choose(machine, state, decision, strategy, seed, turns)

    return text_of(lines_of(machine, replaced, turns, take, named=False))


def searched(machine: Machine, state: State, decision: Decision, rival: tuple[int, int, int], seed: int, turns: int) -> int:
    """The first item of those that gain the most in all rounds."""
    depth, rounds, key = rival
    seat, totals = decision.seat, [0] * len(decision.menu)
    for at in range(rounds):
        drawn = redrawn(machine, state, seat, key_of(key, seat, REDRAWS, seed, at))
        shuffle_by(drawn, lambda number: key_of(key, seat, SHUFFLES, seed, at * OF_ROUND + number % OF_ROUND))
        for item, gains in enumerate(tried(machine, drawn, depth - 1, turns)):
            totals[item] += gains[seat]
    return totals.index(max(totals))


def shuffle_by(state: State, key: Callable[[int], Key]) -> None:
    """Has shuffles numbered from here on, along each way by itself, and done by the keys of their numbers."""
    state.shuffles = 0
    state.shuffle = lambda its, cards: permute(key(its.shuffles), cards)


def tried(machine: Machine, state: State, depth: int, turns: int) -> list[list[int]]:
    """What each item of a decision is worth, so many decisions deep behind it."""
    stop = machine.advance(state, turns)
    found = []
    for item in range(len(stop.menu)):
        behind = state.copy()
        machine.apply(behind, stop, item)
        found.append(worth(machine, behind, depth, turns))
    return found


def worth(machine: Machine, state: State, depth: int, turns: int) -> list[int]:
    """The rank points of all players where a match comes to from here, if each who chooses takes what is best for himself."""
    stop = machine.advance(state, turns)
    if not isinstance(stop, Decision) or not depth:
        return machine.rank_points(machine.scores(state))
    return max(tried(machine, state, depth - 1, turns), key=lambda gains: gains[stop.seat])
