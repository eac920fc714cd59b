"""The least stack on which the deepest sheets play, by every command and with several workers."""

from __future__ import annotations

import subprocess
from collections.abc import Callable, Iterator

from limits.measuring import Cost, cost
from limits.sources import BEHIND, REVERSE, SCORING, SETUP, SHUFFLE, nest

# KiB, from small to large. The last is what a shell gives.
STACKS = (32, 64, 128, 256, 8192)
MOST_OPEN = 64
WORKERS = ("1", "2", "64")
PLAN = "(plan(seats(rollout 2 1)(random 1))(matches(0 0)(1 1))(turns 20))"
ROUNDS = "(stage player(end(= 0 1))"
CARD = "'C"


def with_effect(text: str) -> str:
    return f"{SETUP}{ROUNDS}(do{text}){BEHIND}"


def with_test(text: str) -> str:
    return with_effect(f"(if{text}{REVERSE})")


def with_domain(text: str) -> str:
    return with_effect(f"(move all{text}(top(game vloc P)))")


def with_number(text: str) -> str:
    return with_effect(f"(set(game sto N){text})")


# For each kind the sheet of so many lists inside one another.
KINDS: dict[str, Callable[[int], str]] = {
    "`or`": lambda depth: with_test(nest("(or", "(= 0 0)", ")", depth)),
    "`and`": lambda depth: with_test(nest("(and", "(= 0 0)", ")", depth)),
    "`not`": lambda depth: with_test(nest("(not", "(= 0 0)", ")", depth)),
    "the `end` of a stage": lambda depth: f"{SETUP}(stage player(end{nest('(or', '(= 0 0)', ')', depth)})(do{REVERSE})){SCORING}",
    "sums": lambda depth: with_number(nest("(+ ", "0", " 0)", depth)),
    "the scoring": lambda depth: f"{SETUP}{SHUFFLE}(scoring max{nest('(+ 0', '(game sto N)', ')', depth)}))",
    "filters": lambda depth: with_domain(nest("(filter", "(game hloc STOCK)", f"{CARD}(= 0 0))", depth)),
    "unions": lambda depth: with_domain(nest("(union(game hloc STOCK)", "(game hloc STOCK)", ")", depth)),
    "conditions": lambda depth: with_effect(nest("(if(= 0 0)", REVERSE, ")", depth)),
    "conditions of a choice": lambda depth: f"{SETUP}{ROUNDS}(choice(do{nest('(if(= 0 0)', REVERSE, ')', depth)})){BEHIND}",
    "the test of an alternative": lambda depth: f"{SETUP}{ROUNDS}(choice(if{nest('(or', '(= 0 0)', ')', depth)}{REVERSE})){BEHIND}",
    "stages": lambda depth: f"{SETUP}{nest(ROUNDS, f'(do{REVERSE})', ')', depth)}{SCORING}",
    "stages around a choice": lambda depth: f"{SETUP}{nest(ROUNDS, f'(choice(do{REVERSE}))', ')', depth)}{SCORING}",
    "values of a deck": lambda depth: deck(depth),
    "lists that are no sheet": lambda depth: nest("(", "", ")", depth),
}


def deck(depth: int) -> str:
    """A deck whose values have attributes of their own, as many inside one another."""
    groups = "(A0(0))"
    for number in range(1, depth // 3):
        groups = f"(A{number}((0{groups})))"
    return f"(game(setup(create players 2)(create deck(game hloc STOCK)(deck{groups}))){SHUFFLE}{SCORING}"


def most_open(text: str) -> int:
    """How many lists are open at one place at most."""
    counts = [0]
    for sign in text:
        counts.append(counts[-1] + {"(": 1, ")": -1}.get(sign, 0))
    return max(counts)


def deepest(kind: Callable[[int], str]) -> str:
    """The deepest sheet of a kind."""
    return max((kind(depth) for depth in range(3, MOST_OPEN + 1) if most_open(kind(depth)) <= MOST_OPEN), key=most_open)


def runs(program: str, sheet: str) -> Iterator[tuple[list[str], bytes]]:
    """The words and the source of every command on a sheet."""
    source = f"{sheet}{PLAN}".encode()
    yield ["sheet"], source
    yield from ((["play", "--workers", count], source) for count in WORKERS)
    yield ["watch", "0", "0"], source
    yield ["rival", "0", "2", "2", "1"], source
    played = subprocess.run([program, "play", "--format", "2"], input=source, capture_output=True, check=False)
    yield from (([command], source + played.stdout) for command in ("check", "migrate", "measure"))


def is_same(some: Cost, other: Cost) -> bool:
    return (some.status, some.note) == (other.status, other.note)


def least_stack(program: str, kind: Callable[[int], str]) -> int:
    """The least of the stacks on which every command ends on the deepest sheet of a kind as on the largest."""
    least = STACKS[0]
    for words, source in runs(program, deepest(kind)):
        whole = cost(program, words, source, STACKS[-1])
        while not is_same(cost(program, words, source, least), whole):
            least = STACKS[STACKS.index(least) + 1]
    return least


def least_stacks(program: str) -> Iterator[tuple[str, int]]:
    """For each kind of sheet the least stack in KiB."""
    yield from ((name, least_stack(program, kind)) for name, kind in KINDS.items())
