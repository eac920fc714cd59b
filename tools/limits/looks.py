"""How much memory a look at a decision takes, which a play keeps until it is written."""

from __future__ import annotations

from collections.abc import Iterator
from dataclasses import dataclass
from pathlib import Path

from limits.measuring import cost

ROOT = Path(__file__).resolve().parent.parent.parent
DECK = f"(create deck (game hloc D) (deck (A ({' '.join(map(str, range(16)))})) (B ({' '.join(map(str, range(32)))}))))"
LOCATIONS, NUMBERS, REFERENCES, IN_MEM = 256, 256, 1024, 512
TURNS = 64


@dataclass(frozen=True)
class Game:
    """A sheet, who plays it, and two numbers of matches: what the larger takes more is for its looks."""

    name: str
    sheet: str
    seats: str
    matches: tuple[int, int]


def largest(players: int, items: int) -> str:
    """A sheet whose views are as large as they may be: 512 cards that nobody sees lie in one location, all others hold references, most of
    them one each, since what a location takes beside them weighs more, and all numbers are there."""
    mems = LOCATIONS - 1
    fills = ["(all (game hloc D) 'C (remember 'C (top (game mem M0))))"]
    fills.append(f"(repeat {REFERENCES - IN_MEM - (mems - 2)} (remember (top (game hloc D)) (top (game mem M1))))")
    fills += [f"(remember (top (game hloc D)) (top (game mem M{number})))" for number in range(2, mems)]
    fills += [f"(set (game sto N{number}) 1)" for number in range(NUMBERS)]
    choice = f"(choice {'(do (inc (game sto N0) 1))' * items})"
    return (
        f"(game (setup (create players {players}) {DECK}) (do {' '.join(fills)}) "
        f"(stage player (end (= 0 1)) {choice}) (scoring max (game sto N0)))"
    )


def games() -> Iterator[Game]:
    tricks = (ROOT / "bench/tricks.sheet").read_text("utf-8")
    yield Game("the trick game of `bench`", tricks, "(rollout 1 1)" * 4, (32, 160))
    yield Game("256 locations and 256 numbers, a menu of one item", largest(1, 1), "(rollout 1 1)", (2, 10))
    yield Game("256 locations and 256 numbers, a menu of 256 items", largest(8, 256), "(rollout 1 1)" * 8, (1, 3))


def bytes_a_look(program: str, game: Game) -> int:
    """What a look takes, by what more matches take, where the book remembers one."""
    memory, looks = [], []
    for matches in game.matches:
        plan = f"(plan (seats {game.seats}) (matches (from 0 0 {matches})) (turns {TURNS}))"
        took = cost(program, ["play", "--cache", "1"], f"{game.sheet}{plan}".encode())
        if took.status:
            raise RuntimeError(f"{game.name}: {took.note}")
        memory.append(took.memory * 1024)
        looks.append(int(took.note.split()[2]))
    return round((memory[1] - memory[0]) / (looks[1] - looks[0]))


def looks(program: str) -> Iterator[tuple[str, int]]:
    """For each game how many bytes a look takes."""
    yield from ((game.name, bytes_a_look(program, game)) for game in games())
