"""What a seat saw at the decisions of a match."""

from collections.abc import Iterator

from second.machine import Decision, Machine
from second.playing import match_lines, matches_of, text_of
from second.sources import Form
from second.strategies import choose
from second.worlds import PLAYER, Frame, Place, State

MOST_STOPS = 1_000


def watched(sheet: Form, plan: Form, seat: int, number: int) -> str:
    """The log of a seat in a match of a plan."""
    machine, turns = Machine(sheet), int(plan[3][1])
    deal, seed = matches_of(plan)[number]
    _, *strategies = plan[1]
    stops: list[list[str]] = []

    def take(state: State, decision: Decision) -> int:
        stops.append(list(stop_lines(machine, state, decision, seat, len(stops))))
        return choose(machine, state, decision, strategies[(decision.seat + number) % len(strategies)], seed, turns)

    for _ in match_lines(machine, deal, turns, take, named=False):
        pass
    lines = ["log 1", f"seat {seat} match {number}", *(line for stop in stops[:MOST_STOPS] for line in stop), f"stops {len(stops)}"]
    return text_of(iter(lines))


def stop_lines(machine: Machine, state: State, decision: Decision, seat: int, at: int) -> Iterator[str]:
    """The lines of a decision."""
    yield f"stop {at} turn {state.turn} site {decision.site}"
    yield told("made", state.made)
    yield from map(frame_line, state.frames)
    yield told("numbers", state.numbers)
    for number, (place, cards) in enumerate(zip(machine.places, state.cards)):
        yield told(f"place {number}", (seen(machine, state, seat, card, place) for card in cards))


def told(head: str, parts: Iterator[int | str] | list[int]) -> str:
    return " ".join((head, *map(str, parts)))


def frame_line(frame: Frame) -> str:
    """The line of an open stage."""
    direction = "back" if frame.is_back else "forward"
    return f"frame {frame.stage} {frame.member} {direction} {'none' if frame.named is None else frame.named}"


def seen(machine: Machine, state: State, seat: int, card: int, place: Place) -> int | str:
    """The face of a card or a reference, or that the seat doesn't know it."""
    return machine.looks[card] if machine.knows(state, seat, card, place) else "-"
