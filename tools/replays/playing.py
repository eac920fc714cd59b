"""Has the program play matches again by scripts, each seat taking the items that it took. So no rollout is made a second time."""

from __future__ import annotations

from pieces.program import Program, refusal
from replays.sources import plan_text
from replays.texts import Log, Pick, Record, Transcript, log_of, transcript_of
from tables.ending import TEXT, Refused

PLAY = ["play", "--format", "2"]

# The largest turn limit of a plan, and how many processes are asked at a time.
TURNS, WORKERS = 100_000, 3


class Differs(Refused):
    """A derived sheet played otherwise than the sheet itself."""

    def __init__(self, said: str) -> None:
        super().__init__(TEXT, f"a sheet made from this one doesn't play as it does: {said}")


def called(program: Program, words: list[str], source: bytes) -> bytes:
    """What the program writes, which is to end well."""
    ended = program.call(words, source)
    if ended.returncode:
        raise refusal(ended)
    return ended.stdout


def played(program: Program, source: bytes) -> Transcript:
    return transcript_of(called(program, PLAY, source))


def watched(program: Program, source: bytes, seat: int) -> Log:
    """What a seat sees of the only match of a plan."""
    return log_of(called(program, ["watch", str(seat), "0"], source))


def scripts(picks: list[Pick], players: int) -> list[list[int]]:
    """The items that each seat took, in order."""
    return [[it.item for it in picks if it.seat == seat] for seat in range(players)]


def scripted(record: Record, taken: list[list[int]], turns: int) -> bytes:
    """A plan in which each seat takes these items in a match of the record's seeds."""
    strategies = [f"(script {' '.join(map(str, items))})" if items else "(script)" for items in taken]
    return plan_text(strategies, [(record.deal, record.seats)], turns)


def longer(turns: int) -> int:
    """A turn limit within which a closing stage has its decision."""
    return min(TURNS, turns + 2)
