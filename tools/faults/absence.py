"""Sentences on what words name and an accepted sheet and plan haven't."""

from second.playing import matches_of
from second.sources import lists_of
from second.worlds import World


def on_absence(source: bytes, words: list[str]) -> str:
    """On the seat and the match that are to be watched, or the strategy that is to be replaced."""
    (sheet, plan), _ = lists_of(source, 2)
    players, (command, first, second, *_) = World(sheet[1][1:]).players, words
    told = [("strategy", first, players)] if command == "rival" else [("seat", first, players), ("match", second, len(matches_of(plan)))]
    return " ".join(missing(what, int(number), count) for what, number, count in told if int(number) >= count)


def missing(what: str, number: int, count: int) -> str:
    """Says that there is none of this number."""
    there = "there is one alone, with the number 0" if count == 1 else f"they are numbered from 0 to {count - 1}"
    return f"There is no {what} {number}: {there}."
