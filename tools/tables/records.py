"""A line for each match, for other programs: comma-separated values, or a JSON object."""

import json

from tables.house import Match

NAMES = ["match", "deal", "seats", "end", "turns", "choices", "shuffles"]


def csv(matches: list[Match]) -> str:
    """The names of the columns and a line for each match. No value needs quotes."""
    seats = range(len(matches[0].scores))
    names = [*NAMES, *(f"{name}_{seat}" for seat in seats for name in ("strategy", "score", "points"))]
    rows = [names, *(map(str, [*values(match), *of_seats(match)]) for match in matches)]
    return "".join(f"{','.join(row)}\n" for row in rows)


def jsonl(matches: list[Match]) -> str:
    """An object for each match, a line each. What is told of the seats are lists in their order."""
    return "".join(f"{json.dumps(as_object(match))}\n" for match in matches)


def as_object(match: Match) -> dict[str, object]:
    told = dict(zip(NAMES, values(match)))
    return told | {"strategies": match.strategies(), "scores": match.scores, "points": match.points}


def values(match: Match) -> list[object]:
    """What is told of the match as a whole, as it is named."""
    return [match.number, match.deal, match.seats, match.end, match.turns, match.choices, match.shuffles]


def of_seats(match: Match) -> list[int]:
    """The strategy, the score and the rank points of each seat."""
    return [it for seat in zip(match.strategies(), match.scores, match.points) for it in seat]
