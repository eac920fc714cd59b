"""Compares two series on the same deals, match by match."""

from collections.abc import Iterator
from pathlib import Path

from pieces.folder import Series
from pieces.whole import matches_of
from tables.counting import Counts, values_of
from tables.ending import TEXT, Refused
from tables.showing import columns, how_many
from telling import printable


def compare(first: Path, second: Path) -> None:
    """Writes what the matches of the second series have more than those of the first."""
    one, other = Series(first), Series(second)
    if deals(one) != deals(other):
        raise Refused(TEXT, f"{second} hasn't the deals of {first}, or not as many players")
    counts = Counts(len(one.plan.strategies), deal_matches(one))
    for before, now in zip(matches_of(one), matches_of(other)):
        counts.add([b - a for a, b in zip(values_of(before), values_of(now))])
    print(printable(f"{second} less {first}, match by match: {how_many(counts)}, {counts.limits.total:+} ended by the turn limit"))
    print("".join(f"{printable(line)}\n" for line in unlike(one, other)), end="")
    print(columns(counts, "+"), end="")


def unlike(one: Series, other: Series) -> Iterator[str]:
    """What two series don't have alike."""
    if one.split.sheet != other.split.sheet:
        yield "the sheets differ"
    if one.plan.turns != other.plan.turns:
        yield f"turn limit: {one.plan.turns}, then {other.plan.turns}"
    for number, (before, now) in enumerate(zip(one.plan.strategies, other.plan.strategies)):
        if before != now:
            yield f"strategy {number}: {before}, then {now}"


def deals(series: Series) -> tuple[int, int, int, int, bool]:
    """What two series that are compared have alike: the seeds of all matches, and how many play."""
    plan = series.plan
    return plan.deal, plan.seats, plan.count, len(plan.strategies), plan.duplicate


def deal_matches(series: Series) -> int:
    """How many matches are played of a deal, over which errors are told."""
    return len(series.plan.strategies) if series.plan.duplicate else 1
