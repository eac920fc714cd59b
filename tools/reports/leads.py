"""Scores as they stand, by teams: who leads, by how much, and how often that changes."""

from __future__ import annotations

from collections.abc import Sequence

from reports.gathering import Course


def of_sides(row: Sequence[int], teams: list[list[int]], best: str) -> list[int]:
    """What each team has together; more is better."""
    sign = 1 if best == "max" else -1
    return [sign * sum(row[seat] for seat in team) for team in teams]


def margin(scores: Sequence[int], teams: list[list[int]], best: str) -> int:
    """How far the first team is ahead of the second."""
    sides = sorted(of_sides(scores, teams, best), reverse=True)
    return sides[0] - sides[1] if len(sides) > 1 else 0


def leaders(row: Sequence[int], teams: list[list[int]], best: str) -> set[int]:
    sides = of_sides(row, teams, best)
    return {at for at, it in enumerate(sides) if it == max(sides)}


def is_moving(course: Course) -> bool:
    """Whether scores are known and differ before the end."""
    return any(row != course.scores[0] for row in course.scores[:-1])


def changes_of(course: Course, teams: list[list[int]], best: str) -> int:
    """How often another one leads alone than the one who last did."""
    alone = [next(iter(it)) for row in course.scores if len(it := leaders(row, teams, best)) == 1]
    return sum(one != other for one, other in zip(alone, alone[1:]))
