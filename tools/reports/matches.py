"""The matches that are worth a look."""

from __future__ import annotations

from collections.abc import Callable

from reports.charts import number
from reports.leads import changes_of, margin
from reports.report import Report
from tables.house import Match

# What a match is, its number, and what is told of it.
Remark = tuple[str, int, str]


def remarkable(report: Report) -> list[Remark]:
    """The longest and the shortest match; of several teams the closest, the most one-sided and the most changeable one, and else the
    best and the worst. Of several the first."""
    matches = report.told.matches
    found: list[Remark] = []
    longest, shortest = most(matches, lambda it: it.turns), most(matches, lambda it: -it.turns)
    if longest.turns > shortest.turns:
        for what, it in (("Longest", longest), ("Shortest", shortest)):
            found.append((what, it.number, f"{it.turns:,} turns, {it.choices:,} decisions"))
    return found + (by_scores(report) if len(report.teams) == 1 else by_leads(report))


def most(matches: list[Match], value: Callable[[Match], float]) -> Match:
    return max(matches, key=lambda it: (value(it), -it.number))


def by_scores(report: Report) -> list[Remark]:
    sign = 1 if report.sheet.best == "max" else -1
    best = most(report.told.matches, lambda it: sign * it.scores[0])
    worst = most(report.told.matches, lambda it: -sign * it.scores[0])
    return [(what, it.number, f"score {number(it.scores[0])}") for what, it in (("Best", best), ("Worst", worst))]


def by_leads(report: Report) -> list[Remark]:
    teams, best = report.teams, report.sheet.best
    gaps = {it.number: margin(it.scores, teams, best) for it in report.told.matches}
    closest = most(report.told.matches, lambda it: -gaps[it.number])
    widest = most(report.told.matches, lambda it: gaps[it.number])
    told = (("Closest", closest), ("Most one-sided", widest))
    found = [(what, it.number, f"{number(gaps[it.number])} between first and second") for what, it in told]
    changes = {it.match: changes_of(it, teams, best) for it in report.told.courses}
    if changes and max(changes.values()) > 1:
        match = max(changes, key=lambda it: (changes[it], -it))
        found.append(("Most changes of lead", match, f"the lead passes {changes[match]} times"))
    return found
