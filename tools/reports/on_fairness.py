"""Is it fair?"""

from __future__ import annotations

from reports import charts
from reports.charts import Row
from reports.intervals import of_mean
from reports.report import Report
from reports.section import BAD, GOOD, OPEN, TOO_FEW, Section, caption, counted, details, grid, interval_text, of_matches, percent
from tables.counting import Side


def fairness(report: Report) -> Section:
    """By teams, where players are joined; the members of a team have the same rank points."""
    sides = [report.sides("seat")[team[0]] for team in report.teams]
    rows = [row(report, number, side) for number, side in enumerate(sides)]
    standing_out = [it for it in rows if it.is_said]
    whom = "team" if report.is_team_game else "seat"
    if standing_out:
        said, mood = [sentence(report, it) for it in standing_out], BAD
        one = f"{standing_out[0].label.lower()} stands out"
        verdict = one if len(standing_out) == 1 else f"{whom}s aren't equal"
    elif report.is_sure:
        reach = max(it.interval.reach for it in rows if it.interval)
        said, verdict, mood = [nobody(whom, reach)], f"no {whom} stands out", GOOD
    else:
        units = counted(report.units, "deal") if report.unit > 1 else of_matches(report.units)
        said, verdict, mood = [f"Of {units} nothing can be said: some hundred are needed."], TOO_FEW, OPEN
    chart = charts.dots(rows, " ".join(said), "share of the rank points (dashed: even)")
    table = details(f"Wins and scores by {whom}", wins(rows, sides))
    return Section("fair", "Is it fair?", verdict, mood, said, [(caption(rows), chart)], [table])


def row(report: Report, number: int, side: Side) -> Row:
    """The share of the rank points of a team, with an interval that holds all teams at once."""
    team = report.teams[number]
    interval = of_mean(side.points, len(report.teams))
    share = interval.over(report.whole / len(team)) if interval else None
    even = report.even(team[0]) * len(team)
    label = f"Team {number}" if report.is_team_game else f"Seat {number}"
    below = f"seats {' and '.join(map(str, team))}" if len(team) > 1 else ""
    value = side.points.mean() * len(team) / report.whole
    return Row(label, below, share, value, even, bool(share and share.excludes(even)))


def sentence(report: Report, it: Row) -> str:
    """What is said of a team that stands out; also of going first, where it makes the first decision of every match."""
    goes_first = report.first_mover in report.teams[int(it.label.split(" ")[1])]
    first = f" Going first {'helps' if it.value > it.even else 'hurts'}." if goes_first else ""
    return f"{it.label} gets {it.value:.2f} of the rank points; {it.even:.2f} would be even.{first}"


def nobody(whom: str, reach: float) -> str:
    return (
        f"No {whom} is shown to have it better: what would be even lies in every interval. A difference of less than {reach:.2f} of "
        "the points could be hidden in them."
    )


def wins(rows: list[Row], sides: list[Side]) -> str:
    head = ["", "rank points a match", "wins", "95 % of wins", "score"]
    cells = [
        [f"{it.points.mean():.2f}", percent(it.wins.mean()), interval_text(it.wins), f"{it.score.mean():,.1f}"] for it in sides
    ]
    return grid(head, [[row.label, *told] for row, told in zip(rows, cells)])
