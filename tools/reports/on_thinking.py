"""Does thinking help?"""

from __future__ import annotations

from reports import charts
from reports.charts import Row, number
from reports.intervals import Interval, figure_of, of_mean
from reports.report import Report
from reports.section import BAD, GOOD, OPEN, TOO_FEW, Section, caption, of_matches, shortened

# What is said, the short answer, and whether it is good.
Answer = tuple[str, str, str]

ROLLING = "(rollout"
NOBODY = "Nobody thinks in this plan, so it can't tell. Put (rollout 8 1) in the place of one strategy."
EVERYBODY = "All strategies think, so the plan can't tell. Put (random 1) in the place of one of them."
PARTNERS = "Partners share their points, so that a strategy is worth at least as much as it seems here."


def thinking(report: Report) -> Section:
    names = report.plan.strategies
    rows = [row(report, at, name) for at, name in enumerate(names)]
    said, verdict, mood = compared(report, names)
    chart = charts.dots(rows, said, "share of the rank points (dashed: even)")
    kinds = {it.strip("()").split(" ")[0] for it in names}
    sentences = [said, PARTNERS if report.is_team_game and len(kinds) > 1 else "", report.balance]
    return Section("thinking", "Does thinking help?", verdict, mood, [*filter(None, sentences)], [(caption(rows), chart)])


def row(report: Report, at: int, name: str) -> Row:
    points = report.sides("strategy")[at].points
    interval = of_mean(points, report.players)
    share = interval.over(report.whole) if interval else None
    even = 1 / report.players
    return Row(f"Strategy {at}", shortened(name), share, points.mean() / report.whole, even, bool(share and share.excludes(even)))


def compared(report: Report, names: list[str]) -> Answer:
    """Whether strategies that roll out do better than the others, by the differences within each match."""
    rolling = [at for at, it in enumerate(names) if it.startswith(ROLLING)]
    others = [at for at, it in enumerate(names) if not it.startswith(ROLLING)]
    if not rolling or not others:
        return (NOBODY, "nobody thinks here", OPEN) if not rolling else (EVERYBODY, "everybody thinks here", OPEN)
    differences = []
    for match in report.told.matches:
        points = dict(zip(match.strategies(), match.points))
        differences.append(sum(points[it] for it in rolling) * len(others) - sum(points[it] for it in others) * len(rolling))
    interval = of_mean(figure_of(differences, report.unit))
    if interval is None:
        return f"Of {of_matches(report.units)} nothing can be said: some hundred are needed.", TOO_FEW, OPEN
    who = "A strategy that rolls out" if len(rolling) > 1 else f"Strategy {rolling[0]}, which rolls out,"
    than = "one that doesn't" if len(others) > 1 else "the other"
    return answer(interval.over(len(rolling) * len(others)), who, than)


def answer(found: Interval, who: str, than: str) -> Answer:
    span = f"(95 %: {number(found.low)} to {number(found.high)})"
    if found.low > 0:
        return f"{who} gets {found.mean:.2f} rank points a match more than {than} {span}: thinking helps.", "thinking helps", GOOD
    if found.high < 0:
        return f"{who} gets {-found.mean:.2f} rank points a match fewer than {than} {span}: thinking so hurts.", "thinking hurts", BAD
    mean = number(found.mean)
    said = f"It isn't shown that thinking helps: a strategy that rolls out gets {mean} rank points a match more than {than} {span}."
    return said, "not shown to help", OPEN
