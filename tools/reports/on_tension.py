"""Is it tense?"""

from __future__ import annotations

from statistics import median

from reports import charts
from reports.charts import Point, bins, number
from reports.gathering import Course
from reports.intervals import FEWEST, figure_of, of_mean, of_share
from reports.leads import changes_of, is_moving, leaders, margin
from reports.report import Report
from reports.section import BAD, GOOD, OPEN, Section, of_all, percent

# In how many steps of the way it is asked who leads, and from which share of wins on a match counts as decided.
STEPS, DECIDED = 20, 0.8

# How few decisions a match may have of which it is asked.
SHORTEST = 3


def tension(report: Report) -> Section:
    margins = [margin(it.scores, report.teams, report.sheet.best) for it in report.told.matches]
    middle = median(margins)
    who = "team" if report.is_team_game else "player"
    level = sum(it == 0 for it in margins)
    said = f"In half of the matches the best {who} is {number(middle)} ahead of the next, or less; "
    said += f"{of_all(level, report.count)} end level at the top."
    if report.count == 1:
        said = "It ends level at the top." if level else f"The best {who} is {number(middle)} ahead of the next."
    section = Section("tense", "Is it tense?", f"{number(middle)} between first and second", OPEN, [said])
    if len(set(margins)) > 1:
        across = "score of the first less that of the second"
        chart = charts.histogram(bins(margins), said, across, "matches", middle, f"half: {number(middle)}")
        section.figures.append(("How far the first is ahead of the second at the end.", chart))
    add_leads(report, section)
    return section


def add_leads(report: Report, section: Section) -> None:
    """What the courses of matches tell of who leads."""
    known = [it for it in report.told.courses if it.scores]
    moving = [it for it in known if len(it.scores) > SHORTEST and is_moving(it)]
    if not known:
        section.sentences.append("How scores stand during a match isn't known for this sheet.")
    elif len(moving) < len(known) / 2:
        section.sentences.append(
            "The scores stand still until the end, so that nobody is seen to lead before: tension has to come from the table."
        )
    else:
        section.sentences.append(changes(report, moving))
        if len(moving) >= FEWEST:
            add_deciding(report, section, moving)


def changes(report: Report, moving: list[Course]) -> str:
    """How often the lead passes."""
    figure = figure_of([changes_of(it, report.teams, report.sheet.best) for it in moving])
    interval = of_mean(figure)
    span = f" (95 %: {number(interval.low)} to {number(interval.high)})" if interval else ""
    mean = f"{figure.mean():.1f}"
    return f"The lead passes to another {mean} times a match{span}, by the scores as they would be if the match ended there."


def add_deciding(report: Report, section: Section, moving: list[Course]) -> None:
    """In how many matches who leads at a part of the way is best at the end."""
    points = [point(report, moving, step) for step in range(STEPS + 1)]
    half = points[STEPS // 2]
    best = [leaders(it.scores[-1], report.teams, report.sheet.best) for it in moving]
    chance = sum(map(len, best)) / len(moving) / len(report.teams)
    said = (
        f"Halfway through, whoever leads goes on to win in {percent(half.y)} of the matches "
        f"(95 %: {percent(half.low)} to {percent(half.high)}); by chance it would be about {percent(chance)}."
    )
    sure = next((it.x for at, it in enumerate(points) if min(later.low for later in points[at:]) >= DECIDED), 100)
    said += f" From {number(sure)} % of the way on it is more than {percent(DECIDED)}." if sure < 100 else ""
    section.sentences.append(said)
    section.verdict = f"the leader halfway wins {percent(half.y)}"
    section.mood = BAD if half.low > DECIDED else GOOD if half.high < DECIDED else OPEN
    caption = f"How often whoever leads is best at the end. The band is what {len(moving)} matches leave open."
    chart = charts.band(points, said, "per cent of the decisions made", 1.0, chance, "chance")
    section.figures.insert(0, (caption, chart))


def point(report: Report, moving: list[Course], step: int) -> Point:
    """The share of matches in which who leads at a step is best at the end. Of several leaders each counts for its part."""
    hits = 0.0
    for course in moving:
        row = course.scores[round(step / STEPS * (len(course.scores) - 1))]
        now, last = (leaders(it, report.teams, report.sheet.best) for it in (row, course.scores[-1]))
        hits += len(now & last) / len(now)
    share = of_share(round(hits), len(moving))
    return Point(100 * step / STEPS, hits / len(moving), share.low, share.high)
