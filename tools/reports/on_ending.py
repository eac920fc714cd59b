"""Does it end?"""

from __future__ import annotations

from collections import Counter

from replays.words import stage_label
from reports import charts
from reports.charts import bins
from reports.intervals import of_share
from reports.report import Report
from reports.section import BAD, GOOD, OPEN, Section, of_all, of_matches, percent

# The share of matches at the turn limit above which a game is said to need a look.
MANY = 0.01


def ending(report: Report) -> Section:
    least, middle, most = (int(it) for it in report.told.measures["turns"][0])
    said, verdict, mood = limited(report) if report.counts.limits.total else ended(report, most)
    if least == most:
        return Section("ends", "Does it end?", verdict, mood, [*said, f"Every match takes {most:,} turns."])
    spread = f"Half of the matches take {middle:,} turns or more; the shortest takes {least:,} and the longest {most:,}."
    turns = [it.turns for it in report.told.matches]
    found = bins(turns, [it.end == "limit" for it in report.told.matches])
    chart = charts.histogram(found, spread, "turns of a match", "matches", middle, f"half: {middle:,}")
    marked = " The matches that hit the limit are marked." if report.counts.limits.total else ""
    return Section("ends", "Does it end?", verdict, mood, said, [(spread + marked, chart)])


def ended(report: Report, most: int) -> tuple[list[str], str, str]:
    """What is said where no match hit the limit."""
    who = "The only match" if report.count == 1 else f"Each of the {of_matches(report.count)}"
    said = f"{who} ended by itself, within {most:,} of {report.plan.turns:,} turns."
    if not report.is_sure:
        return [said], "every match ended", OPEN
    high = of_share(0, report.count).high
    return [f"{said} In the long run at most {percent(high)} would hit the limit (95 %)."], "every match ended", GOOD


def limited(report: Report) -> tuple[list[str], str, str]:
    """What is said where some did."""
    limits = report.counts.limits.total
    share = of_share(limits, report.count)
    said = f"{of_all(limits, report.count)} ({percent(share.mean)}) hit the turn limit of {report.plan.turns:,}"
    said += f"; in the long run that is {percent(share.low)} to {percent(share.high)} (95 %)." if report.is_sure else "."
    mood = BAD if share.low > MANY or limits == report.count else OPEN
    return [said, *open_stages(report)], f"{percent(share.mean)} hit the limit", mood


def open_stages(report: Report) -> list[str]:
    """Which stage was open, the innermost one, at the last decision before the limit."""
    found = Counter(it.open_stages[-1] for it in report.told.limits if it.open_stages)
    told = [f"{stage_name(report, stage)} in {count}" for stage, count in found.most_common()]
    looked = "it" if sum(found.values()) == 1 else f"{sum(found.values())} of them"
    return [f"Which stage was open at the last decision of {looked}: {', '.join(told)}."] if told else []


def stage_name(report: Report, stage: int) -> str:
    node = report.sheet.stages[stage]
    label = stage_label(report.sheet, stage)
    named = f" “{label}”" if label else ""
    return f"the {node.parts[1].text} stage{named} of line {report.sheet.line(node)}"
