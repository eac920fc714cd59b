"""What do players score?"""

from __future__ import annotations

from statistics import median

from reports import charts
from reports.charts import bins, number
from reports.report import Report
from reports.section import OPEN, Section


def scores(report: Report) -> Section:
    values = [score for match in report.told.matches for score in match.scores]
    low, middle, high = number(min(values)), number(median(values)), number(max(values))
    section = Section("scores", "What do players score?", f"half score {middle} or less", OPEN, [f"Every player scores {middle}."])
    if low != high:
        better = "More is better." if report.sheet.best == "max" else "Fewer is better."
        said = f"Half of the scores are {middle} or less; they go from {low} to {high}. {better}"
        chart = charts.histogram(bins(values), said, "score of a player", "scores", median(values), f"half: {middle}")
        section.sentences, section.figures = [said], [("", chart)]
    return section
