"""What is known of each choice of a sheet and of its alternatives, over all matches."""

from __future__ import annotations

from collections import Counter
from collections.abc import Iterator
from dataclasses import dataclass

from replays.deriving import Piece
from replays.words import alternative_label, alternative_words, effect_words, site_label
from reports.intervals import of_share
from reports.report import Report

# A site is hardly ever met where even the upper end of its interval is below this share of the matches.
RARE = 0.05

# What was never offered, never taken or never held is told where it could have been so often.
MET = 30


@dataclass(frozen=True)
class Alternative:
    """An alternative: how often it was taken, and how often of these where there was a choice; in how many decisions of the matches
    that were followed it was looked for, and had an item. None where that isn't known."""

    name: str
    taken: int | None
    chosen: int | None
    looked: int
    offered: int | None

    @property
    def is_never_offered(self) -> bool:
        return self.offered == 0 and self.looked >= MET and not self.taken


@dataclass(frozen=True)
class Site:
    """A choice of the sheet: how many matches meet it, how many decisions it has, how many of them have one item alone, and how many
    items they have together."""

    name: str
    matches: int
    decisions: int
    forced: int
    items: int
    alternatives: list[Alternative]

    @property
    def free(self) -> int:
        """How many decisions have something to choose."""
        return self.decisions - self.forced

    def is_rare(self, report: Report) -> bool:
        return report.is_sure and of_share(self.matches, report.count).high < RARE

    def never_taken(self) -> list[Alternative]:
        """The alternatives that were offered, as far as is known, and never taken."""
        is_met = self.decisions >= MET
        return [it for it in self.alternatives if is_met and it.taken == 0 and not it.is_never_offered]


def sites_of(report: Report) -> list[Site]:
    return [site_of(report, site) for site in range(len(report.sheet.choices))]


def site_of(report: Report, site: int) -> Site:
    records = report.told.records
    here = [(match, at) for match, record in enumerate(records) for at, it in enumerate(record.picks) if it.site == site]
    sizes = [records[match].picks[at].size for match, at in here]
    plain = f"Choice {site}" if len(report.sheet.choices) > 1 else "The choice"
    return Site(
        name=site_label(report.sheet, site) or plain,
        matches=len({match for match, _ in here}),
        decisions=len(here),
        forced=sizes.count(1),
        items=sum(sizes),
        alternatives=list(alternatives_of(report, site, here)),
    )


def alternatives_of(report: Report, site: int, here: list[tuple[int, int]]) -> Iterator[Alternative]:
    numbers, records = report.told.alternatives, report.told.records
    taken = Counter(numbers[match][at] for match, at in here) if numbers else None
    chosen = Counter(numbers[match][at] for match, at in here if records[match].picks[at].size > 1) if numbers else None
    looks = [offers for it in report.told.courses for offers, pick in zip(it.offers, records[it.match].picks) if pick.site == site]
    for at, node in enumerate(report.sheet.choices[site].parts[1:]):
        known = [it[at] for it in looks if at in it]
        yield Alternative(
            name=alternative_label(report.sheet, node) or alternative_words(node),
            taken=taken[at] if taken is not None else None,
            chosen=chosen[at] if chosen is not None else None,
            looked=len(known),
            offered=sum(known) if known else None,
        )


def never_held(report: Report) -> list[str]:
    """The tests among effects that held in none of the matches that were followed."""
    courses = report.told.courses
    if Piece.TESTS not in report.told.followed.names or len(courses) < MET:
        return []
    held = set().union(*(it.held for it in courses))
    tests = [(at, it) for at, it in enumerate(report.sheet.tests) if at not in held]
    return [f"line {report.sheet.line(it)} ({effect_words(it)})" for _, it in tests]
