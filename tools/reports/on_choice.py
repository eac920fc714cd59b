"""Is there choice?"""

from __future__ import annotations

import math
from collections.abc import Iterator
from html import escape
from statistics import median_low

from reports import charts
from reports.charts import Point, bins, number
from reports.report import Report
from reports.section import BAD, GOOD, OPEN, Section, counted, percent, tag
from reports.sites import Alternative, Site, never_held, sites_of

# The shares of forced decisions above which a game leaves little choice, and below which it leaves enough.
LITTLE, ENOUGH = 0.6, 0.35

# Into how many points a line through the decisions is gathered at most, and of how few decisions none is drawn.
MOST_POINTS, FEWEST_POINTS = 40, 6

HEAD = (
    "choice and its alternatives",
    "matches that meet it",
    "decisions",
    "forced",
    "mean menu",
    "offered",
    "taken where there was a choice",
)


def choice(report: Report) -> Section:
    forced, decisions = (int(it) for it in report.told.measures["forced"][0][0].split("/"))
    if not decisions:
        return Section("choice", "Is there choice?", "no decisions", BAD, ["No match has a decision: the cards play themselves."])
    share = forced / decisions
    mean = int(report.told.measures["menu"][0][0].split("/")[0]) / decisions
    several = median_low(sum(it.size > 1 for it in record.picks) for record in report.told.records)
    said = (
        f"{percent(share)} of the {decisions:,} decisions have one item only. A menu has {mean:.1f} items on average, and half of "
        f"the matches have {counted(several, 'decision')} or more with something to choose."
    )
    sizes = [it.size for record in report.told.records for it in record.picks]
    figures = []
    if len(set(sizes)) > 1:
        chart = charts.histogram(bins(sizes, [it == 1 for it in sizes]), said, "items of a menu", "decisions")
        figures.append(("How many items the menus have. Those with one item are marked.", chart))
    figures += menus_through(report)
    sites = sites_of(report)
    mood = BAD if share > LITTLE else GOOD if share < ENOUGH else OPEN
    sentences = [said, *remarks(report, sites)]
    return Section("choice", "Is there choice?", f"{percent(share)} are forced", mood, sentences, figures, [table(sites, report)])


def menus_through(report: Report) -> list[tuple[str, str]]:
    """Menu sizes by the number of the decision, as long as a fifth of the matches goes on."""
    kept = [it for it in sizes_through(report) if len(it) >= max(1, report.count / 5)]
    if len(kept) < FEWEST_POINTS or len({size for sizes in kept for size in sizes}) == 1:
        return []
    width = math.ceil(len(kept) / MOST_POINTS)
    points = [point(kept, first, width) for first in range(0, len(kept) - width + 1, width)]
    said = (
        f"The mean menu goes from {points[0].y:.1f} items at the first decisions to {points[-1].y:.1f} at the last. The band holds "
        "eight of ten."
    )
    return [(said, charts.band(points, said, "number of the decision in its match", max(it.high for it in points) * 1.08))]


def sizes_through(report: Report) -> list[list[int]]:
    """The sizes of the menus of all matches at each decision."""
    found: list[list[int]] = [[] for _ in range(max(len(it.picks) for it in report.told.records))]
    for record in report.told.records:
        for sizes, pick in zip(found, record.picks):
            sizes.append(pick.size)
    return found


def point(columns: list[list[int]], first: int, width: int) -> Point:
    """The mean of so many decisions, and what lies between a tenth and nine tenths of them."""
    values = sorted(size for sizes in columns[first : first + width] for size in sizes)
    low, high = values[len(values) // 10], values[(len(values) * 9) // 10]
    return Point(first + 1 + (width - 1) / 2, sum(values) / len(values), low, high)


def remarks(report: Report, sites: list[Site]) -> Iterator[str]:
    """What is remarkable of the choices: what was hardly met, never offered and never taken, and tests that never held."""
    for site in sites:
        if not site.decisions:
            yield f"The choice “{site.name}” was never met."
        elif site.is_rare(report):
            yield f"The choice “{site.name}” is hardly ever met: in {site.matches:,} of {report.count:,} matches."
        for it in site.alternatives:
            if it.is_never_offered:
                yield f"“{it.name}” was never offered in {it.looked:,} decisions at its choice."
        for it in site.never_taken():
            yield f"“{it.name}” was never taken in {site.decisions:,} decisions at its choice."
    if tests := never_held(report):
        what = "This test never held" if len(tests) == 1 else "These tests never held"
        yield f"{what} in the {len(report.told.courses):,} matches that were followed: {'; '.join(tests)}."


def table(sites: list[Site], report: Report) -> str:
    """All choices and their alternatives."""
    rows = [row for site in sites for row in (site_row(site, report), *(alternative_row(site, it) for it in site.alternatives))]
    head = "".join(f"<th scope=col>{it}</th>" for it in HEAD)
    return f'<div class="scroll"><table class="sites"><thead><tr>{head}</tr></thead><tbody>{"".join(rows)}</tbody></table></div>'


def row(kind: str, name: str, flag: str, cells: list[str]) -> str:
    told = "".join(f"<td>{it}</td>" for it in cells)
    return f'<tr class="{kind}"><th scope="row">{escape(name)} {flag}</th>{told}</tr>'


def site_row(site: Site, report: Report) -> str:
    cells = [percent(site.matches / report.count), f"{site.decisions:,}", "", "", "", ""]
    flag = tag("hardly ever met", BAD) if site.is_rare(report) else ""
    if not site.decisions:
        return row("site", site.name, tag("never met", BAD), cells)
    cells[2:4] = [percent(site.forced / site.decisions), f"{site.items / site.decisions:.1f}"]
    return row("site", site.name, flag, cells)


def alternative_row(site: Site, it: Alternative) -> str:
    flag = tag("never offered", BAD) if it.is_never_offered else tag("never taken", BAD) if it in site.never_taken() else ""
    taken = "" if it.taken is None else f"{it.taken:,}"
    offered = "" if it.offered is None or not it.looked else percent(it.offered / it.looked)
    is_drawn = it.chosen is not None and site.free and len(site.alternatives) > 1
    bar = meter(it.chosen / site.free) if is_drawn else ""
    return row("alternative", it.name, flag, ["", taken, "", "", offered, bar])


def meter(share: float) -> str:
    return f'<span class="meter" style="--share:{share:.4f}"><span></span>{percent(share)}</span>'
