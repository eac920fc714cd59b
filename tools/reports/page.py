"""The page of a report."""

from __future__ import annotations

from html import escape

from replays.page import joined
from reports.findings import sections
from reports.matches import remarkable
from reports.report import Report
from reports.section import Section, details, of_matches
from tables.showing import table

STYLES = ["base.css", "report.css"]

FRAME = """<!doctype html>
<html lang="en">
<head>
<meta charset="utf-8">
<meta name="viewport" content="width=device-width, initial-scale=1">
<meta http-equiv="Content-Security-Policy" content="default-src 'none'; style-src 'unsafe-inline'">
<title>{title}: report</title>
<style>
{style}</style>
</head>
<body>
<header class="head"><h1>{title}</h1><p class="soft">{told}</p></header>
<nav class="tiles" aria-label="In short">{tiles}</nav>
<main>
{sections}
</main>
<footer class="soft"><p>{foot}</p></footer>
</body>
</html>
"""

SIGNS = {"good": ("✓", "fine"), "open": ("·", "open"), "bad": ("!", "look here")}

# How many letters of strategies the head of a page has.
LONGEST = 70


def report_page(report: Report, title: str, links: dict[int, str], command: str) -> str:
    """The page: short answers, the sections, and the matches to look at, each with the command that shows it, or with a link."""
    found = sections(report)
    body = "\n".join([*map(section, found), matches(report, links, command), figures(report)])
    return FRAME.format(
        title=escape(title),
        style=joined(STYLES),
        told=told(report),
        tiles="".join(map(tile, found)),
        sections=body,
        foot=foot(report),
    )


def told(report: Report) -> str:
    plan = report.plan
    players = "1 player" if report.players == 1 else f"{report.players} players"
    deals = f" ({report.units:,} deal{'' if report.units == 1 else 's'}, each once in every seat)" if report.unit > 1 else ""
    strategies = " ".join(dict.fromkeys(plan.strategies))
    shown = strategies if len(strategies) < LONGEST else strategies[: LONGEST - 2] + "…"
    return f"{of_matches(report.count)}{deals} · {players} · at most {plan.turns:,} turns · <code>{escape(shown)}</code>"


def tile(it: Section) -> str:
    shown, said = SIGNS[it.mood]
    sign = f'<span class="sign" role="img" aria-label="{said}">{shown}</span>'
    answer = f"<span><b>{escape(it.question)}</b><span>{escape(it.verdict)}</span></span>"
    return f'<a class="tile {it.mood}" href="#{it.key}">{sign}{answer}</a>'


def section(it: Section) -> str:
    said = "".join(f"<p>{escape(sentence)}</p>" for sentence in it.sentences)
    charts = "".join(figure(caption, chart) for caption, chart in it.figures)
    is_wide = len(it.figures) > 1 or any("sites" in table for table in it.tables)
    inside = f'<div class="said">{said}</div><div class="figures">{charts}</div>{"".join(it.tables)}'
    return box(it.key, it.question, inside, is_wide)


def box(key: str, title: str, inside: str, is_wide: bool = True) -> str:
    return f'<section class="box{" wide" if is_wide else ""}" id="{key}"><h2>{escape(title)}</h2>{inside}</section>'


def figure(caption: str, chart: str) -> str:
    said = f"<figcaption>{escape(caption)}</figcaption>" if caption else ""
    return f"<figure>{chart}{said}</figure>"


def matches(report: Report, links: dict[int, str], command: str) -> str:
    rows = []
    for what, number, said in remarkable(report):
        target = f'<a href="{escape(links[number])}">match {number}</a>' if number in links else f"match {number}"
        shown = f"<code>{escape(f'{command} --match {number}')}</code>"
        rows.append(f'<tr><th scope="row">{escape(what)}</th><td>{target}</td><td>{escape(said)}</td><td>{shown}</td></tr>')
    head = "".join(f'<th scope="col">{it}</th>' for it in ("which", "match", "why", "to see it"))
    grid = f'<table class="grid left"><thead><tr>{head}</tr></thead><tbody>{"".join(rows)}</tbody></table>'
    return box("matches", "Matches to look at", f'<div class="scroll">{grid}</div>')


def figures(report: Report) -> str:
    """What `table` writes of the same matches."""
    shown = f'<div class="scroll"><pre>{escape(table(report.counts))}</pre></div>'
    return box("figures", "All figures", details("What `table` writes of these matches", shown))


def foot(report: Report) -> str:
    followed = len(report.told.courses)
    is_part = 0 < followed < report.count
    sampled = f" How scores stood, what was offered and which tests held is told by {followed:,} of the matches." if is_part else ""
    units = f"{report.units:,} {'deal' if report.units == 1 else 'deals'}" if report.unit > 1 else of_matches(report.units)
    return (
        f"An interval is made by the standard error over {units}; it counts chance alone, and not that this plan is "
        f"one of many that could have been taken. Where an interval leaves a thing open, no sentence says it.{sampled} Choices, "
        "sizes, points and measures are those that the program wrote."
    )
