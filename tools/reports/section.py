"""A section of a report, and words and tables that sections share."""

from __future__ import annotations

from dataclasses import dataclass, field
from html import escape

from reports.charts import Row, number
from reports.intervals import FEWEST, of_mean
from tables.figure import Figure

GOOD, OPEN, BAD = "good", "open", "bad"
TOO_FEW = "too few matches to tell"


@dataclass
class Section:
    """A question, its short answer, what is good or bad about it, and what stands below."""

    key: str
    question: str
    verdict: str
    mood: str
    sentences: list[str]
    figures: list[tuple[str, str]] = field(default_factory=list)
    tables: list[str] = field(default_factory=list)


def percent(share: float) -> str:
    """A share as people write it."""
    value = 100 * share
    return f"{value:.0f} %" if value >= 10 or value == int(value) else f"{value:.2g} %"


def of_all(count: int, all_of: int) -> str:
    return f"{count:,} of {of_matches(all_of)}"


def counted(count: float, what: str) -> str:
    return f"{number(count)} {what}{'' if count == 1 else 's'}"


def of_matches(count: int) -> str:
    return "1 match" if count == 1 else f"{count:,} matches"


def shortened(text: str, most: int = 17) -> str:
    """The text of a strategy, as long as there is room."""
    return text if len(text) <= most else text[: most - 2] + "…)"


def caption(rows: list[Row]) -> str:
    if any(it.interval for it in rows):
        return (
            "Intervals hold all of them at once in 95 of 100 such reports; a filled dot is one whose interval leaves out what would "
            "be even."
        )
    return f"No intervals: fewer than {FEWEST} matches."


def interval_text(figure: Figure) -> str:
    interval = of_mean(figure)
    return f"{percent(max(0, interval.low))} to {percent(min(1, interval.high))}" if interval else "–"


def tag(said: str, mood: str) -> str:
    return f'<span class="tag {mood}">{said}</span>'


def grid(head: list[str], rows: list[list[str]]) -> str:
    top = "".join(f'<th scope="col">{escape(it)}</th>' for it in head)
    cells = [(row[0], "".join(f"<td>{escape(it)}</td>" for it in row[1:])) for row in rows]
    body = "".join(f'<tr><th scope="row">{escape(name)}</th>{told}</tr>' for name, told in cells)
    return f'<div class="scroll"><table class="grid"><thead><tr>{top}</tr></thead><tbody>{body}</tbody></table></div>'


def details(summary: str, inside: str) -> str:
    return f"<details><summary>{escape(summary)}</summary>{inside}</details>"
