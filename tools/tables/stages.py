"""Which stages of a sheet were open where the turn limit ended matches."""

from __future__ import annotations

from collections import Counter
from collections.abc import Iterator

from faults.places import place_of
from linting.trees import Node, Unreadable, read_sheet
from tables.ending import TEXT, Refused
from tables.house import Match

CHOICE = "(choice ALT+)"
STAGES = ("(stage player (end BOOL) ITEM+)", "(stage team (end BOOL) ITEM+)")


def at_limit(name: str, sheet: bytes, matches: list[Match]) -> str:
    """A line on the matches that the turn limit ended; nothing where there are none. It tells the innermost stage that was open at
    their last choice, and how often, the most frequent first."""
    sites = Counter(match.last for match in matches if match.end == "limit")
    if not sites:
        return ""
    stages = stages_of(name, sheet)
    last = max(-1 if site is None else site for site in sites)
    if last >= len(stages):
        raise Refused(TEXT, f"{name}: it has {len(stages)} choices, and the matches have one with the number {last}")
    found: Counter[str] = Counter()
    for site, count in sites.items():
        found["no choice was made" if site is None else stages[site]] += count
    told = ", ".join(f"{what} in {count}" for what, count in found.most_common())
    return f"open at the last choice of {'it' if sum(sites.values()) == 1 else 'these'}: {told}\n"


def stages_of(name: str, sheet: bytes) -> list[str]:
    """The innermost stage around each choice of a sheet, by the number of the choice."""
    try:
        return [stage_words(sheet, stage) for stage in around_choices(read_sheet(sheet), None)]
    except Unreadable as fault:
        raise Refused(TEXT, f"{name} can't be read as a sheet: {fault}") from None


def around_choices(node: Node, stage: Node | None) -> Iterator[Node | None]:
    """The innermost stage around each choice, in the order of the text."""
    inside = node if node.form in STAGES else stage
    if node.form == CHOICE:
        yield stage
    for part in node.parts:
        yield from around_choices(part, inside)


def stage_words(sheet: bytes, stage: Node | None) -> str:
    return f"the {stage.parts[1].text} stage of line {place_of(sheet, stage.at).line}" if stage else "no stage"
