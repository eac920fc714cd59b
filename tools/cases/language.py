"""The tables of the pages on the language: examples of parts of a sheet, and parts of sheets and plans that are refused."""

import re
from collections.abc import Iterator
from pathlib import Path

from cases.rows import ROOT, Row, numbered_lines
from cases.running import Case, fault_case, told_cases
from cases.sheets import Frames, framed_cases

PAGES = (ROOT / "docs/LANGUAGE.md", ROOT / "docs/REFUSALS.md")


def cells_of(line: str) -> list[str]:
    """The cells of a line of a table; none of another line."""
    return [cell.strip() for cell in line.strip("|").split(" | ")] if line.startswith("|") else []


def read_page(page: Path, frames: Frames) -> Iterator[Case]:
    """The cases of a page. A table with a column `example` has examples, and one with `line` second has refusals."""
    turn: str = ""
    titles: list[str] = []
    for row in numbered_lines(page):
        heading = re.match(r"##+ (?:The|Of a|Of the) (first|second|third|plan|text)\b", row.text)
        turn = heading[1] if heading else turn
        cells = cells_of(row.text)
        if not cells or not titles:
            titles = cells
        elif "example" in titles and len(cells) == len(titles):
            yield from example_cases(row, frames, dict(zip(titles, cells)), titles[0])
        elif titles[1:2] == ["line"] and len(cells) == len(titles):
            yield from refusal_cases(row, frames, turn, titles[0], cells[0], cells[1])


def example_cases(row: Row, frames: Frames, cells: dict[str, str], title: str) -> Iterator[Case]:
    """The case of an example: it has the shape of what the table is about, or of what its row begins with."""
    kind = cells[title].partition(":")[0] if title == "form" else title
    fragment = re.fullmatch(r"`(.+)`", cells["example"])
    if fragment:
        yield from framed_cases(row, frames[kind.partition(" ")[0]][0], fragment[1], "no fault of shape")


def frame_of(turn: str, title: str, part: str) -> str:
    """The name of the frame of a part that is refused in a round: the parts that begin as lines of the setup or as items are
    these, and the others what else the table is about."""
    heads = {"LINE": ("(create", "(put"), "ITEM": ("(do", "(stage", "(choice")}
    kinds = re.findall(r"[A-Z]+|sheet", title)
    meant = [kind for kind in kinds if part.startswith(heads.get(kind, ()))]
    return f"{turn} {(meant + [kind for kind in kinds if kind not in heads])[0]}"


def refusal_cases(row: Row, frames: Frames, turn: str, title: str, part: str, told: str) -> Iterator[Case]:
    """The cases of a part that is refused, in the frame of its round or of plans."""
    fragment, fault = re.fullmatch(r"`(.+)`", part), re.fullmatch(r"`(sheet|plan) (\w+) (\d+)`", told)
    if not fragment or not fault:
        return
    source = frames[frame_of(turn, title, fragment[1])][0].replace("@", fragment[1])
    if fault[1] == "plan":
        yield from told_cases(row, source, int(fault[3]), f"plan {fault[2]}")
    else:
        yield fault_case(row, "sheet", source, (fault[2], int(fault[3])))
