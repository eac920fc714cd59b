"""The command `show`."""

from __future__ import annotations

import argparse
import sys
from pathlib import Path
from typing import Any

from pieces.program import Program
from replays.encoding import page_data
from replays.gathering import gather
from replays.lines import replay_lines
from replays.page import replay_page
from replays.sources import Plan, Sheet, sources_of
from tables.ending import ABSENT, WRITE_FAULT, Refused, status_of
from tables.running import Words
from telling import printable

# How many items of menus are asked for, one play each, where nothing is said.
ITEMS = 600


def parser() -> argparse.ArgumentParser:
    words = Words("cardhouse show", description="A page that shows one match on a card table.", allow_abbrev=False)
    add_files(words)
    words.add_argument("--match", type=int, default=0, metavar="M", help="which match of the plan, from 0; 0 where nothing is said")
    words.add_argument("--seat", type=int, metavar="S", help="tell what this seat may know, and nothing else")
    words.add_argument("--text", action="store_true", help="lines for a terminal, one for each choice")
    items = f"tell the menus of a match where they have N items at most, {ITEMS} where nothing is said"
    words.add_argument("--items", type=int, default=ITEMS, metavar="N", help=items)
    return words


def add_files(words: argparse.ArgumentParser) -> None:
    """The sheet, the plan, and where a page goes."""
    words.add_argument("sheet", type=Path, metavar="GAME.sheet")
    words.add_argument("plan", type=Path, metavar="GAME.plan")
    words.add_argument("-o", dest="out", type=Path, metavar="FILE.html", help="where the page goes; else to standard output")


def main(words: list[str]) -> int:
    options = parser().parse_args(words)
    return status_of(lambda: show(options))


def show(options: argparse.Namespace) -> None:
    program = Program()
    sheet, plan = sources_of(program, options.sheet, options.plan)
    items = 0 if options.text else options.items
    data = data_of(program, sheet, plan, options.match, options.seat, items, titled(options.sheet))
    write(options.out, replay_lines(data) if options.text else replay_page(data))


def titled(file: Path) -> str:
    """A game's name by that of its file."""
    return printable(file.stem.replace("-", " ").capitalize())


def data_of(program: Program, sheet: Sheet, plan: Plan, match: int, only: int | None, items: int, title: str) -> dict[str, Any]:
    """What a page tells of a match: as all seats see it, or only one."""
    if not 0 <= match < len(plan.matches):
        raise Refused(ABSENT, f"absent: the plan has the matches 0 to {len(plan.matches) - 1}")
    if only is not None and not 0 <= only < sheet.players:
        raise Refused(ABSENT, f"absent: the sheet has the seats 0 to {sheet.players - 1}")
    seats = list(range(sheet.players)) if only is None else [only]
    return page_data(gather(program, sheet, plan, match, seats, items), sheet, plan, title, only)


def write(out: Path | None, text: str) -> None:
    """Writes to a file, or to standard output."""
    if out is None:
        sys.stdout.buffer.write(text.encode())
        return
    try:
        out.write_text(text, "utf-8")
    except OSError as error:
        raise Refused(WRITE_FAULT, f"{out}: {error.strerror}") from None
