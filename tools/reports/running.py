"""The command `report`."""

from __future__ import annotations

import argparse
import os
import shlex
from pathlib import Path
from urllib.parse import quote

from pieces.program import Program
from replays.page import replay_page
from replays.running import ITEMS, add_files, data_of, titled, write
from replays.sources import sources_of
from reports.gathering import tell
from reports.matches import remarkable
from reports.page import report_page
from reports.records import write_records
from reports.report import Report
from tables.ending import USAGE, Refused, status_of
from tables.running import Words
from telling import printable

# How many matches are followed where nothing is said.
COURSES = 200


def parser() -> argparse.ArgumentParser:
    words = Words("cardhouse report", description="A page that tells what came of the matches of a plan.", allow_abbrev=False)
    add_files(words)
    words.add_argument("--csv", type=Path, metavar="DIR", help="write what was counted to files of this folder")
    followed = f"how many matches are followed, for scores on the way, offers and tests; {COURSES} where nothing is said"
    words.add_argument("--courses", type=int, default=COURSES, metavar="N", help=followed)
    words.add_argument("--replays", action="store_true", help="write the pages of the matches to look at beside it, and link them")
    return words


def main(words: list[str]) -> int:
    options = parser().parse_args(words)
    return status_of(lambda: report(options))


def report(options: argparse.Namespace) -> None:
    if options.replays and not options.out:
        raise Refused(USAGE, "replays are written beside the page: say where it goes with -o")
    program = Program()
    sheet, plan = sources_of(program, options.sheet, options.plan)
    found = Report(tell(program, sheet, plan, max(0, options.courses)))
    title = titled(options.sheet)
    links: dict[int, str] = {}
    for number in sorted({it[1] for it in remarkable(found)} if options.replays else ()):
        file = options.out.with_name(f"{options.out.stem}-{number}.html")
        write(file, replay_page(data_of(program, sheet, plan, number, None, ITEMS, title)))
        links[number] = quote(os.fsencode(file.name))
    if options.csv:
        write_records(options.csv, found)
    command = printable(shlex.join(["./cardhouse", "show", str(options.sheet), str(options.plan)]))
    write(options.out, report_page(found, title, links, command))
