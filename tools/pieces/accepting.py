"""Asks the program whether it accepts a sheet and the plan of a series, and tells where it doesn't."""

import re
from dataclasses import dataclass
from itertools import islice
from pathlib import Path

from faults.places import place_of
from faults.tokens import tokens
from inputs import SOURCE
from pieces.plans import SeriesPlan, plan_of
from pieces.program import Program, refusal
from tables.ending import Refused
from tables.running import read


@dataclass(frozen=True)
class Sources:
    """A sheet and the plan of a series, and their files."""

    sheet_file: Path
    plan_file: Path
    sheet: bytes
    plan: SeriesPlan

    def part(self, begin: int, matches: int) -> bytes:
        """The source of so many matches from one on."""
        return self.sheet + b"\n" + self.plan.part(begin, matches)

    def accept(self, program: Program, matches: int) -> None:
        """Asks that the sheet and a plan of so many matches are accepted. In a plan that is one of a series by its shape, only what
        stands before its matches may be faulty."""
        accept(program, self.part(0, matches), [(self.sheet_file, self.sheet), (self.plan_file, self.plan.text)])


def accept(program: Program, source: bytes, texts: list[tuple[Path, bytes]]) -> None:
    """Asks that a sheet and a plan are accepted, which stand in these files. Then `check` looks for a transcript behind them, and
    misses its first line."""
    judged = program.call(["check"], source)
    if (judged.returncode, judged.stderr.splitlines()[-1:]) != (4, [b"text 1"]):
        refused = refusal(judged)
        raise Refused(refused.status, located(str(refused), texts))


def located(note: str, texts: list[tuple[Path, bytes]]) -> str:
    """A note behind the file, the line and the column at which it points: in the sheet, or in the plan a byte behind its end."""
    told = re.fullmatch(r"(?:sheet|plan) \w+ (\d+)", note)
    if not told:
        return note
    (sheet_file, sheet), (plan_file, plan) = texts
    at = int(told[1])
    if at < len(sheet):
        told = ": sheet and plan are exchanged" if (head_of(sheet), head_of(plan)) == ("plan", "game") else ""
        return f"{placed(sheet_file, sheet, at)}: {note}{told}"
    return f"{placed(plan_file, plan, at - len(sheet) - 1)}: {note}"


def head_of(text: bytes) -> str:
    """The word with which the first list of a text begins; nothing where it begins otherwise."""
    first, head = (*(token.text for token in islice(tokens(text), 2)), "", "")[:2]
    return head if first == "(" else ""


def sources_of(sheet: Path, plan: Path, duplicate: bool) -> Sources:
    return Sources(sheet, plan, read(sheet, SOURCE), plan_of(str(plan), read(plan, SOURCE), duplicate))


def placed(file: Path, text: bytes, at: int) -> str:
    place = place_of(text, at)
    return f"{file}:{place.line}:{place.column}"
