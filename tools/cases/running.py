"""Runs of the program: how they end, and what is expected of them."""

import re
import subprocess
from collections.abc import Callable, Iterator
from dataclasses import dataclass
from pathlib import Path

from cases.rows import ROOT, Mistake, Row

PROGRAM = ROOT / "crates/rc_main/out/rc_main"

# Commands that read a plan, and those behind whose plan nothing may stand.
ENDING = (("play",), ("watch", "0", "0"), ("rival", "0", "1", "1", "0"))
OF_PLANS = (*ENDING, ("check",), ("migrate",), ("measure",))
SECONDS = 60


@dataclass(frozen=True)
class End:
    """How a run ended: its status, and what it wrote to standard output and standard error."""

    status: int
    out: str
    notes: str

    def fault(self) -> tuple[str, int] | None:
        """The kind and the offset of the fault of the sheet, if that is how the run ended."""
        return self.told("sheet", 1)

    def plan_fault(self) -> tuple[str, int] | None:
        """The kind and the offset of the fault of the plan, if that is how the run ended."""
        return self.told("plan", 3)

    def told(self, what: str, status: int) -> tuple[str, int] | None:
        told = re.fullmatch(rf"{what} (\w+) (\d+)\n", self.notes)
        return (told[1], int(told[2])) if told and self.status == status and not self.out else None

    def __str__(self) -> str:
        if fault := self.fault():
            return "{} at {}".format(*fault)
        if fault := self.plan_fault():
            return "plan {} at {}".format(*fault)
        if self.status == 0:
            return f"accepted, with the text {self.out!r}"
        return f"status {self.status} with the note {self.notes!r}"


@dataclass(frozen=True)
class Case:
    """A run of a program: where it stands, the words, the source, what is expected, and which program it is if not `cardhouse`."""

    row: Row
    words: tuple[str, ...]
    source: str
    expected: str
    is_met: Callable[[End], bool]
    program: Path | None = None

    def run(self) -> str | None:
        """Returns what is to be said where the case fails, and otherwise nothing."""
        try:
            end = run(self.words, self.source, self.program)
        except subprocess.TimeoutExpired:
            return self.said(f"no end within {SECONDS} seconds")
        return None if self.is_met(end) else self.said(str(end))

    def said(self, found: str) -> str:
        return f"{self.row.place()}: expected {self.expected}, found {found[:2000]}\n    {self.source[:2000]}"


def run(words: tuple[str, ...], source: str, program: Path | None = None) -> End:
    command = [str(program or PROGRAM).encode(), *(word.encode() for word in words)]
    ran = subprocess.run(command, input=source.encode("latin-1"), capture_output=True, timeout=SECONDS)
    return End(ran.returncode, ran.stdout.decode("latin-1"), ran.stderr.decode("latin-1"))


def ends_as(end: End) -> Callable[[End], bool]:
    return lambda ended: ended == end


def fault_case(row: Row, command: str, source: str, fault: tuple[str, int]) -> Case:
    """The case of a source of which a command tells this fault of its sheet."""
    return Case(row, (command,), source, "{} at {}".format(*fault), lambda end: end.fault() == fault)


def told_cases(row: Row, source: str, at: int, expected: str) -> Iterator[Case]:
    """The cases of a source of which all commands that read a plan tell a fault, of its plan or of its sheet. What follows the plan is
    a fault for `play`, `watch` and `rival` alone."""
    what, kind = expected.split()
    told = End.plan_fault if what == "plan" else End.fault
    for words in ENDING if kind == "Rest" else OF_PLANS:
        yield Case(row, words, source, f"{expected} at {at}", lambda end: told(end) == (kind, at))
    if kind == "Rest":
        yield untold_case(row, source)


def untold_case(row: Row, source: str) -> Case:
    """The case of a plan without a fault, behind which `check` finds no line of a transcript."""
    return Case(row, ("check",), source, "text 1", ends_as(End(4, "", "text 1\n")))


def build() -> None:
    """Has the program built where it isn't, as its script does, and sees that it runs."""
    ran = subprocess.run([ROOT / "cardhouse", "--proved", "sheet"], input=b"", stdout=subprocess.DEVNULL, stderr=subprocess.PIPE)
    if ran.returncode != 1 or not ran.stderr.endswith(b"sheet Shape 0\n"):
        raise Mistake(f"the program can't be run: {ran.stderr.decode(errors='replace')}")
