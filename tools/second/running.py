"""The commands, as the program has them."""

import sys
from collections.abc import Iterator
from dataclasses import dataclass
from itertools import islice
from pathlib import Path

from second.commands import BENCH, CHECK, MEASURE, MIGRATE, PLAY, RIVAL, SHEET, USAGE, WATCH, Command, command_of
from second.forms import form_fault
from second.judging import Judge
from second.machine import Machine
from second.measuring import measured
from second.naming import legend_of
from second.parts import top_lists
from second.plans import REST, SHAPE, plan_fault
from second.playing import matches_of, played, replayed
from second.printing import printed
from second.refusing import sheet_fault
from second.searching import rivaled
from second.sources import Form, lists_of
from second.strategies import hits_of
from second.watching import watched
from tables.grammar import NAMED, first_fault, format_of

TRICKS = Path(__file__).resolve().parent.parent.parent / "bench/tricks.sheet"
BENCH_PLAN = "(plan (seats (random 1) (rollout 4 2) (random 3) (rollout 4 4)) (matches (from {0} 1000 {0})) (turns 64))"

# The most bytes of a source, by command.
LONGEST, LONGEST_TEXT = 1_048_576, 33_554_432
LIMITS = dict.fromkeys((PLAY, SHEET, WATCH, RIVAL), LONGEST) | dict.fromkeys((CHECK, MIGRATE, MEASURE), LONGEST_TEXT)

# The commands whose source ends with the plan.
OF_PLANS = (PLAY, WATCH, RIVAL)

DONE, OF_SHEET, OF_WORDS, OF_PLAN, OF_TEXT, TOO_LONG, OF_ABSENCE = 0, 1, 2, 3, 4, 8, 10


@dataclass(frozen=True)
class Ended:
    """How a command ends: its status, and what it writes to standard output and to standard error."""

    status: int
    text: str = ""
    note: str = ""


def refusal(command: str, source: bytes) -> Ended | None:
    """How a command ends that refuses a source for what stands before a transcript."""
    if len(source) > LIMITS[command]:
        return Ended(TOO_LONG, note="too long\n")
    if fault := form_fault(source, 1 if command == SHEET else 2) or first_fault_of_sheet(source):
        return Ended(OF_SHEET, note="sheet {} {}\n".format(*fault))
    if command != SHEET and (fault := fault_of_plan(source, command in OF_PLANS)):
        return Ended(OF_PLAN, note="plan {} {}\n".format(*fault))
    return None


def first_fault_of_sheet(source: bytes) -> tuple[str, int] | None:
    lists, rest = lists_of(source, 1)
    return sheet_fault(source) if lists else (SHAPE, len(source) - len(rest))


def fault_of_plan(source: bytes, ends: bool) -> tuple[str, int] | None:
    """The fault of the plan of an accepted sheet, behind which the source may be to end."""
    (sheet, *plans), rest = lists_of(source, 2)
    begin = len(source) - len(rest)
    if not plans:
        return SHAPE, begin
    _, plan = islice(top_lists(source), 2)
    players = Machine(sheet).players
    return plan_fault(plan, players) or ((REST, begin) if ends and rest else None)


def judged(sheet: Form, plan: Form, text: bytes) -> tuple[Ended | None, list[int]]:
    """How `check` refuses a transcript, and the items that it has."""
    named = format_of(text) is NAMED
    judge = Judge(sheet, plan, named)
    legend = [f"{line}\n".encode("latin-1") for line in legend_of(judge.machine)]
    if line := first_fault(text, legend):
        return Ended(OF_TEXT, note=f"text {line}\n"), []
    told = judge.first_illegal(text.decode("latin-1").splitlines())
    return Ended(OF_TEXT, note="illegal {} {}\n".format(*told)) if told else None, judge.items


def items_of(text: str) -> Iterator[int]:
    """The items that a transcript has."""
    return (int(line.split()[3]) for line in text.splitlines() if line.startswith("choose "))


def ended(command: Command, source: bytes) -> Ended:
    """How a command ends that reads a source."""
    if refused := refusal(command.name, source):
        return refused
    lists, text = lists_of(source, 1 if command.name == SHEET else 2)
    if command.name == SHEET:
        return Ended(DONE, printed(lists[0]))
    if command.name == PLAY:
        played_text, asks = played(*lists, named=command.format == 2)
        return Ended(DONE, played_text, looks_note(asks, command.room))
    if command.name == WATCH:
        return log(*lists, *command.numbers)
    if command.name == RIVAL:
        return house_of_rival(*lists, *command.numbers)
    refused, items = judged(*lists, text)
    if refused:
        return refused
    if command.name == MEASURE:
        return Ended(DONE, measured(text.decode("latin-1"), Machine(lists[0]).players))
    return Ended(DONE, "legal\n" if command.name == CHECK else replayed(*lists, iter(items), named=True))


def log(sheet: Form, plan: Form, seat: int, number: int) -> Ended:
    """How `watch` ends of an accepted sheet and plan."""
    if seat >= Machine(sheet).players or number >= len(matches_of(plan)):
        return Ended(OF_ABSENCE, note="absent\n")
    return Ended(DONE, watched(sheet, plan, seat, number))


def house_of_rival(sheet: Form, plan: Form, strategy: int, depth: int, rounds: int, key: int) -> Ended:
    """How `rival` ends of an accepted sheet and plan."""
    if strategy >= Machine(sheet).players:
        return Ended(OF_ABSENCE, note="absent\n")
    return Ended(DONE, rivaled(sheet, plan, strategy, depth, rounds, key))


def bench(command: Command) -> Ended:
    """How a bench ends."""
    plan = BENCH_PLAN.format(command.matches)
    text, asks = played(*lists_of(TRICKS.read_bytes() + plan.encode(), 2)[0])
    lines = text.splitlines(keepends=True)
    decisions, limits = (sum(line.startswith(head) for line in lines) for head in ("choose ", "end limit "))
    head = f"bench {command.matches}\nmatches {command.matches}\ndecisions {decisions}\nlimits {limits}\n"
    return Ended(DONE, head + "".join(line for line in lines if line.startswith("standing")), looks_note(asks, command.room))


def looks_note(asks: list[tuple], room: int) -> str:
    return f"cache looks {len(asks)} hits {hits_of(asks, room)}\n"


def main(words: list[str]) -> int:
    """Reads standard input, and writes what the program is to write. How many workers play changes nothing here."""
    command = command_of(words)
    if not command:
        end = Ended(OF_WORDS, note=f"{USAGE}\n")
    else:
        end = bench(command) if command.name == BENCH else ended(command, sys.stdin.buffer.read())
    sys.stdout.buffer.write(end.text.encode("latin-1"))
    sys.stderr.buffer.write(end.note.encode("latin-1"))
    return end.status
