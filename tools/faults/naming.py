"""Sentences on the lines of a transcript by which it names cards: its legend, and the marks of what items take."""

from __future__ import annotations

import re
import signal
from collections.abc import Iterator
from contextlib import contextmanager

from faults import kinds
from second.expressions import GROUP
from second.machine import Decision, Item, Machine
from second.naming import legend_of, marks_of
from second.playing import started
from second.sources import lists_of
from second.worlds import PLAYER, World
from tables.grammar import NAMED, format_of

MARKED = re.compile(r"choose \d+ \d+ \d+ \d+ (.*)")
MARK = re.compile(r"[pcg]\d+")

# How long a match is played for a sentence. A sheet may have loops for which no time is enough.
SECONDS = 10.0


def on_grammar(source: bytes, number: int) -> str:
    """On a line that no transcript has at that place. The sheet and the plan before it are accepted."""
    (sheet, _), text = lists_of(source, 2)
    line = line_of(text, number)
    is_named = format_of(text) is NAMED
    if number == 1:
        return kinds.FIRST_LINE
    if not is_named and line.startswith("face "):
        return kinds.FACE_IN_PLAIN
    if marked := MARKED.fullmatch(line):
        return kinds.MARKS if is_named else kinds.MARKS_IN_PLAIN if MARK.match(marked[1]) else kinds.GRAMMAR
    if not is_named:
        return kinds.GRAMMAR
    legend = legend_of(World(sheet[1][1:]))
    if number - 2 < len(legend):
        return kinds.LEGEND.format(legend[number - 2])
    return kinds.FACE_TOO_MANY.format(len(legend)) if line.startswith("face ") else kinds.GRAMMAR


def line_of(text: bytes, number: int) -> str:
    lines = text.decode("latin-1").split("\n")
    return lines[number - 1] if number <= len(lines) else ""


def on_marks(source: bytes, number: int) -> str:
    """On a choice with other marks than those of its item. What stands before it in its match is legal, and is played once more, if
    that doesn't take too long."""
    try:
        with within(SECONDS):
            return on_right_marks(source, number)
    except TimeoutError:
        return kinds.ILLEGAL["Named"]


@contextmanager
def within(seconds: float) -> Iterator[None]:
    """Ends the block with a TimeoutError where it takes longer."""

    def end(*_: object) -> None:
        raise TimeoutError

    before = signal.signal(signal.SIGALRM, end)
    signal.setitimer(signal.ITIMER_REAL, seconds)
    try:
        yield
    finally:
        signal.setitimer(signal.ITIMER_REAL, 0)
        signal.signal(signal.SIGALRM, before)


def on_right_marks(source: bytes, number: int) -> str:
    """On the marks that such a choice has, and those that it is to have."""
    (sheet, plan), text = lists_of(source, 2)
    lines = text.decode("latin-1").split("\n")[:number]
    begin = max((at for at, line in enumerate(lines) if line.startswith("match ")), default=0)
    machine = Machine(sheet)
    item = item_at(machine, int(plan[3][1]), lines[begin:])
    if not item:
        return kinds.ILLEGAL["Named"]
    told, right = lines[-1].split(" ")[5:], marks_of(machine, item)
    return f"{what_it_takes(machine, item, right)} {what_is_told(machine, told, right)}"


def item_at(machine: Machine, turns: int, lines: list[str]) -> Item | None:
    """The item that the last of these lines takes, of which the first begins a match, if it is there."""
    head, *choices = lines
    state = started(machine, int(head.split(" ")[3]))
    stop = machine.advance(state, turns)
    for at, choice in enumerate(choices, 1):
        item = int(choice.split(" ")[3])
        if not isinstance(stop, Decision) or item >= len(stop.menu):
            return None
        if at == len(choices):
            return stop.menu[item]
        machine.apply(state, stop, item)
        stop = machine.advance(state, turns)
    return None


def what_it_takes(machine: Machine, item: Item, right: list[str]) -> str:
    """What an item takes, with its marks."""
    if not right:
        return "This item takes no card, player or group by `any`, so that no mark belongs here."
    taken = [f"`{mark}`, {meaning(machine, sort, mark)}" for sort, mark in zip(item.sorts, right)]
    belong = "belongs" if len(right) == 1 else "belong"
    return f"Here {belong} `{' '.join(right)}`: {'; '.join(taken)}."


def what_is_told(machine: Machine, told: list[str], right: list[str]) -> str:
    """What the line tells in their place."""
    if not told:
        return "The line has no mark."
    sorts = {"p": PLAYER, "c": "", "g": GROUP}
    others = [f"`{mark}` is {meaning(machine, sorts[mark[0]], mark)}" for mark in dict.fromkeys(told) if mark not in right]
    return f"The line tells `{' '.join(told)}`{': ' if others else ''}{'; '.join(others)}."


def meaning(machine: Machine, sort: str, mark: str) -> str:
    """What a mark means, in words."""
    number = int(mark[1:])
    if sort == PLAYER:
        return f"player {number}" if number < machine.players else f"player {number}, who isn't there"
    if number not in machine.alike:
        return "no face of this sheet"
    face = " ".join(machine.values[number].values())
    return f"a group that begins with the card {face}" if sort == GROUP else f"the card {face}"
