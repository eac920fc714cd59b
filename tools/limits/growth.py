"""How memory and instructions of each command grow with its source, by the kinds of sources."""

from __future__ import annotations

import os
from collections.abc import Iterator
from concurrent.futures import ThreadPoolExecutor
from dataclasses import dataclass
from itertools import groupby

from limits.counting import instructions
from limits.measuring import cost
from limits.sources import NO_SHEETS, PLAN, PLANS, SHEETS, SMALL, TEXTS, Kind

KIB = 1024
READ = (256 * KIB, 512 * KIB, 1024 * KIB)
JUDGED = (1024 * KIB, 2048 * KIB, 4096 * KIB)
COUNTED = (32 * KIB, 64 * KIB, 128 * KIB)

# Twice the source may take so many times as much.
MOST = 2.25

# Commands that play take as long as the sheet says.
OTHERS = (("watch", "0", "0"), ("rival", "0", "1", "1", "1"))
JUDGING = (("check",), ("migrate",), ("measure",))
PLAYING = ("play", "watch", "rival")

# Statuses.
NO_SHEET, NOT_LEGAL = 1, 4

# The kind of sheet that all commands read.
BY_ALL = "`or`, nested"


@dataclass(frozen=True)
class Growing:
    """A command on sources of a kind, the sizes at which its memory is measured, and the status with which it ends."""

    words: tuple[str, ...]
    kind: Kind
    sizes: tuple[int, ...]
    status: int = 0

    def __str__(self) -> str:
        return f"`{self.words[0]}`, {self.kind.name}"


@dataclass(frozen=True)
class Growth:
    """How many bytes of memory, and how many instructions, a command takes for each byte of its source, at three sizes each. Where
    instructions weren't counted there are none."""

    what: Growing
    memory: list[float]
    instructions: list[float]

    def faults(self) -> Iterator[str]:
        """Says what isn't linear."""
        for name, values in (("memory", self.memory), ("time", self.instructions)):
            if any(2 * later > MOST * before + 1 for before, later in zip(values, values[1:])):
                yield f"the {name} of {self.what} isn't linear"


def growing() -> Iterator[Growing]:
    """What is measured, kind by kind. Stages are left before their first round, so that nothing is played, and no transcript is legal."""
    for kind in NO_SHEETS:
        yield Growing(("sheet",), kind, READ, NO_SHEET)
    for kind in SHEETS:
        yield Growing(("sheet",), kind, READ)
        yield Growing(("play",), kind.between("", PLAN), READ)
        if kind.name == BY_ALL:
            yield from (Growing(words, kind.between("", PLAN), READ) for words in OTHERS)
            yield from (Growing(words, kind.between("", PLAN), JUDGED, NOT_LEGAL) for words in JUDGING)
    for kind in PLANS:
        yield Growing(("play",), kind, READ)
    for kind in TEXTS:
        yield from (Growing(words, kind.between(f"{SMALL}{PLAN}", ""), JUDGED, NOT_LEGAL) for words in JUDGING)


def counts(program: str, what: Growing) -> list[float]:
    """How many instructions a command takes for each byte of three sources, beyond those of its start."""
    words = list(what.words)
    begun = instructions(program, words, b"")
    sources = [what.kind.source(size) for size in COUNTED]
    return [(instructions(program, words, source) - begun) / len(source) for source in sources]


def peak(program: str, what: Growing, source: bytes) -> int:
    """The largest memory of a command on a source, in KiB."""
    took = cost(program, list(what.words), source)
    if took.status != what.status:
        raise RuntimeError(f"{what} ended with status {took.status} and the note '{took.note}'")
    return took.memory


def growth(program: str, what: Growing, counted: bool) -> Growth:
    """What a command takes for each byte of three sources, beyond what it takes where nothing is read."""
    idle = cost(program, list(what.words), b"").memory
    sources = [what.kind.source(size) for size in what.sizes]
    memory = [(peak(program, what, source) - idle) * KIB / len(source) for source in sources]
    is_counted = counted and (what.words[0] not in PLAYING or what.kind in PLANS)
    return Growth(what, memory, counts(program, what) if is_counted else [])


def growths(program: str, counted: bool) -> Iterator[list[Growth]]:
    """The growth of all, in order, those of a kind in one list; instructions too if they are to be counted."""
    with ThreadPoolExecutor(os.cpu_count()) as pool:
        found = pool.map(lambda what: growth(program, what, counted), growing())
        yield from (list(those) for _, those in groupby(found, lambda it: it.what.kind.name))
