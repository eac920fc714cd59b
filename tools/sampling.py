"""Samples what a run of the gate takes for each crate: the times of the processes below it, as Linux tells them in /proc."""

from __future__ import annotations

import os
import re
import time
from collections.abc import Callable, Iterable
from dataclasses import dataclass
from pathlib import Path

PROC = Path("/proc")
TICKS = os.sysconf("SC_CLK_TCK")
SECONDS_BETWEEN = 0.5
LOOKS_BETWEEN = 40

# A program or the tests of a crate, which the gate runs in a folder of its own.
RUN = re.compile(r".*/rt-run-[^/]*/bin/(\w+?)(?:_tests)?")

# A crate, and what is done with it.
Task = tuple[str, str]
PROOF, EDITS, TESTS = KINDS = ("proof", "edits", "tests")


@dataclass(frozen=True)
class Process:
    """A process: its number, its parent's, when it started, the ticks that it took, with those of the processes below it that it has
    waited for, and whether it has ended."""

    number: int
    parent: int
    start: int
    ticks: int
    ended: bool


def process_of(stat: str) -> Process:
    """The process that a file `stat` tells of. Its name, in parentheses, may hold any signs."""
    head, _, tail = stat.rpartition(")")
    fields = tail.split()
    number = int(head.split(maxsplit=1)[0])
    return Process(number, int(fields[1]), int(fields[19]), sum(map(int, fields[11:15])), fields[0] in ("Z", "X"))


def read_processes() -> dict[int, Process]:
    """All processes of this machine, by their numbers."""
    found = {}
    for folder in PROC.glob("[0-9]*"):
        try:
            process = process_of((folder / "stat").read_text("utf-8", "replace"))
        except OSError:
            continue
        found[process.number] = process
    return found


def busy_ticks() -> int:
    """The ticks that all processors of this machine were busy."""
    fields = [int(it) for it in (PROC / "stat").read_text("utf-8").split("\n", 1)[0].split()[1:8]]
    return sum(fields) - fields[3] - fields[4]


def task_of(words: list[str], folder: str) -> Task | None:
    """The task of a process with these words in this folder, if it has one. A must-fail edit is tried on a copy of its crate."""
    ran = next(filter(None, map(RUN.fullmatch, words)), None)
    if ran:
        return ran[1], TESTS
    if "--crate-name" in words[:-1]:
        crate = words[words.index("--crate-name") + 1]
    elif Path(folder).parent.name == "crates":
        crate = Path(folder).name
    else:
        return None
    if any(part.startswith("rt-edit") for part in Path(folder).parts):
        return crate, EDITS
    return crate, TESTS if "--test" in words or f"out/{crate}_tests" in words else PROOF


def read_task(number: int) -> Task | None:
    """The task of the process with this number."""
    try:
        words = (PROC / str(number) / "cmdline").read_text("utf-8", "replace").split("\0")
        return task_of(words, os.readlink(PROC / str(number) / "cwd"))
    except OSError:
        return None


def ticks_with_all_below(number: int, processes: dict[int, Process], children: dict[int, list[int]]) -> int:
    """The ticks of a process and of all that runs or ran below it."""
    return processes[number].ticks + sum(ticks_with_all_below(it, processes, children) for it in children.get(number, ()))


class Sampler:
    """What was seen of the tasks below a process. A process below one that has a task belongs to that task."""

    def __init__(self, top: int, read: Callable[[int], Task | None] = read_task) -> None:
        self.top = top
        self.read = read
        self.tasks: dict[tuple[int, int], Task] = {}
        self.ticks: dict[tuple[int, int], int] = {}

    def look(self, processes: dict[int, Process]) -> None:
        """Notes what each task has taken until now."""
        children: dict[int, list[int]] = {}
        for process in processes.values():
            children.setdefault(process.parent, []).append(process.number)
        waiting = list(children.get(self.top, ()))
        while waiting:
            number = waiting.pop()
            key = number, processes[number].start
            task = self.tasks.get(key) or self.read(number)
            if not task:
                waiting += children.get(number, ())
                continue
            self.tasks[key] = task
            self.ticks[key] = max(self.ticks.get(key, 0), ticks_with_all_below(number, processes, children))

    def taken(self) -> dict[Task, int]:
        """The ticks of each task, that all processes took that had it."""
        sums: dict[Task, int] = {}
        for key, task in self.tasks.items():
            sums[task] = sums.get(task, 0) + self.ticks[key]
        return sums


@dataclass(frozen=True)
class Taken:
    """What a task took: seconds of one processor, and whether the machine did much else at that time."""

    seconds: int
    beside_others: bool


BESIDE = {"alone": False, "busy": True}


def lines_of(taken: dict[Task, Taken]) -> Iterable[str]:
    """The lines of a file of what was taken."""
    word = {beside: word for word, beside in BESIDE.items()}
    return (f"{crate} {kind} {it.seconds} {word[it.beside_others]}\n" for (crate, kind), it in taken.items())


def read_lines(text: str) -> dict[Task, Taken]:
    """What such a file says."""
    rows = (line.split() for line in text.splitlines() if line and not line.startswith("#"))
    return {(crate, kind): Taken(int(seconds), BESIDE[word]) for crate, kind, seconds, word in rows}


def told(sampler: Sampler, seconds: float, others: int) -> str:
    """The file of what was sampled in so many seconds, where all else took so many ticks. That is much where it is more than a tenth
    of what the processors could do."""
    processors = os.cpu_count() or 1
    much = others > processors * seconds * TICKS / 10
    sums = sampler.taken()
    these = sum(sums.values()) // TICKS
    head = f"# {seconds:.0f} seconds on {processors} processors, of which this took {these} and all else {others // TICKS}\n"
    return head + "".join(lines_of({task: Taken(round(ticks / TICKS), much) for task, ticks in sums.items() if ticks >= TICKS}))


def follow(top: int, file: Path) -> None:
    """Samples what runs below a process until that ends, and writes it now and then, and at the end."""
    sampler, began, busy = Sampler(top), time.monotonic(), busy_ticks()
    processes = read_processes()
    start = processes[top].start
    sampler.look(processes)
    before = sum(sampler.taken().values())

    def write() -> None:
        others = busy_ticks() - busy - sum(sampler.taken().values()) + before
        file.write_text(told(sampler, time.monotonic() - began, max(0, others)), "utf-8")

    looks = 0
    while top in processes and processes[top].start == start and not processes[top].ended:
        sampler.look(processes)
        if looks % LOOKS_BETWEEN == 0:
            write()
        looks += 1
        time.sleep(SECONDS_BETWEEN)
        processes = read_processes()
    write()
