#!/usr/bin/env python3
"""Writes the table of what the gate takes for each crate, and of how large the crates are, into docs/TIMES.md.

usage: tools/times.py                        writes the table: lines of the files as they stand, seconds of docs/times.txt
       tools/times.py sample PROCESS FILE    follows a run of the gate, by the number of its process, and writes its seconds to FILE
       tools/times.py take FILE [CRATE..]    puts what FILE says of all crates, or of these, into docs/times.txt, and writes the table

Seconds are those of one processor. A line of docs/times.txt has a crate, what was done (`proof`, `edits` or `tests`), the seconds
that it took, and `alone` or `busy`: whether the machine did much else beside it.
"""

from __future__ import annotations

import sys
from collections.abc import Iterable
from dataclasses import astuple, dataclass
from pathlib import Path

import sampling
from crates import listed
from sampling import EDITS, KINDS, PROOF, TESTS, Taken, Task

ROOT = Path(__file__).resolve().parent.parent
SECONDS, PAGE = "docs/times.txt", "docs/TIMES.md"
BEGIN, END = "<!-- tools/times.py writes the lines from here -->\n", "<!-- to here -->\n"
HEAD = "| crate | proof | edits | tests | code | tests | definitions | proofs | edits |\n|---|---|---|---|---|---|---|---|---|\n"


@dataclass(frozen=True)
class Size:
    """How many lines a crate has of code with contracts, of tests, of definitions and of proofs, and how many must-fail edits."""

    code: int
    tests: int
    definitions: int
    proofs: int
    edits: int


def lines_in(files: Iterable[Path]) -> int:
    return sum(len(file.read_text("utf-8").splitlines()) for file in files)


def is_test(crate: str, file: Path) -> bool:
    """Whether a file of code holds tests. Some file of that name holds the tests of sheets instead."""
    return crate.endswith("_tests") or "#[test]" in file.read_text("utf-8")


def size_of(root: Path, crate: str) -> Size:
    folder = root / "crates" / crate
    code = sorted(folder.glob("src/**/*.rt"))
    return Size(
        lines_in(file for file in code if not is_test(crate, file)),
        lines_in(file for file in code if is_test(crate, file)),
        lines_in(folder.glob("specs/**/*.antt")),
        lines_in(folder.glob("proofs/**/*.antt")),
        len(list(folder.glob("must-fail/*.edit"))),
    )


def cell(taken: Taken | None, is_done: bool) -> str:
    """What the table says of a task: a `?` where it is done and no one knows how long that takes."""
    if not taken:
        return "?" if is_done else ""
    return f"{taken.seconds}{'*' if taken.beside_others else ''}"


def kinds_of(size: Size) -> list[str]:
    """What is done for a crate of this size."""
    return [PROOF, *[EDITS] * (size.edits > 0), *[TESTS] * (size.tests > 0)]


def row_of(crate: str, size: Size, taken: dict[Task, Taken]) -> str:
    done = kinds_of(size)
    return row([f"`{crate}`", *(cell(taken.get((crate, kind)), kind in done) for kind in KINDS), *astuple(size)])


def row(cells: Iterable[object]) -> str:
    return f"| {' | '.join(map(str, cells))} |\n"


def chain_of(crates: dict[str, list[str]], taken: dict[Task, Taken]) -> tuple[int, list[str]]:
    """The crates that are proved one behind the other for the longest time, each on the one before, with the tests of the last."""
    chains: dict[str, tuple[int, list[str]]] = {}

    def seconds(crate: str, kinds: Iterable[str]) -> int:
        return sum(taken[crate, kind].seconds for kind in kinds if (crate, kind) in taken)

    def chain(crate: str) -> tuple[int, list[str]]:
        if crate not in chains:
            below = max((chain(it) for it in crates[crate] if it in crates), default=(0, []))
            chains[crate] = below[0] + seconds(crate, [PROOF]), [*below[1], crate]
        return chains[crate]

    return max((chain(it)[0] + seconds(it, [TESTS]), chain(it)[1]) for it in crates)


def table_of(root: Path, taken: dict[Task, Taken]) -> str:
    """What stands on the page between the marks."""
    crates = listed(root)
    sizes = {crate: size_of(root, crate) for crate in crates}
    rows = [row_of(crate, size, taken) for crate, size in sizes.items()]
    seconds = [sum(taken[crate, kind].seconds for crate in crates if (crate, kind) in taken) for kind in KINDS]
    rows.append(row(["all", *seconds, *map(sum, zip(*map(astuple, sizes.values())))]))
    longest, chain = chain_of(crates, taken)
    names = ", ".join(f"`{it}`" for it in chain)
    behind = f"The longest chain, in which each crate waits for the one before it, takes {longest} of these seconds: {names}.\n"
    return f"{HEAD}{''.join(rows)}\n{behind}"


def with_table(page: str, table: str) -> str:
    """The page with this table between its marks."""
    before, begin, rest = page.partition(BEGIN)
    _, end, after = rest.partition(END)
    if not begin or not end:
        raise ValueError(f"{PAGE} has no marks")
    return f"{before}{begin}\n{table}\n{end}{after}"


def write_table(root: Path) -> None:
    taken = sampling.read_lines((root / SECONDS).read_text("utf-8"))
    page = root / PAGE
    page.write_text(with_table(page.read_text("utf-8"), table_of(root, taken)), "utf-8")


def take(root: Path, file: Path, names: list[str]) -> None:
    """Puts what a file says into that of the repository, which tells of the crates in the order of crates.txt, and of what is done there."""
    kept = root / SECONDS
    text = kept.read_text("utf-8")
    new = sampling.read_lines(file.read_text("utf-8"))
    taken = {**sampling.read_lines(text), **{task: it for task, it in new.items() if not names or task[0] in names}}
    done = [(crate, kind) for crate in listed(root) for kind in kinds_of(size_of(root, crate))]
    ordered = {task: taken[task] for task in done if task in taken}
    head = "".join(line for line in text.splitlines(keepends=True) if line.startswith("#"))
    kept.write_text(head + "".join(sampling.lines_of(ordered)), "utf-8")


def main(words: list[str]) -> int:
    if len(words) == 3 and words[0] == "sample" and words[1].isdigit():
        sampling.follow(int(words[1]), Path(words[2]))
        return 0
    if len(words) > 1 and words[0] == "take":
        take(ROOT, Path(words[1]), words[2:])
    elif words:
        print(__doc__.strip(), file=sys.stderr)
        return 2
    write_table(ROOT)
    return 0


if __name__ == "__main__":
    sys.exit(main(sys.argv[1:]))
