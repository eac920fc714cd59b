"""Tells which crates a change touches, with those that stand on them, lowest first, and how many seconds of one processor each takes.

usage: tools/changed [REVISION]            compares the files of this checkout with a revision, or with HEAD
       tools/changed --check [REVISION]    then runs `rt check` in each of these crates in turn, and stops at the first that fails

A crate is touched where a file of its code, definitions or proofs differs, or what crates.txt lists for it. Files that git isn't told of
yet count too, but for those that it ignores. Seconds are those of docs/times.txt, from nothing; over work that was kept a check takes less.
Of the crates below the first of these it tells those of which no check has left a library in this checkout.
A `?` stands where no time is known, and a `*` behind one that was taken while the machine did much else.
"""

from __future__ import annotations

import shutil
import signal
import subprocess
import sys
from collections import Counter
from collections.abc import Iterable, Iterator
from dataclasses import dataclass
from pathlib import Path

from attended import attended, tied
from crates import FOLDERS, listed, listed_in
from sampling import KINDS, PROOF, Task, Taken, read_lines
from tables.ending import NOT_BUILT, USAGE, Refused, status_of
from times import SECONDS, cell, kinds_of, size_of
from trying import NO_KIT

ROOT = Path(__file__).resolve().parent.parent
LISTING = "crates.txt"


@dataclass(frozen=True)
class Change:
    """The crates, lowest first, of which a change has the proof made anew: how many files of each were changed, which may be none; and
    the other files that were changed."""

    crates: dict[str, int]
    others: list[str]


def git(root: Path, *words: str) -> str:
    """What git writes. Refused where it can't do what it is asked for."""
    try:
        ran = subprocess.run(["git", *words], cwd=root, capture_output=True, text=True)
    except OSError as error:
        raise Refused(NOT_BUILT, f"tools/changed: git: {error.strerror}") from None
    if ran.returncode:
        raise Refused(USAGE, f"tools/changed: {ran.stderr.strip()}")
    return ran.stdout


def commit_of(root: Path, revision: str) -> str:
    """The commit of a revision."""
    found = git(root, "rev-list", "--max-count=1", "--ignore-missing", "--end-of-options", revision, "--").strip()
    if not found:
        raise Refused(USAGE, f"tools/changed: there is no revision '{revision}'")
    return found


def changed_files(root: Path, commit: str) -> list[str]:
    """The files that differ from those of a commit, also by being there or not."""
    differ = git(root, "diff", "--name-only", "--no-renames", "--relative", "-z", commit, "--")
    new = git(root, "ls-files", "--others", "--exclude-standard", "-z")
    return sorted({name for name in (differ + new).split("\0") if name})


def crate_of(name: str) -> str | None:
    """The crate whose proof reads this file."""
    folder, *parts = name.split("/")
    return parts[0] if folder == "crates" and len(parts) > 2 and parts[1] in FOLDERS else None


def lowest_first(crates: dict[str, list[str]]) -> list[str]:
    """The crates in such an order that each stands behind those that it stands on."""
    ordered: dict[str, None] = {}

    def add(crate: str) -> None:
        if crate not in ordered:
            for library in crates[crate]:
                if library in crates:
                    add(library)
            ordered[crate] = None

    for crate in crates:
        add(crate)
    return list(ordered)


def change_of(root: Path, revision: str) -> Change:
    """What has changed since a revision."""
    commit, crates = commit_of(root, revision), listed(root)
    there_before = git(root, "ls-tree", "--name-only", commit, LISTING)
    before = listed_in(git(root, "show", f"{commit}:./{LISTING}")) if there_before else {}
    files, others = dict.fromkeys(crates, 0), []
    for name in changed_files(root, commit):
        crate = crate_of(name)
        if crate in files:
            files[crate] += 1
        elif name != LISTING:
            others.append(name)
    anew: set[str] = set()
    for crate in lowest_first(crates):
        if files[crate] or crates[crate] != before.get(crate) or anew & {*crates[crate]}:
            anew.add(crate)
    return Change({crate: files[crate] for crate in lowest_first(crates) if crate in anew}, others)


def rows_of(root: Path, change: Change, taken: dict[Task, Taken]) -> Iterator[list[str]]:
    """The rows of the table: a crate, the seconds of each task, and how many of its files were changed."""
    yield ["crate", *KINDS, "changed"]
    for crate, files in change.crates.items():
        done = kinds_of(size_of(root, crate))
        cells = [cell(taken.get((crate, kind)), kind in done) for kind in KINDS]
        yield [crate, *cells, f"{files} file{'s' * (files > 1)}" if files else ""]
    sums = [sum(taken[crate, kind].seconds for crate in change.crates if (crate, kind) in taken) for kind in KINDS]
    yield [f"all {len(change.crates)}", *map(str, sums), f"in all {sum(sums)} seconds"]


def unknown_in(root: Path, change: Change, taken: dict[Task, Taken]) -> Iterator[str]:
    """The tasks that take no one knows how long."""
    for crate in change.crates:
        kinds = [kind for kind in kinds_of(size_of(root, crate)) if (crate, kind) not in taken]
        if kinds:
            yield f"{crate} ({' and '.join(kinds)})"


def unbuilt_below(root: Path, crate: str) -> list[str]:
    """The crates on which one stands, lowest first, of which no check has left a library here."""
    crates = listed(root)
    below, ahead = set(), [crate]
    while ahead:
        libraries = {library for library in crates[ahead.pop()] if library in crates} - below
        below |= libraries
        ahead += libraries
    # A library that the gate has left has no stamp, and no check takes it.
    return [it for it in lowest_first(crates) if it in below and not (root / "crates" / it / "out/rlib/stamp").is_file()]


def told_below(root: Path, crate: str, taken: dict[Task, Taken]) -> Iterator[str]:
    """What is told of the crates below the first that is to be checked."""
    crates = unbuilt_below(root, crate)
    if crates:
        seconds = sum(taken[it, PROOF].seconds for it in crates if (it, PROOF) in taken)
        yield f"below {crate} no check has left a library here of {', '.join(crates)}:"
        yield f"`rt check` proves these first ({seconds} seconds) if no check in another checkout did; `rt ci {crate}` takes what `rt ci` has kept"


def lines_of(root: Path, change: Change) -> Iterator[str]:
    """What is told of a change."""
    if change.crates:
        file = root / SECONDS
        taken = read_lines(file.read_text("utf-8")) if file.is_file() else {}
        yield from laid_out(list(rows_of(root, change, taken)))
        unknown = list(unknown_in(root, change, taken))
        if unknown:
            yield f"unknown: {', '.join(unknown)}"
        yield from told_below(root, next(iter(change.crates)), taken)
    else:
        yield "no crate is touched"
    strays = sorted({crate for crate in map(crate_of, change.others) if crate})
    if strays:
        yield f"{LISTING} doesn't list {', '.join(strays)}"
    unread = Counter(name.partition("/")[0] for name in change.others if not crate_of(name))
    if unread:
        yield f"no proof reads what was changed of {', '.join(f'{folder} ({count})' for folder, count in unread.items())}"


def laid_out(rows: list[list[str]]) -> Iterator[str]:
    """The rows of a table whose columns stand one below the other: words to the left, numbers to the right."""
    widths = [max(map(len, column)) for column in zip(*rows)]
    for row in rows:
        cells = [it.ljust(width) if at in (0, len(row) - 1) else it.rjust(width) for at, (it, width) in enumerate(zip(row, widths))]
        yield "  ".join(cells).rstrip()


def check(root: Path, crates: Iterable[str]) -> None:
    """Has each crate proved in turn, until one of them isn't."""
    if not shutil.which("rt"):
        raise Refused(NOT_BUILT, f"tools/changed: {NO_KIT}")
    waiting = list(crates)
    while waiting:
        crate = waiting.pop(0)
        print(f"tools/changed: rt check in {crate}", file=sys.stderr, flush=True)
        how = {"cwd": root / "crates" / crate, "stdin": subprocess.DEVNULL, "preexec_fn": tied(signal.SIGTERM)}
        with subprocess.Popen(["rt", "check"], **how) as process, attended(process):
            status = process.wait()
        if status:
            behind = f"; not checked: {', '.join(waiting)}" if waiting else ""
            raise Refused(max(status, 1), f"tools/changed: {crate} isn't proved{behind}")


def run(root: Path, revision: str, checks: bool) -> None:
    change = change_of(root, revision)
    for line in lines_of(root, change):
        print(line, flush=True)
    if checks:
        check(root, change.crates)


def main(words: list[str], root: Path = ROOT) -> int:
    checks = words[:1] == ["--check"]
    named = words[checks:]
    if len(named) > 1 or any(word.startswith("-") for word in named):
        print((__doc__ or "").strip(), file=sys.stderr)
        return USAGE
    return status_of(lambda: run(root, (named or ["HEAD"])[0], checks))
