"""Splits a series into pieces: a folder with a plan for each."""

from __future__ import annotations

import json
import os
import shlex
from collections.abc import Iterator
from dataclasses import asdict, replace
from pathlib import Path

from inputs import SOURCE
from pieces.accepting import Sources
from pieces.folder import MOST_PIECES, PLAN, SERIES, SHEET, WHOLE, Piece, Split
from pieces.plans import SeriesPlan, size_of
from pieces.program import Program, commit, digest, kit
from pieces.storing import remove_left, whole_folder, write_object
from tables.ending import TOO_LONG, WRITE_FAULT, Refused
from telling import printable

# A trial is long enough to tell how long a piece takes where it takes so many seconds.
TRIAL = 1.0

# How many bytes the plans of all pieces have at most where no option says otherwise.
MOST_BYTES = 1_000_000_000

# What stands for a digest until that is known.
NO_DIGEST = 64 * "0"


def split(folder: Path, sources: Sources, size: int | None, seconds: float | None, format: int, large: bool) -> None:
    """Splits a series. Nothing is written where the sheet or the plan is refused, or the folder would be too large."""
    refuse_there(folder)
    program, plan = Program(), sources.plan
    sources.accept(program, min(size_of(plan, plan.most()), plan.matches()))
    wanted = size or min(even(plan, processors()), matches_in(seconds, program, sources, format) if seconds else plan.most())
    pieces = list(pieces_of(sources, size_of(plan, wanted)))
    told = f"{len(pieces)} pieces" if len(pieces) > 1 else "1 piece"
    told += f" of at most {pieces[0].matches} matches"
    of_plans = sum(plan.length(piece.begin, piece.matches) for piece in pieces)
    if of_plans > MOST_BYTES and not large:
        raise Refused(TOO_LONG, f"{told} have plans of {in_units(of_plans)}, more than 1 GB; `--large` writes them all the same")
    digests = digest(sources.sheet), digest(plan.text), program.digest()
    kept = Split(*digests, commit(), kit(), plan.duplicate, pieces, format)
    print(f"{told}, {in_units(of_plans + bytes_beside_plans(sources, kept))} to write", flush=True)
    write(folder, sources, kept)
    print(printable(f"written: `series make {shlex.quote(str(folder))} -j 4` plays four at a time"))


def processors() -> int:
    """How many processors this process may use."""
    return len(os.sched_getaffinity(0))


def even(plan: SeriesPlan, pieces: int) -> int:
    """How many matches a piece has at most where there are to be so many pieces, but at least one for each strategy."""
    return max(len(plan.strategies), plan.matches() // pieces)


def refuse_there(folder: Path) -> None:
    """Refuses a folder that is there already."""
    if os.path.lexists(folder):
        raise Refused(WRITE_FAULT, f"{folder}: File exists")


def pieces_of(sources: Sources, size: int) -> Iterator[Piece]:
    """The pieces of a series, each of this size but for the last, without the digests of their plans."""
    matches = sources.plan.matches()
    if matches > MOST_PIECES * size:
        raise Refused(TOO_LONG, f"{matches} matches are more than {MOST_PIECES} pieces of {size}")
    for begin in range(0, matches, size):
        count = min(size, matches - begin)
        if len(sources.sheet) + 1 + sources.plan.length(begin, count) > SOURCE:
            raise Refused(TOO_LONG, f"the sheet and the plan of a piece have more than {SOURCE} bytes")
        yield Piece(begin, count, NO_DIGEST)


def bytes_beside_plans(sources: Sources, kept: Split) -> int:
    """How many bytes the files of a folder have in all, without the plans of the pieces."""
    plan = sources.plan
    whole = plan.length(0, plan.matches()) if has_whole(sources) else 0
    return len(sources.sheet) + len(plan.text) + whole + len(json.dumps(asdict(kept), indent=1)) + 1


def has_whole(sources: Sources) -> bool:
    """Whether one plan may hold the whole series."""
    return sources.plan.matches() <= sources.plan.most()


def in_units(count: int) -> str:
    """A number of bytes as people read it."""
    units = (("GB", 10**9), ("MB", 10**6), ("KB", 10**3))
    return next((f"{count / unit:.1f} {name}" for name, unit in units if count >= unit), f"{count} bytes")


def matches_in(seconds: float, program: Program, sources: Sources, format: int) -> int:
    """About how many matches are played and judged in so many seconds here, but at least one for each seat. The first matches are
    played for it, ever more of them until that takes long enough to tell."""
    players, most = len(sources.plan.strategies), min(sources.plan.most(), sources.plan.matches())
    count = min(players, most)
    while True:
        took = program.play(sources.part(0, count), format).seconds
        if took >= TRIAL or count == most:
            return max(players, int(seconds / took * count))
        count = min(2 * count, most)


def write(folder: Path, sources: Sources, kept: Split) -> None:
    """Writes the folder, which is there once it is complete. The whole plan is written too where the program takes it."""
    plan, pieces = sources.plan, []
    folder = Path(os.path.abspath(folder))
    try:
        folder.parent.mkdir(parents=True, exist_ok=True)
        remove_left(folder.parent)
        with whole_folder(folder) as part:
            (part / SHEET).write_bytes(sources.sheet)
            (part / PLAN).write_bytes(plan.text)
            if has_whole(sources):
                (part / WHOLE).write_bytes(plan.part(0, plan.matches()))
            for number, piece in enumerate(kept.pieces):
                text = plan.part(piece.begin, piece.matches)
                (part / f"{number}.plan").write_bytes(text)
                pieces.append(replace(piece, plan=digest(text)))
            write_object(part / SERIES, replace(kept, pieces=pieces))
            refuse_there(folder)
    except OSError as error:
        raise Refused(WRITE_FAULT, f"{folder}: {error.strerror}") from None
