"""The folder of a series: what was split, and what is known of each piece that was played."""

import json
from dataclasses import dataclass, fields
from itertools import accumulate
from pathlib import Path
from typing import Optional, TypeVar, get_args, get_origin

from inputs import SOURCE
from pieces.plans import plan_of
from pieces.program import digest
from tables.ending import TEXT, USAGE, Refused
from tables.running import read

SHEET, PLAN, WHOLE, SERIES = "game.sheet", "series.plan", "whole.plan", "series.json"

MISSING = "is missing"

MOST_PIECES = 100_000


@dataclass(frozen=True)
class Piece:
    """The match of the series with which a piece begins, how many it has, and the digest of its plan."""

    begin: int
    matches: int
    plan: str


@dataclass(frozen=True)
class Split:
    """What is kept in series.json: digests of the sheet, of the plan as it was given and of the program; the commit and the kit;
    whether each deal is played several times; the pieces; and the format of their transcripts."""

    sheet: str
    plan: str
    program: str
    commit: Optional[str]
    kit: Optional[str]
    duplicate: bool
    pieces: list[Piece]
    format: int = 1


@dataclass(frozen=True)
class Done:
    """What is kept in K.json of a piece that was played and judged: digests of its plan, its transcript and the program; the
    verdict; where it was played, in how many seconds, and what the program noted."""

    plan: str
    transcript: str
    program: str
    verdict: str
    host: str
    seconds: float
    note: str


Kept = TypeVar("Kept", Piece, Split, Done)


def made(kind: type[Kept], told: object) -> Kept:
    """What json told as an object of a kind. Raises a TypeError where a field is missing or too many, or isn't of its type."""
    found = kind(**told)  # type: ignore[arg-type]
    if not all(fits(getattr(found, it.name), it.type) for it in fields(found)):
        raise TypeError(told)
    return found


def fits(value: object, kind: object) -> bool:
    """Whether a value that json told is of the type of a field. A list is looked into elsewhere."""
    if get_origin(kind) is list:
        return isinstance(value, list)
    kinds = get_args(kind) or (kind,)
    return type(value) in kinds or (kind is float and type(value) is int)


class Series:
    """A series that was split into a folder."""

    def __init__(self, folder: Path) -> None:
        self.folder = folder
        kept = read(folder / SERIES)
        self.digest = digest(kept)
        # Lists inside one another, ever deeper, are a RecursionError.
        try:
            self.split = made(Split, json.loads(kept))
            self.pieces = [made(Piece, piece) for piece in self.split.pieces]
        except (TypeError, ValueError, RecursionError):
            raise self.changed(folder / SERIES) from None
        self.plan = plan_of(str(folder / PLAN), self.unchanged(folder / PLAN, self.split.plan), self.split.duplicate)
        if self.split.format not in (1, 2) or not self.are_pieces_whole():
            raise self.changed(folder / SERIES)

    def are_pieces_whole(self) -> bool:
        """Whether the pieces are the matches of the series, one piece behind the other, each from a match on at which it may begin."""
        counts = [piece.matches for piece in self.pieces]
        begins = [0, *accumulate(counts)]
        return (
            0 < len(counts) <= MOST_PIECES
            and min(counts) > 0
            and begins.pop() == self.plan.matches()
            and [piece.begin for piece in self.pieces] == begins
            and not any(begin % len(self.plan.strategies) for begin in begins)
        )

    def changed(self, file: Path) -> Refused:
        return Refused(TEXT, f"{file} isn't what split wrote")

    def file(self, number: int, ending: str) -> Path:
        return self.folder / f"{number}.{ending}"

    def piece(self, number: int) -> Piece:
        if not 0 <= number < len(self.pieces):
            raise Refused(USAGE, f"there is no piece {number}: the {len(self.pieces)} pieces are numbered from 0 on")
        return self.pieces[number]

    def sheet(self) -> bytes:
        return self.unchanged(self.folder / SHEET, self.split.sheet)

    def source(self, number: int) -> bytes:
        """The sheet and the plan of a piece, as they were split."""
        piece = self.piece(number)
        plan = self.unchanged(self.file(number, "plan"), piece.plan)
        if plan != self.plan.part(piece.begin, piece.matches):
            raise self.changed(self.folder / SERIES)
        return self.sheet() + b"\n" + plan

    def unchanged(self, file: Path, known: str) -> bytes:
        data = read(file, SOURCE)
        if digest(data) != known:
            raise self.changed(file)
        return data

    def done(self, number: int) -> Optional[Done]:
        """What is kept of a piece, if it was played."""
        file = self.file(number, "json")
        if not file.exists():
            return None
        try:
            return made(Done, json.loads(read(file, SOURCE)))
        except (TypeError, ValueError, RecursionError):
            raise Refused(TEXT, f"{file} isn't what run wrote") from None

    def played(self) -> int:
        """How many pieces are there."""
        names = {file.name for file in self.folder.iterdir()}
        return sum(f"{number}.json" in names for number in range(len(self.pieces)))

    def fault(self, number: int) -> Optional[str]:
        """Why a piece doesn't count; nothing where it is there as it was played by the series' program and judged legal."""
        piece, transcript = self.piece(number), self.file(number, "transcript")
        try:
            done = self.done(number)
        except Refused:
            return f"has a {number}.json that run didn't write"
        if not done or not transcript.exists():
            return MISSING
        if done.plan != piece.plan:
            return "was played by another plan"
        if done.program != self.split.program:
            return "was played by another program"
        if done.verdict != "legal":
            return "isn't legal"
        return None if self.is_transcript(transcript, done) else "isn't as it was judged"

    def is_transcript(self, file: Path, done: Done) -> bool:
        """Whether a file is the transcript that was judged. It may be one that is too long, or no file any more."""
        try:
            return digest(read(file)) == done.transcript
        except Refused:
            return False
