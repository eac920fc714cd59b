"""The whole of a series: all its matches, and the one text in which they stand."""

import re
import sys
from pathlib import Path

from pieces.folder import Series
from pieces.program import Program
from tables.ending import TEXT, Refused
from tables.grammar import end_of_head
from tables.house import Match, Reader, standings
from tables.running import read

# How many pieces are named where several are wrong.
NAMED = 10


def matches_of(series: Series) -> list[Match]:
    """The matches of a series, with their numbers in it."""
    refuse_faults(series)
    return [match for number in range(len(series.pieces)) for match in piece_matches(series, number)]


def refuse_faults(series: Series) -> None:
    """Refuses a series that isn't as it was split, or of which a piece doesn't count."""
    numbers = range(len(series.pieces))
    for number in numbers:
        series.source(number)
    faults = {number: fault for number in numbers if (fault := series.fault(number))}
    if faults:
        first = next(iter(faults))
        named = f"{' '.join(map(str, list(faults)[:NAMED]))}{' ..' if len(faults) > NAMED else ''}"
        raise Refused(
            TEXT,
            f"piece {first} {faults[first]}; {len(faults)} of {len(numbers)} pieces don't count: {named}; "
            f"`series run {series.folder} {first}` plays the first of them",
        )


def piece_matches(series: Series, number: int) -> list[Match]:
    """The matches of a piece, which are to be those of the series."""
    piece, file = series.piece(number), series.file(number, "transcript")
    matches = Reader(str(file), read(file)).matches()
    wanted = [series.plan.seeds(piece.begin + at) for at in range(piece.matches)]
    if [(it.deal, it.seats) for it in matches] != wanted or len(matches[0].scores) != len(series.plan.strategies):
        raise Refused(TEXT, f"{file} hasn't the matches of piece {number}")
    return [match._replace(number=piece.begin + match.number) for match in matches]


def merge(folder: Path) -> None:
    """Writes the one house text of the series, where one plan may have as many matches and turns, once it is judged legal."""
    series = Series(folder)
    plan, count = series.plan, series.plan.matches()
    if count > plan.most():
        raise Refused(TEXT, f"no text has the {count} matches of the series: with {plan.turns} turns it has at most {plan.most()}")
    matches = matches_of(series)
    texts = [read(series.file(number, "transcript")) for number in range(len(series.pieces))]
    parts = [renumbered(text, piece.begin) for text, piece in zip(texts, series.pieces)]
    text = texts[0][: end_of_head(texts[0])] + b"".join(parts) + "".join(standings(matches)).encode()
    Program().judge(series.sheet() + b"\n" + plan.part(0, count), text)
    sys.stdout.buffer.write(text)


def renumbered(text: bytes, begin: int) -> bytes:
    """The lines of the matches of a house text, which are numbered from this number on."""
    body = text[end_of_head(text) : text.index(b"\nstanding ") + 1]
    return re.sub(rb"^match (\d+)", lambda found: b"match %d" % (begin + int(found[1])), body, flags=re.MULTILINE)
